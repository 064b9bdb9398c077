//! A file taken into a holding, and its undo.
use super::holding::{met, MOST_LINES};
use super::records::{written, Key, Record};
use super::{fault, file, holding, Fault};
use std::collections::BTreeMap;

pub type Held = BTreeMap<Key, Record>;

pub struct Loaded {
    pub counts: [u64; 3],
    pub holding: Vec<u8>,
    pub undo: Vec<u8>,
    /// The longest that the holding was, before the first step or after any.
    pub peak: usize,
}

/// All tests of a load but that of the undo's length, with `room` for 13, then both results.
pub fn load(old: &[u8], change: &[u8], room: usize) -> Result<Loaded, Fault> {
    let mut held: Held = holding::check(old)?.into_iter().map(|line| (line.record.key.clone(), line.record)).collect();
    let file = file::check(change)?;
    let mut peak = length(&held);
    if peak > room {
        return fault(13, 0, 0);
    }
    let mut back = Vec::new();
    for (at, line) in file.body.iter().enumerate() {
        let before = step(&mut held, &line.record).or_else(|code| fault(code, at + 2, 0))?;
        let now = length(&held);
        if now > room {
            return fault(13, at + 2, 0);
        }
        peak = peak.max(now);
        back.push(taken_back(&line.record, before));
    }
    let mut undo = change[..file.body_start].to_vec();
    for (at, (kind, change, content)) in back.iter().rev().enumerate() {
        undo.extend(written(*kind, *change, at + 1, content));
    }
    undo.extend_from_slice(&change[file.body_end..]);
    Ok(Loaded { counts: file.counts(), holding: numbered(&held), undo, peak })
}

/// One step: what stood at the key before, or the code 10, 11, 16 or 12.
pub fn step(held: &mut Held, record: &Record) -> Result<Option<Record>, u64> {
    let present = held.contains_key(&record.key);
    if record.change == b'I' && present {
        return Err(10);
    }
    if record.change != b'I' && !present {
        return Err(11);
    }
    if record.change == b'I' && held.len() == MOST_LINES {
        return Err(16);
    }
    let before = match record.change {
        b'D' => held.remove(&record.key),
        _ => held.insert(record.key.clone(), record.clone()),
    };
    if held.values().all(|other| met(other, |key| held.contains_key(key))) { Ok(before) } else { Err(12) }
}

/// The kind, change and content of the step that takes a step back.
fn taken_back(record: &Record, before: Option<Record>) -> (u64, u8, Vec<u8>) {
    let kind = record.key.kind;
    match (record.change, before) {
        (b'U', Some(old)) => (kind, b'U', old.content),
        (_, Some(old)) => (kind, b'I', old.content),
        (_, None) => (kind, b'D', record.content.clone()),
    }
}

pub fn numbered(held: &Held) -> Vec<u8> {
    let line = |(at, record): (usize, &Record)| written(record.key.kind, b'I', at + 1, &record.content);
    held.values().enumerate().flat_map(line).collect()
}

/// The length of `numbered`: kind, change and number with their commas, content, CR LF.
fn length(held: &Held) -> usize {
    let digits = |number: usize| number.to_string().len();
    held.values().enumerate().map(|(at, record)| digits(at + 1) + record.content.len() + 10).sum()
}
