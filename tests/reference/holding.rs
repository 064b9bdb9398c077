//! The check of a whole holding.
use super::lines::{lines, Line};
use super::records::{record, wrong, Key, Record};
use super::table::{kind_of, HELD_KINDS};
use super::{fault, Fault};
use std::collections::BTreeSet;

pub const MOST_LINES: usize = 8192;

/// A held record, and where its line stands, without CR LF.
pub struct HeldLine {
    pub record: Record,
    pub start: usize,
    pub length: usize,
}

/// Form, order, PRO_ORDER and number of lines over all lines first; references second.
pub fn check(bytes: &[u8]) -> Result<Vec<HeldLine>, Fault> {
    let mut held: Vec<HeldLine> = Vec::new();
    for (at, line) in lines(bytes).iter().enumerate() {
        match sound(at + 1, line) {
            Some(record) if held.last().is_none_or(|before| before.record.key < record.key) => {
                held.push(HeldLine { record, start: line.start, length: line.text.len() });
            }
            _ => return fault(14, at + 1, 0),
        }
    }
    let keys: BTreeSet<&Key> = held.iter().map(|line| &line.record.key).collect();
    match held.iter().position(|line| !met(&line.record, |key| keys.contains(key))) {
        Some(at) => fault(14, at + 1, 0),
        None => Ok(held),
    }
}

fn sound(at: usize, line: &Line) -> Option<Record> {
    if at > MOST_LINES || !line.ending_right() {
        return None;
    }
    let kind = kind_of(line.identifier()).filter(|kind| HELD_KINDS.contains(kind))?;
    if wrong(kind, line.text).is_some() {
        return None;
    }
    let record = record(kind, line.text);
    (record.change == b'I' && record.order == at.to_string().as_bytes()).then_some(record)
}

/// Whether all that a record refers to is held; naming itself counts as unmet.
pub fn met(record: &Record, is_held: impl Fn(&Key) -> bool) -> bool {
    record.refers_to.iter().all(|key| *key != record.key && is_held(key))
}
