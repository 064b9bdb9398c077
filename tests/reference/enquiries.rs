//! Find, the record in force, and one field of a line.
use super::holding::HeldLine;
use super::lines::{fields, lines};
use super::records::Key;
use super::{fault, file, holding, Fault};

/// A part of the holding or of the file.
pub struct Part {
    pub in_file: bool,
    pub start: usize,
    pub length: usize,
}

fn held_part(held: &[HeldLine], key: &Key) -> Result<Part, Fault> {
    match held.iter().find(|line| line.record.key == *key) {
        Some(line) => Ok(Part { in_file: false, start: line.start, length: line.length }),
        None => fault(11, 0, 0),
    }
}

pub fn find(old: &[u8], kind: u64, number: u64) -> Result<Part, Fault> {
    if kind != 11 && kind != 21 {
        return fault(15, 0, 0);
    }
    held_part(&holding::check(old)?, &Key::numbered(kind, number))
}

/// The last body line that names the key, unless that is a delete; where none does, the held line.
pub fn in_force(old: &[u8], change: &[u8], kind: u64, number: u64) -> Result<Part, Fault> {
    if kind != 11 && kind != 21 {
        return fault(15, 0, 0);
    }
    let key = Key::numbered(kind, number);
    let held = holding::check(old)?;
    let file = file::check(change)?;
    match file.body.iter().rev().find(|line| line.record.key == key) {
        Some(line) if line.record.change == b'D' => fault(11, 0, 0),
        Some(line) => Ok(Part { in_file: true, start: line.start, length: line.length }),
        None => held_part(&held, &key),
    }
}

pub fn field(bytes: &[u8], line: u64, field: u64) -> Result<Part, Fault> {
    let found = part_at(bytes, line, field);
    found.map_or_else(|| fault(19, 0, 0), Ok)
}

fn part_at(bytes: &[u8], line: u64, field: u64) -> Option<Part> {
    let from_zero = |number: u64| usize::try_from(number.checked_sub(1)?).ok();
    let all = lines(bytes);
    let line = all.get(from_zero(line)?)?;
    let part = fields(line.text)?.get(from_zero(field)?)?.clone();
    Some(Part { in_file: false, start: line.start + part.start, length: part.len() })
}
