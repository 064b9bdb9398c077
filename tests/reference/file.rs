//! The check of a whole change file.
use super::forms::number;
use super::lines::{lines, Line};
use super::records::{record, wrong, Record, Sound};
use super::table::{kind_of, HELD_KINDS};
use super::{fault, placed, Fault};

const MOST_BODY_LINES: usize = 4096;

/// A body line, and where it stands in the file, without CR LF.
pub struct BodyLine {
    pub record: Record,
    pub start: usize,
    pub length: usize,
}

pub struct File {
    pub body: Vec<BodyLine>,
    /// Where the body begins and ends.
    pub body_start: usize,
    pub body_end: usize,
}

#[derive(Clone, Copy, PartialEq)]
enum Expected {
    Header,
    BodyOrMetadata,
    Trailer,
    Nothing,
}

impl File {
    /// The body lines with CHANGE_TYPE I, U and D.
    pub fn counts(&self) -> [u64; 3] {
        [b'I', b'U', b'D'].map(|change| self.body.iter().filter(|line| line.record.change == change).count() as u64)
    }
}

pub fn check(bytes: &[u8]) -> Result<File, Fault> {
    let mut file = File { body: Vec::new(), body_start: 0, body_end: 0 };
    let mut expected = Expected::Header;
    let found = lines(bytes);
    for (at, line) in found.iter().enumerate() {
        expected = take(&mut file, expected, at + 1, line)?;
    }
    if expected == Expected::Nothing { Ok(file) } else { fault(3, found.len() + 1, 0) }
}

fn follows(expected: Expected, kind: u64) -> Option<Expected> {
    match (expected, kind) {
        (Expected::Header, 10) => Some(Expected::BodyOrMetadata),
        (Expected::BodyOrMetadata, 29) => Some(Expected::Trailer),
        (Expected::BodyOrMetadata, held) if HELD_KINDS.contains(&held) => Some(Expected::BodyOrMetadata),
        (Expected::Trailer, 99) => Some(Expected::Nothing),
        _ => None,
    }
}

/// One line, its tests in the paper's order: 1, 2, 3, 9, 4, 5, 6, 7, 8.
fn take(file: &mut File, expected: Expected, at: usize, line: &Line) -> Result<Expected, Fault> {
    if !line.ending_right() {
        return fault(1, at, 0);
    }
    let Some(kind) = kind_of(line.identifier()) else { return fault(2, at, 1) };
    let Some(next) = follows(expected, kind) else { return fault(3, at, 0) };
    let held = HELD_KINDS.contains(&kind);
    if held && file.body.len() == MOST_BODY_LINES {
        return fault(9, at, 0);
    }
    if let Some((code, field, place)) = wrong(kind, line.text) {
        return placed(code, at, field, place);
    }
    if held {
        let record = record(kind, line.text);
        if number(&record.order) != file.body.len() as u64 + 1 {
            return fault(7, at, 3);
        }
        file.body.push(BodyLine { record, start: line.start, length: line.text.len() });
    }
    if kind == 99 && Sound::new(kind, line.text).value("RECORD_COUNT") != file.body.len() as u64 {
        return fault(8, at, 3);
    }
    let past = line.start + line.text.len() + 2;
    if kind == 10 {
        file.body_start = past;
    }
    if kind == 29 {
        file.body_end = line.start;
    }
    Ok(next)
}
