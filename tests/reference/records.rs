//! One line by itself: whether it is sound, and what it says.
use super::forms::{number, quoted};
use super::lines::fields;
use super::table::{columns, position};
use std::ops::Range;

/// Ordered by kind, then by the numbers, then by the text.
#[derive(Debug, Clone, PartialEq, Eq, PartialOrd, Ord)]
pub struct Key {
    pub kind: u64,
    pub numbers: Vec<u64>,
    pub text: Vec<u8>,
}

impl Key {
    /// A street's or a BLPU's key.
    pub fn numbered(kind: u64, value: u64) -> Key {
        Key { kind, numbers: vec![value], text: Vec::new() }
    }
}

#[derive(Debug, Clone)]
pub struct Record {
    pub key: Key,
    pub change: u8,
    pub order: Vec<u8>,
    /// Everything after the third field and its comma.
    pub content: Vec<u8>,
    pub refers_to: Vec<Key>,
}

/// What is wrong in the fields of a line: the code 4, 5 or 6, the field, and the place in a malformed one.
pub fn wrong(kind: u64, text: &[u8]) -> Option<(u64, usize, usize)> {
    let columns = columns(kind);
    let Some(parts) = fields(text).filter(|parts| parts.len() == columns.len()) else {
        return Some((4, 0, 0));
    };
    for (at, column) in columns.iter().enumerate() {
        let place = column.form.place(!column.may_be_empty, &text[parts[at].clone()]);
        if place != 0 {
            return Some((5, at + 1, place));
        }
    }
    let (start, end) = (position(kind, "START_DATE")?, position(kind, "END_DATE")?);
    let (start_date, end_date) = (&text[parts[start].clone()], &text[parts[end].clone()]);
    // CCYY-MM-DD: the order of the bytes is the order of the days.
    (!start_date.is_empty() && !end_date.is_empty() && end_date < start_date).then_some((6, end + 1, 0))
}

/// A sound line with its fields found.
pub struct Sound<'a> {
    kind: u64,
    text: &'a [u8],
    parts: Vec<Range<usize>>,
}

impl<'a> Sound<'a> {
    pub fn new(kind: u64, text: &'a [u8]) -> Sound<'a> {
        Sound { kind, text, parts: fields(text).expect("a sound line has even quotes") }
    }

    fn named(&self, name: &str) -> &'a [u8] {
        let at = position(self.kind, name).expect("a field of this kind");
        &self.text[self.parts[at].clone()]
    }

    pub fn value(&self, name: &str) -> u64 {
        number(self.named(name))
    }

    fn words(&self, name: &str) -> Vec<u8> {
        quoted(self.named(name)).expect("a text").to_vec()
    }

    fn key(&self) -> Key {
        let kind = self.kind;
        match kind {
            11 => Key::numbered(11, self.value("USRN")),
            12 => Key { kind, numbers: ["USRN", "XREF_TYPE", "XREF_ID"].map(|name| self.value(name)).to_vec(), text: Vec::new() },
            21 => Key::numbered(21, self.value("UPRN")),
            23 => Key { kind, numbers: Vec::new(), text: self.words("XREF_KEY") },
            _ => Key { kind, numbers: Vec::new(), text: self.words("LPI_KEY") },
        }
    }

    fn refers_to(&self) -> Vec<Key> {
        let street = || Key::numbered(11, self.value("USRN"));
        let blpu = |name| Key::numbered(21, self.value(name));
        match self.kind {
            11 => vec![],
            12 => vec![street()],
            21 if self.named("PARENT_UPRN").is_empty() => vec![],
            21 => vec![blpu("PARENT_UPRN")],
            23 => vec![blpu("UPRN")],
            _ => vec![blpu("UPRN"), street()],
        }
    }
}

/// What a sound line of a held kind says.
pub fn record(kind: u64, text: &[u8]) -> Record {
    let line = Sound::new(kind, text);
    let content = text[line.parts[2].end + 1..].to_vec();
    let order = line.named("PRO_ORDER").to_vec();
    Record { key: line.key(), change: line.words("CHANGE_TYPE")[0], order, content, refers_to: line.refers_to() }
}

/// A line as holdings and undos carry it, with its CR LF.
pub fn written(kind: u64, change: u8, order: usize, content: &[u8]) -> Vec<u8> {
    let mut line = format!("{kind},\"{}\",{order},", char::from(change)).into_bytes();
    line.extend_from_slice(content);
    line.extend_from_slice(b"\r\n");
    line
}
