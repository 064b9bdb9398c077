//! Faults put into sound bytes.
use crate::random::Random;
use crate::reference::forms::{quoted, Form};
use crate::reference::lines::{fields, lines, Line};
use crate::reference::table::{columns, kind_of, position, HELD_KINDS, KINDS};
use crate::sound::{any_line, field, joined, quote, CHARACTERS, DATES};
use std::ops::Range;

const BYTES: &[u8] = b"\r\n\"\",,-./:+ 01239AILUDXx\x00\x1F\x20\x7F\x80\xC3\xFF";
/// Bytes that are no character: overlong, a surrogate, beyond U+10FFFF, cut, a byte that begins none; accents of Latin-1.
const NO_CHARACTERS: [&[u8]; 24] = [
    b"\x80", b"\xBF", b"\xC0\x80", b"\xC1\xBF", b"\xC2", b"\xC3", b"\xDF", b"\xE0\x80\x80", b"\xE0\x9F\xBF", b"\xE0\xA0", b"\xE1\xBA",
    b"\xED\xA0\x80", b"\xED\xBF\xBF", b"\xEF\xBF", b"\xF0\x80\x80\x80", b"\xF0\x8F\xBF\xBF", b"\xF0\x90\x80", b"\xF1", b"\xF4\x8F\xBF",
    b"\xF4\x90\x80\x80", b"\xF5\x80\x80\x80", b"\xFF", b"\xE0r", b"\xF9r",
];
/// Bytes at the edges of RFC 3629's ranges.
const EDGES: &[u8] = b"\x7F\x80\x8F\x90\x9F\xA0\xBF\xC0\xC1\xC2\xDF\xE0\xE1\xEC\xED\xEE\xEF\xF0\xF1\xF3\xF4\xF5";
const TEXTS: [&str; 10] = [
    "CUSTODIAN_NAME", "CROSS_REFERENCE", "SOURCE", "LANGUAGE", "SAO_START_SUFFIX", "SAO_TEXT", "PAO_TEXT", "SUB_LOCALITY", "POST_TOWN",
    "GAZ_NAME",
];
const FIELDS: [&str; 20] = [
    "", "\"\"", "\"", " ", "\" \"", "0", "00000000", "1", "-1", "+1", "3", "4097", "99999999999999999", "\"a\"\"b\"", "a\"b,c\"d", "\"I\"",
    "\"U\"", "\"D\"", "\"i\"", "I",
];
const DATE_EDGES: [&str; 25] = [
    "1582-12-31", "1583-01-01", "1899-12-31", "1900-01-01", "2099-12-31", "2100-01-01", "2001-06-31", "1900-02-29", "1600-02-29", "2000-02-29", "2000-02-30", "2001-02-29", "2004-02-29", "2001-04-31",
    "2001-04-30", "2001-12-31", "2001-12-32", "2001-13-01", "2001-00-10", "2001-01-00", "2001/01-01", "2001-01/01", "20010101",
    "9999-12-31", "10000-01-01",
];
const TIME_EDGES: [&str; 8] = ["000000", "235959", "240000", "236000", "235960", "23595", "2359590", "23:959"];
/// Fields of every form, the rarer ones as often as any.
const OF_EACH_FORM: [&str; 20] = [
    "CHANGE_TYPE", "FILE_TYPE", "XREF_TYPE", "XREF_KEY", "LPI_KEY", "USRN", "UPRN", "PARENT_UPRN", "PRO_ORDER", "XREF_ID", "RECORD_COUNT",
    "START_X", "LEVEL", "START_DATE", "TIME_STAMP", "SOURCE", "LANGUAGE", "SUB_LOCALITY", "SAO_TEXT", "POSTALLY_ADDRESSABLE",
];
const ENDS: [&str; 6] = ["\n", "\r", "\r\r\n", "\n\r", "\r\n\r\n", ""];

/// One fault, or a change that is none.
pub fn damage(random: &mut Random, bytes: &mut Vec<u8>) {
    if random.one_in(6) {
        return one_rule(random, bytes);
    }
    if random.one_in(6) {
        return within_field(random, bytes);
    }
    if random.one_in(5) {
        return within_text(random, bytes);
    }
    match random.below(8) {
        0 => one_byte(random, bytes),
        1 => line_end(random, bytes),
        2 => bytes.truncate(random.below(bytes.len() + 1)),
        3 | 4 => whole_lines(random, bytes),
        _ => one_field(random, bytes),
    }
    if random.one_in(2) {
        renumber(bytes);
    }
}

fn one_byte(random: &mut Random, bytes: &mut Vec<u8>) {
    let at = random.below(bytes.len() + 1);
    match random.below(3) {
        0 => bytes.insert(at, random.pick(BYTES)),
        1 if at < bytes.len() => drop(bytes.remove(at)),
        _ if at < bytes.len() => bytes[at] = random.pick(BYTES),
        _ => {}
    }
}

fn line_end(random: &mut Random, bytes: &mut Vec<u8>) {
    let all = lines(bytes);
    if all.is_empty() {
        return;
    }
    let line = &all[random.below(all.len())];
    let end = line.start + line.text.len();
    let past = bytes.len().min(end + 2);
    bytes.splice(end..past, random.pick(&ENDS).bytes());
}

/// Lines swapped, dropped, doubled, moved, or a sound one of any kind put in.
fn whole_lines(random: &mut Random, bytes: &mut Vec<u8>) {
    let mut all: Vec<Vec<u8>> = lines(bytes).iter().map(|line| line.text.to_vec()).collect();
    let (one, other) = (random.below(all.len().max(1)), random.below(all.len().max(1)));
    let kind = random.pick(&KINDS);
    match random.below(5) {
        0 if !all.is_empty() => all.swap(one, other),
        1 if !all.is_empty() => drop(all.remove(one)),
        2 if !all.is_empty() => all.insert(other, all[one].clone()),
        3 if !all.is_empty() => {
            let line = all.remove(one);
            all.insert(other.min(all.len()), line);
        }
        _ => {
            let line = any_line(random, kind, one);
            all.insert(random.below(all.len() + 1), line);
        }
    }
    *bytes = joined(&all);
}

fn one_field(random: &mut Random, bytes: &mut Vec<u8>) {
    let all = lines(bytes);
    if all.is_empty() {
        return;
    }
    let line = &all[random.below(all.len())];
    let Some(parts) = fields(line.text) else { return };
    let at = random.below(parts.len());
    let old = &line.text[parts[at].clone()];
    let form = kind_of(line.identifier()).and_then(|kind| columns(kind).get(at)).map(|column| column.form);
    let new = match (random.below(8), form) {
        (0, Some(form)) => field(random, form),
        (1, _) => [old, &[random.pick(BYTES)]].concat(),
        (2, _) => [old, b",", old].concat(),
        (3, _) => random.pick(&DATES).as_bytes().to_vec(),
        (4, _) if old.len() > 1 => [&old[..1], old].concat(),
        (5 | 6, Some(form)) => edge(random, form),
        _ => random.pick(&FIELDS).as_bytes().to_vec(),
    };
    let (start, end) = (line.start + parts[at].start, line.start + parts[at].end);
    bytes.splice(start..end, new);
}

/// A field that a rule of its own speaks of, with a value close to one that is right: dates, PRO_ORDER, RECORD_COUNT, keys, references.
fn one_rule(random: &mut Random, bytes: &mut Vec<u8>) {
    let name = random.pick(&["END_DATE", "END_DATE", "PRO_ORDER", "RECORD_COUNT", "USRN", "UPRN", "PARENT_UPRN", "XREF_ID", "CHANGE_TYPE"]);
    let Some((hit, _)) = one_named(random, bytes, name) else { return };
    let small = random.below(14);
    let new = match name {
        "END_DATE" => random.pick(&DATES).to_string(),
        "CHANGE_TYPE" => random.pick(&["\"I\"", "\"U\"", "\"D\""]).to_string(),
        _ if random.one_in(3) => format!("{small:08}"),
        _ => small.to_string(),
    };
    bytes.splice(hit, new.into_bytes());
}

/// Where a field of that name stands, and its form: one of all that there are.
fn one_named(random: &mut Random, bytes: &[u8], name: &str) -> Option<(Range<usize>, Form)> {
    let named = |line: &Line| {
        let kind = kind_of(line.identifier())?;
        let at = position(kind, name)?;
        let part = fields(line.text)?.get(at)?.clone();
        Some((line.start + part.start..line.start + part.end, columns(kind)[at].form))
    };
    let mut all: Vec<_> = lines(bytes).iter().filter_map(named).collect();
    (!all.is_empty()).then(|| all.swap_remove(random.below(all.len())))
}

/// One field, of a form that is rare elsewhere too: cut short, at the edge of its form, or with one byte changed, put in or taken out.
fn within_field(random: &mut Random, bytes: &mut Vec<u8>) {
    let name = random.pick(&OF_EACH_FORM);
    let Some((hit, form)) = one_named(random, bytes, name) else { return };
    let mut field = bytes[hit.clone()].to_vec();
    match random.below(4) {
        0 => {
            let end = field.len() - usize::from(field.ends_with(b"\""));
            field.drain(random.below(end + 1)..end);
        }
        1 => field = edge(random, form),
        _ => one_byte(random, &mut field),
    }
    bytes.splice(hit, field);
}

/// One text: characters, or bytes that are none, put in, cut, doubled or changed between its quotes.
fn within_text(random: &mut Random, bytes: &mut Vec<u8>) {
    let name = random.pick(&TEXTS);
    let Some((hit, form)) = one_named(random, bytes, name) else { return };
    let Some(mut text) = quoted(&bytes[hit.clone()]).map(<[u8]>::to_vec) else { return };
    let (at, end) = (random.below(text.len() + 1), text.len());
    let other = random.below(end + 1);
    match random.below(8) {
        0 | 1 => drop(text.splice(at..at, random.pick(&CHARACTERS).bytes())),
        2 => drop(text.splice(at..at, random.pick(&NO_CHARACTERS).iter().copied())),
        3 => drop(text.drain(at..)),
        4 => drop(text.drain(at.min(other)..at.max(other).min(at.min(other) + 3))),
        5 => text.extend_from_within(at..end),
        6 if at < end => text[at] = random.pick(EDGES),
        _ => text = quoted(&edge(random, form)).map(<[u8]>::to_vec).unwrap_or_default(),
    }
    bytes.splice(hit, quote(&text));
}

/// About as many characters as the width, then one, or bytes that are none.
fn wide(random: &mut Random, width: usize) -> Vec<u8> {
    let character = random.pick(&CHARACTERS).as_bytes();
    let mut text = character.repeat(width - 1 + random.below(2));
    match random.below(4) {
        0 => text.push(random.pick(b" a~\x1F\x7F\x80\xFF")),
        1 => text.extend_from_slice(random.pick(&NO_CHARACTERS)),
        _ => text.extend_from_slice(random.pick(&CHARACTERS).as_bytes()),
    }
    text
}

/// A field at the edge of its form, on either side.
fn edge(random: &mut Random, form: Form) -> Vec<u8> {
    let beyond = random.below(2);
    match form {
        Form::Identifier => random.pick(&["13", "011", "\"11\"", " 11", "11", "10", "29", "99"]).as_bytes().to_vec(),
        Form::Number(width) | Form::Positive(width) => {
            let first = random.pick(b"09");
            [vec![first; width - 1 + beyond], vec![random.pick(b"0129")]].concat()
        }
        Form::Decimal(width, decimals) => {
            let minus = random.pick(&["", "-", "--", "+"]);
            let decimals = decimals + random.pick(&[0, 0, 0, 1]) - random.pick(&[0, 0, 0, 1]);
            let point = random.pick(&[".", ".", ".", "", ","]);
            format!("{minus}{}{point}{}", "7".repeat(random.pick(&[0, 1, width, width + beyond])), "8".repeat(decimals)).into_bytes()
        }
        Form::Date => random.pick(&DATE_EDGES).as_bytes().to_vec(),
        Form::Time => random.pick(&TIME_EDGES).as_bytes().to_vec(),
        Form::Text(width) => quote(&wide(random, width)),
        Form::Digit(_) => vec![random.pick(b"0123")],
        Form::Letter(_) => quote(&[random.pick(b"@ABCDEFGHIJUVa ")]),
        Form::Key(letter) => {
            let middle = random.pick(&[letter, letter, b'L', b'X', b'1']);
            let digits = random.pick(&["00000001", "000000001", "0000000001", "00000000A", "999999999"]);
            quote(format!("{}{}{digits}", random.pick(&["9078", "9078", "907", "90 8"]), char::from(middle)).as_bytes())
        }
    }
}

/// PRO_ORDER and RECORD_COUNT set right again, where lines look like ones that have them.
pub fn renumber(bytes: &mut Vec<u8>) {
    let mut body = 0;
    let mut made = Vec::new();
    for line in lines(bytes) {
        let kind = kind_of(line.identifier());
        let held = kind.is_some_and(|kind| HELD_KINDS.contains(&kind));
        body += usize::from(held);
        let third = fields(line.text).and_then(|parts| parts.get(2).cloned()).filter(|_| held || kind == Some(99));
        match third {
            Some(third) => {
                made.extend_from_slice(&line.text[..third.start]);
                made.extend_from_slice(body.to_string().as_bytes());
                made.extend_from_slice(&line.text[third.end..]);
            }
            None => made.extend_from_slice(line.text),
        }
        if line.ended {
            made.extend_from_slice(b"\r\n");
        }
    }
    *bytes = made;
}
