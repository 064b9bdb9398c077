//! Sound fields, lines, holdings and files.
use crate::random::Random;
use crate::reference::forms::Form;
use crate::reference::load::{step, Held};
use crate::reference::records::{record, Record};
use crate::reference::table::{columns, position, Column, HELD_KINDS};

pub const DATES: [&str; 14] = [
    "1583-01-01", "1600-02-29", "1899-12-31", "1900-01-01", "1999-12-31", "2000-02-29", "2001-01-01", "2001-01-02", "2004-02-29",
    "2024-06-30", "2099-12-31", "2100-01-01", "2100-02-28", "9999-12-31",
];
/// Characters of one to four bytes, with the first and the last of each length; so many of them are ASCII.
pub const CHARACTERS: [&str; 26] = [
    "a", "Z", "0", "9", " ", ",", ",", ".", "-", "'", "!", "#", "~", "\u{80}", "\u{9F}", "ò", "À", "\u{301}", "\u{7FF}", "\u{800}", "ẁ",
    "\u{D7FF}", "\u{E000}", "\u{FFFF}", "\u{10000}", "\u{10FFFF}",
];
const ASCII: usize = 13;

/// A body line in the making. Keys are drawn from 1 to `spread`, so that they meet.
pub struct Draft {
    pub kind: u64,
    pub change: u8,
    pub order: usize,
    pub spread: usize,
}

fn digits(random: &mut Random, count: usize) -> String {
    (0..count).map(|_| char::from(random.pick(b"0123456789"))).collect()
}

/// A number's text, now and then with leading zeros.
fn number_text(random: &mut Random, value: u64, width: usize) -> String {
    let bare = value.to_string();
    let zeros = if random.one_in(4) { random.below(width + 1 - bare.len()) } else { 0 };
    "0".repeat(zeros) + &bare
}

/// Now and then a text ends by the end of a word of eight bytes.
fn text(random: &mut Random, width: usize, least: usize) -> Vec<u8> {
    let most = if random.one_in(12) { width } else { width.min(4) };
    let length = if random.one_in(12) { most } else { least + random.below(most + 1 - least) };
    let length = if random.one_in(6) { random.pick(&[6, 7, 8, 9, 15, 16, 17]).min(width) } else { length };
    let most = if random.one_in(4) { CHARACTERS.len() } else { ASCII };
    (0..length).flat_map(|_| random.pick(&CHARACTERS[..most]).bytes()).collect()
}

pub fn quote(text: &[u8]) -> Vec<u8> {
    [b"\"", text, b"\""].concat()
}

fn date(random: &mut Random) -> String {
    if random.one_in(2) {
        return random.pick(&DATES).to_string();
    }
    let year = if random.one_in(2) { 1899 + random.below(202) } else { 1583 + random.below(8417) };
    let month = 1 + random.below(12);
    let last = if month == 2 { 28 } else if matches!(month, 4 | 6 | 9 | 11) { 30 } else { 31 };
    format!("{year:04}-{month:02}-{:02}", if random.one_in(4) { last } else { 1 + random.below(last) })
}

/// A filled field of a form.
pub fn field(random: &mut Random, form: Form) -> Vec<u8> {
    match form {
        Form::Identifier => b"11".to_vec(),
        Form::Number(width) => {
            let count = if random.one_in(4) { width } else { 1 + random.below(width) };
            digits(random, count).into_bytes()
        }
        Form::Positive(width) => {
            let value = 1 + random.below(9) as u64;
            number_text(random, value, width).into_bytes()
        }
        Form::Digit(codes) => vec![random.pick(codes)],
        Form::Decimal(width, decimals) => {
            let minus = if random.one_in(4) { "-" } else { "" };
            let count = 1 + random.below(width);
            format!("{minus}{}.{}", digits(random, count), digits(random, decimals)).into_bytes()
        }
        Form::Date => date(random).into_bytes(),
        Form::Time => format!("{:02}{:02}{:02}", random.below(24), random.below(60), random.below(60)).into_bytes(),
        Form::Text(width) => quote(&text(random, width, 1)),
        Form::Letter(codes) => quote(&[random.pick(codes)]),
        Form::Key(letter) => quote(format!("9078{}{}", char::from(letter), digits(random, 9)).as_bytes()),
    }
}

/// A USRN or UPRN from the spread, or now and then the greatest that its width allows.
fn key_number(random: &mut Random, spread: usize, width: usize) -> String {
    let value = if random.one_in(12) { 10u64.pow(width as u32) - 1 } else { 1 + random.below(spread) as u64 };
    number_text(random, value, width)
}

fn body_field(random: &mut Random, draft: &Draft, column: &Column) -> Vec<u8> {
    match (column.name, column.form) {
        ("RECORD_IDENTIFIER", _) => draft.kind.to_string().into_bytes(),
        ("CHANGE_TYPE", _) => quote(&[draft.change]),
        ("PRO_ORDER", Form::Number(width)) => number_text(random, draft.order as u64, width).into_bytes(),
        ("PARENT_UPRN", _) if random.one_in(2) => Vec::new(),
        ("USRN" | "UPRN" | "PARENT_UPRN", Form::Positive(width)) => key_number(random, draft.spread, width).into_bytes(),
        ("XREF_ID", Form::Number(width)) => {
            let value = random.below(3) as u64;
            number_text(random, value, width).into_bytes()
        }
        (_, Form::Key(letter)) => {
            let custodian = random.pick(&["9078", "9078", "0001"]);
            quote(format!("{custodian}{}{:09}", char::from(letter), random.below(draft.spread)).as_bytes())
        }
        (_, form @ Form::Text(_)) if column.may_be_empty => if random.one_in(2) { b"\"\"".to_vec() } else { field(random, form) },
        (_, form) => if column.may_be_empty && random.one_in(2) { Vec::new() } else { field(random, form) },
    }
}

/// A sound line of a held kind, without CR LF.
pub fn body_line(random: &mut Random, draft: &Draft) -> Vec<u8> {
    let mut fields: Vec<Vec<u8>> = columns(draft.kind).iter().map(|column| body_field(random, draft, column)).collect();
    let at = |name| position(draft.kind, name).expect("every held kind has both dates");
    let (start, end) = (at("START_DATE"), at("END_DATE"));
    if !fields[end].is_empty() && fields[end] < fields[start] {
        fields[end] = fields[start].clone();
    }
    fields.join(&b',')
}

/// A sound line of any kind; a trailer's count is `count`.
pub fn any_line(random: &mut Random, kind: u64, count: usize) -> Vec<u8> {
    if HELD_KINDS.contains(&kind) {
        return body_line(random, &Draft { kind, change: b'I', order: count, spread: 6 });
    }
    let made = columns(kind).iter().map(|column| match column.name {
        "RECORD_IDENTIFIER" => kind.to_string().into_bytes(),
        "RECORD_COUNT" => number_text(random, count as u64, 12).into_bytes(),
        _ => field(random, column.form),
    });
    made.collect::<Vec<_>>().join(&b',')
}

/// Tries to make `wanted` steps; those that the holding doesn't allow are left out, but for one in `bad`.
pub fn steps(random: &mut Random, held: &mut Held, wanted: usize, changes: &[u8], bad: usize) -> Vec<Vec<u8>> {
    let mut taken = Vec::new();
    let spread = if wanted > 20 { 60 } else { 5 };
    for _ in 0..wanted * 6 {
        if taken.len() == wanted {
            break;
        }
        let draft = Draft { kind: random.pick(&HELD_KINDS), change: random.pick(changes), order: taken.len() + 1, spread };
        let line = body_line(random, &draft);
        let made: Record = record(draft.kind, &line);
        let before = held.get(&made.key).cloned();
        if step(held, &made).is_ok() {
            taken.push(line);
            continue;
        }
        // A step touches the record of its own key alone.
        match before {
            Some(record) => held.insert(made.key, record),
            None => held.remove(&made.key),
        };
        if random.one_in(bad) {
            taken.push(line);
        }
    }
    taken
}

/// Header, these body lines, metadata and trailer.
pub fn file(random: &mut Random, body: &[Vec<u8>]) -> Vec<u8> {
    let mut lines = vec![any_line(random, 10, 0)];
    lines.extend_from_slice(body);
    lines.push(any_line(random, 29, 0));
    lines.push(any_line(random, 99, body.len()));
    joined(&lines)
}

/// Lines, each with its CR LF.
pub fn joined(lines: &[Vec<u8>]) -> Vec<u8> {
    lines.iter().flat_map(|line| [line, b"\r\n".as_slice()].concat()).collect()
}
