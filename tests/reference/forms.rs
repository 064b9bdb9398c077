//! What a field may look like.
use super::characters::count;

#[derive(Clone, Copy, PartialEq, Eq)]
pub enum Form {
    Identifier,
    Number(usize),
    /// A number that is at least 1: USRN, UPRN, PARENT_UPRN.
    Positive(usize),
    /// One of these bytes, bare: XREF_TYPE.
    Digit(&'static [u8]),
    Decimal(usize, usize),
    Date,
    Time,
    Text(usize),
    /// One of these bytes, in quotes: CHANGE_TYPE, FILE_TYPE.
    Letter(&'static [u8]),
    /// Four digits, this letter, nine digits, in quotes.
    Key(u8),
}

impl Form {
    fn is_text(self) -> bool {
        matches!(self, Form::Text(_) | Form::Letter(_) | Form::Key(_))
    }

    fn is_empty(self, field: &[u8]) -> bool {
        if self.is_text() { field == b"\"\"" } else { field.is_empty() }
    }

    /// Whether a field is sound, where it must be filled or may be empty.
    pub fn is_sound(self, filled: bool, field: &[u8]) -> bool {
        if self.is_empty(field) { !filled } else { self.suits(field) }
    }

    /// Whether a field that isn't empty suits this form.
    fn suits(self, field: &[u8]) -> bool {
        match self {
            Form::Identifier => true,
            Form::Number(width) => is_number(field, width),
            Form::Positive(width) => is_number(field, width) && number(field) >= 1,
            Form::Digit(codes) => field.len() == 1 && codes.contains(&field[0]),
            Form::Decimal(width, decimals) => is_decimal(field, width, decimals),
            Form::Date => is_date(field),
            Form::Time => is_time(field),
            Form::Text(width) => quoted(field).is_some_and(|text| is_text(text, width)),
            Form::Letter(codes) => quoted(field).is_some_and(|text| text.len() == 1 && codes.contains(&text[0])),
            Form::Key(letter) => quoted(field).is_some_and(|text| is_key(text, letter)),
        }
    }
}

/// The value of at most 19 digits.
pub fn number(digits: &[u8]) -> u64 {
    digits.iter().fold(0, |value, digit| value * 10 + u64::from(digit - b'0'))
}

/// What stands between the quotes.
pub fn quoted(field: &[u8]) -> Option<&[u8]> {
    field.strip_prefix(b"\"")?.strip_suffix(b"\"")
}

fn all_digits(bytes: &[u8]) -> bool {
    bytes.iter().all(u8::is_ascii_digit)
}

fn is_number(field: &[u8], width: usize) -> bool {
    (1..=width).contains(&field.len()) && all_digits(field)
}

fn is_decimal(field: &[u8], width: usize, decimals: usize) -> bool {
    let bare = field.strip_prefix(b"-").unwrap_or(field);
    match bare.iter().position(|byte| *byte == b'.') {
        Some(point) => {
            let after = &bare[point + 1..];
            is_number(&bare[..point], width) && after.len() == decimals && all_digits(after)
        }
        None => false,
    }
}

/// A width counts characters.
fn is_text(text: &[u8], width: usize) -> bool {
    text.iter().all(is_text_byte) && count(text).is_some_and(|count| count.whole <= width && !count.begun)
}

pub fn is_text_byte(byte: &u8) -> bool {
    *byte >= 0x20 && *byte != b'"' && *byte != 0x7F
}

fn is_key(text: &[u8], letter: u8) -> bool {
    text.len() == 14 && all_digits(&text[..4]) && text[4] == letter && all_digits(&text[5..])
}

fn is_date(field: &[u8]) -> bool {
    let shaped = field.len() == 10 && field[4] == b'-' && field[7] == b'-';
    if !shaped || !all_digits(&field[..4]) || !all_digits(&field[5..7]) || !all_digits(&field[8..]) {
        return false;
    }
    let (year, month, day) = (number(&field[..4]), number(&field[5..7]), number(&field[8..]));
    year >= 1583 && (1..=12).contains(&month) && (1..=days(year, month)).contains(&day)
}

pub fn days(year: u64, month: u64) -> u64 {
    let leap = year % 4 == 0 && (year % 100 != 0 || year % 400 == 0);
    match month {
        2 => 28 + u64::from(leap),
        4 | 6 | 9 | 11 => 30,
        _ => 31,
    }
}

fn is_time(field: &[u8]) -> bool {
    field.len() == 6
        && all_digits(field)
        && number(&field[..2]) < 24
        && number(&field[2..4]) < 60
        && number(&field[4..]) < 60
}
