//! Paper 02's request 01: the place, from 1, of the first byte at which no sound field could go on.
use super::characters::count;
use super::forms::{days, is_text_byte, number, Form};
use std::ops::RangeInclusive;

impl Form {
    /// The length of the shortest beginning of the field that begins no sound field; where there is none, one past the field's end; 0 where
    /// the field is sound.
    pub fn place(self, filled: bool, field: &[u8]) -> usize {
        if self.is_sound(filled, field) {
            return 0;
        }
        let length = field.len();
        (1..=length).find(|end| !self.begins(filled, &field[..*end])).unwrap_or(length + 1)
    }

    /// Whether some sound field begins with these bytes, or is no more than these.
    fn begins(self, filled: bool, start: &[u8]) -> bool {
        match self {
            Form::Identifier => true,
            Form::Number(width) => up_to(width, start),
            Form::Positive(width) => up_to(width, start) && (start.len() < width || number(start) >= 1),
            Form::Digit(codes) => one_of(codes, start),
            Form::Decimal(width, decimals) => decimal(width, decimals, start),
            Form::Date => date(start),
            Form::Time => time(start),
            Form::Text(_) | Form::Letter(_) | Form::Key(_) => match start.split_first() {
                None => true,
                // Once the quotes are closed, nothing can follow.
                Some((b'"', text)) if text.contains(&b'"') => self.is_sound(filled, start),
                Some((b'"', text)) => self.begins_within(text),
                Some(_) => false,
            },
        }
    }

    /// Whether these bytes can stand behind the first quote of a filled field, before the quotes are closed.
    fn begins_within(self, text: &[u8]) -> bool {
        match self {
            Form::Text(width) => text_within(width, text),
            Form::Letter(codes) => one_of(codes, text),
            Form::Key(letter) => key(letter, text),
            _ => false,
        }
    }
}

/// Characters up to the width, of which the last may lack bytes.
fn text_within(width: usize, start: &[u8]) -> bool {
    start.iter().all(is_text_byte) && count(start).is_some_and(|count| count.whole + usize::from(count.begun) <= width)
}

/// No byte yet, or a code.
fn one_of(codes: &[u8], start: &[u8]) -> bool {
    start.is_empty() || start.len() == 1 && codes.contains(&start[0])
}

fn up_to(width: usize, start: &[u8]) -> bool {
    start.len() <= width && start.iter().all(u8::is_ascii_digit)
}

fn decimal(width: usize, decimals: usize, start: &[u8]) -> bool {
    let bare = start.strip_prefix(b"-").unwrap_or(start);
    match bare.iter().position(|byte| *byte == b'.') {
        Some(point) => point > 0 && up_to(width, &bare[..point]) && up_to(decimals, &bare[point + 1..]),
        None => up_to(width, bare),
    }
}

/// Four digits, the letter, nine digits.
fn key(letter: u8, start: &[u8]) -> bool {
    let right = |(at, byte): (usize, &u8)| if at == 4 { *byte == letter } else { byte.is_ascii_digit() };
    start.len() <= 14 && start.iter().enumerate().all(right)
}

/// CCYY-MM-DD. Every year has twelve months, and every month a first day: what comes later never rules out what can begin.
fn date(start: &[u8]) -> bool {
    let right = |(at, byte): (usize, &u8)| if at == 4 || at == 7 { *byte == b'-' } else { byte.is_ascii_digit() };
    if start.len() > 10 || !start.iter().enumerate().all(right) {
        return false;
    }
    let (year, month, day) = (part(start, 0, 4), part(start, 5, 7), part(start, 8, 10));
    reaches(year, 4, 1583..=9999)
        && reaches(month, 2, 1..=12)
        && (day.is_empty() || reaches(day, 2, 1..=days(number(year), number(month))))
}

/// HHMMSS.
fn time(start: &[u8]) -> bool {
    up_to(6, start)
        && reaches(part(start, 0, 2), 2, 0..=23)
        && reaches(part(start, 2, 4), 2, 0..=59)
        && reaches(part(start, 4, 6), 2, 0..=59)
}

/// The bytes from one place to another, or as many of them as there are.
fn part(start: &[u8], from: usize, to: usize) -> &[u8] {
    let length = start.len();
    &start[from.min(length)..to.min(length)]
}

/// Whether these digits, with as many more as make them `width`, can be a number in the range.
fn reaches(digits: &[u8], width: usize, range: RangeInclusive<u64>) -> bool {
    let missing = (width - digits.len()) as u32;
    let least = number(digits) * 10u64.pow(missing);
    let greatest = least + 10u64.pow(missing) - 1;
    least <= *range.end() && greatest >= *range.start()
}
