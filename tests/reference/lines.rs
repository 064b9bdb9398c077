//! Lines, and the fields of a line.
use std::ops::Range;

pub struct Line<'a> {
    pub start: usize,
    pub text: &'a [u8],
    pub ended: bool,
}

/// A line runs up to the next CR LF; bytes left after the last are a line with no ending.
pub fn lines(bytes: &[u8]) -> Vec<Line<'_>> {
    let mut found = Vec::new();
    let mut start = 0;
    while start < bytes.len() {
        let rest = &bytes[start..];
        let end = rest.windows(2).position(|pair| pair == b"\r\n");
        let text = &rest[..end.unwrap_or(rest.len())];
        found.push(Line { start, text, ended: end.is_some() });
        start += text.len() + 2;
    }
    found
}

impl Line<'_> {
    pub fn ending_right(&self) -> bool {
        self.ended && !self.text.contains(&b'\r') && !self.text.contains(&b'\n')
    }

    /// The bytes before the first comma, quoted or not, or the whole line.
    pub fn identifier(&self) -> &[u8] {
        let comma = self.text.iter().position(|byte| *byte == b',');
        &self.text[..comma.unwrap_or(self.text.len())]
    }
}

/// Where the fields of a line stand; none where its quotes are odd.
pub fn fields(text: &[u8]) -> Option<Vec<Range<usize>>> {
    let mut found = Vec::new();
    let mut quoted = false;
    let mut start = 0;
    for (at, byte) in text.iter().enumerate() {
        match byte {
            b'"' => quoted = !quoted,
            b',' if !quoted => {
                found.push(start..at);
                start = at + 1;
            }
            _ => {}
        }
    }
    found.push(start..text.len());
    (!quoted).then_some(found)
}
