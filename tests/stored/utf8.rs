//! A third opinion on UTF-8: what the reference counts in bytes is what Rust's own library finds in them.
use crate::reference::characters::{count, Count};

/// The first and the last byte of each range in RFC 3629's table, and of each between them.
const EDGES: [u8; 24] = [
    0x00, 0x7F, 0x80, 0x8F, 0x90, 0x9F, 0xA0, 0xBF, 0xC0, 0xC1, 0xC2, 0xDF, 0xE0, 0xE1, 0xEC, 0xED, 0xEE, 0xEF, 0xF0, 0xF1, 0xF3, 0xF4,
    0xF5, 0xFF,
];

fn by_library(bytes: &[u8]) -> Option<Count> {
    match std::str::from_utf8(bytes) {
        Ok(text) => Some(Count { whole: text.chars().count(), begun: false }),
        Err(error) if error.error_len().is_none() => {
            by_library(&bytes[..error.valid_up_to()]).map(|count| Count { begun: true, ..count })
        }
        Err(_) => None,
    }
}

/// Compares all bytes that begin so and go on with bytes of each of these lists, or of the first of them; how many comparisons that is.
fn compare(bytes: &mut Vec<u8>, lists: &[&[u8]]) -> Result<usize, String> {
    if count(bytes) != by_library(bytes) {
        return Err(format!("of the bytes {bytes:02X?} the reference and the library don't say the same"));
    }
    let mut compared = 1;
    let Some((list, rest)) = lists.split_first() else { return Ok(compared) };
    for byte in *list {
        bytes.push(*byte);
        compared += compare(bytes, rest)?;
        bytes.pop();
    }
    Ok(compared)
}

/// Up to three bytes of any value, and up to five at the edges.
pub fn check() -> Result<usize, String> {
    let any: Vec<u8> = (0..=0xFF).collect();
    Ok(compare(&mut Vec::new(), &[any.as_slice(); 3])? + compare(&mut Vec::new(), &[EDGES.as_slice(); 5])?)
}
