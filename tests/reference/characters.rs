//! The characters of UTF-8, by section 3 of RFC 3629: the bits of a character's number, spread over one to four bytes, are put together
//! again, and the number is judged.
use std::ops::RangeInclusive;

/// The least number that takes one, two, three and four bytes; a smaller one in as many is overlong, and none.
const LEAST: [u32; 4] = [0, 0x80, 0x800, 0x1_0000];
/// The numbers of characters: the surrogates between the two are none.
const NUMBERS: [RangeInclusive<u32>; 2] = [0..=0xD7FF, 0xE000..=0x10_FFFF];

/// How many whole characters bytes are, and whether one more is begun and not ended.
#[derive(Clone, Copy, PartialEq, Eq, Debug)]
pub struct Count {
    pub whole: usize,
    pub begun: bool,
}

/// A character of which some bytes are there.
struct Character {
    bytes: usize,
    missing: usize,
    bits: u32,
}

/// How many characters the bytes are; none where no well-formed text begins with them.
pub fn count(bytes: &[u8]) -> Option<Count> {
    let mut whole = 0;
    let mut begun: Option<Character> = None;
    for byte in bytes {
        let character = match begun {
            None => first(*byte)?,
            Some(character) => next(character, *byte)?,
        };
        if !can_be(&character) {
            return None;
        }
        whole += usize::from(character.missing == 0);
        begun = (character.missing > 0).then_some(character);
    }
    Some(Count { whole, begun: begun.is_some() })
}

/// 0xxxxxxx, 110xxxxx, 1110xxxx or 11110xxx.
fn first(byte: u8) -> Option<Character> {
    let (bytes, bits) = match byte.leading_ones() {
        0 => (1, byte),
        2 => (2, byte & 0b1_1111),
        3 => (3, byte & 0b1111),
        4 => (4, byte & 0b111),
        _ => return None,
    };
    Some(Character { bytes, missing: bytes - 1, bits: u32::from(bits) })
}

/// 10xxxxxx.
fn next(character: Character, byte: u8) -> Option<Character> {
    let bits = character.bits << 6 | u32::from(byte & 0b11_1111);
    (byte.leading_ones() == 1).then_some(Character { missing: character.missing - 1, bits, ..character })
}

/// Whether some number of a character, not too small for so many bytes, has the bits that are there.
fn can_be(character: &Character) -> bool {
    let open = 6 * character.missing;
    let least = (character.bits << open).max(LEAST[character.bytes - 1]);
    let greatest = ((character.bits + 1) << open) - 1;
    NUMBERS.iter().any(|numbers| least.max(*numbers.start()) <= greatest.min(*numbers.end()))
}
