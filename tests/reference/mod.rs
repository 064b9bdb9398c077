//! The rules of the papers a second time, in Rust, written from them and not from the Rattle sources.
//! It aims at being plain, not fast: every reference of the holding is looked at again after every step.
pub mod answers;
pub mod characters;
pub mod enquiries;
pub mod file;
pub mod forms;
pub mod holding;
pub mod lines;
pub mod load;
pub mod places;
pub mod records;
pub mod table;

/// A refusal: its code, line and field, and the place in a field that is malformed.
#[derive(Debug, Clone, Copy, PartialEq, Eq)]
pub struct Fault {
    pub code: u64,
    pub line: u64,
    pub field: u64,
    pub place: u64,
}

pub fn fault<T>(code: u64, line: usize, field: usize) -> Result<T, Fault> {
    placed(code, line, field, 0)
}

/// A refusal with a place: 0 for every code but 5.
pub fn placed<T>(code: u64, line: usize, field: usize, place: usize) -> Result<T, Fault> {
    Err(Fault { code, line: line as u64, field: field as u64, place: place as u64 })
}
