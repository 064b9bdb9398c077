//! What each operation answers, and what it leaves in the buffers it is lent.
use super::enquiries::{field, find, in_force, Part};
use super::load::load;
use super::{file, holding, Fault};

/// Where the place stands in an answer of seven numbers, from 0.
pub const PLACE: usize = 6;

#[derive(Debug, Clone, Copy, PartialEq, Eq)]
#[repr(u8)]
pub enum Operation {
    CheckFile,
    CheckHolding,
    Load,
    Find,
    InForce,
    Field,
}

/// One call. `out` and `undo` are the lengths of the two buffers of a load; `first` and `second` are kind and number, or line and field; a
/// field is asked of `holding`.
#[derive(Clone)]
pub struct Call {
    pub operation: Operation,
    pub holding: Vec<u8>,
    pub file: Vec<u8>,
    pub out: usize,
    pub undo: usize,
    pub first: u64,
    pub second: u64,
}

#[derive(Debug, PartialEq, Eq)]
pub struct Answer {
    pub numbers: Vec<u64>,
    pub out: Vec<u8>,
    pub undo: Vec<u8>,
}

impl Operation {
    pub fn numbers(self) -> usize {
        match self {
            Operation::CheckHolding => 3,
            Operation::Find | Operation::Field => 5,
            Operation::InForce => 6,
            _ => 7,
        }
    }
}

pub fn answer(call: &Call) -> Answer {
    let (old, change) = (&call.holding, &call.file);
    let (mut out, mut undo) = (Vec::new(), Vec::new());
    let rest = match call.operation {
        Operation::CheckFile => file::check(change).map(|file| file.counts().to_vec()),
        Operation::CheckHolding => holding::check(old).map(|_| vec![]),
        Operation::Load => load(old, change, call.out).and_then(|loaded| {
            if loaded.undo.len() > call.undo {
                return super::fault(17, 0, 0);
            }
            (out, undo) = (loaded.holding, loaded.undo);
            Ok(loaded.counts.to_vec())
        }),
        Operation::Find => find(old, call.first, call.second).map(span),
        Operation::InForce => in_force(old, change, call.first, call.second)
            .map(|part| [vec![u64::from(part.in_file)], span(part)].concat()),
        Operation::Field => field(old, call.first, call.second).map(span),
    };
    out.resize(call.out, 0);
    undo.resize(call.undo, 0);
    Answer { numbers: numbers(call.operation, rest), out, undo }
}

fn span(part: Part) -> Vec<u64> {
    vec![part.start as u64, part.length as u64]
}

/// Code, line and field, then the rest; on a refusal zeros, and the place where the answer has one.
fn numbers(operation: Operation, rest: Result<Vec<u64>, Fault>) -> Vec<u64> {
    let (mut all, place) = match rest {
        Ok(rest) => ([vec![0; 3], rest].concat(), 0),
        Err(fault) => (vec![fault.code, fault.line, fault.field], fault.place),
    };
    all.resize(operation.numbers(), 0);
    if let Some(last) = all.get_mut(PLACE) {
        *last = place;
    }
    all
}
