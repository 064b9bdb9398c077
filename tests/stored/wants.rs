//! What the reference answers to what a row asks.
use crate::reference::answers::{answer, Answer, Call, Operation};
use crate::reference::forms::Form;
use crate::terms::{bytes, list};

/// A holding, a file, and the lengths of the buffers for the new holding and for the undo.
#[derive(Default)]
pub struct Case {
    pub old: Vec<u8>,
    pub change: Vec<u8>,
    pub room: usize,
    pub undo_room: usize,
}

const DAY: &str = "2001-01-01";
/// Room for a full holding, and for the undo of one step.
const AMPLE: usize = 1 << 20;
const PROGRAM_ROOM: usize = 65_536;

fn call(operation: Operation, holding: &[u8], file: &[u8]) -> Call {
    Call { operation, holding: holding.to_vec(), file: file.to_vec(), out: 0, undo: 0, first: 0, second: 0 }
}

/// What an operation answers to a case.
pub fn answered(case: &Case, operation: Operation) -> Answer {
    let (out, undo) = if operation == Operation::Load { (case.room, case.undo_room) } else { (0, 0) };
    answer(&Call { out, undo, ..call(operation, &case.old, &case.change) })
}

/// What is wanted of a case, as fields of its record.
pub fn of_case(case: &Case) -> String {
    let operations = [Operation::CheckFile, Operation::CheckHolding, Operation::Load];
    let [file, held, load] = operations.map(|operation| answered(case, operation));
    let checks = format!("file_wants = {}; held_wants = {}", list(&file.numbers), list(&held.numbers));
    let [output, undo] = [&load.out, &load.undo].map(|buffer| bytes(result(buffer)));
    format!("{checks}; load_wants = {}; output = {output}; undo_output = {undo}", list(&load.numbers))
}

/// A buffer without the zeros behind what was written: no line has a zero in it.
fn result(buffer: &[u8]) -> &[u8] {
    let end = buffer.iter().rposition(|byte| *byte != 0).map_or(0, |last| last + 1);
    &buffer[..end]
}

/// Code, line and field, then slice, start and length: find and field are lent one slice, and don't say which.
pub fn of_enquiry(operation: Operation, lent: &[Vec<u8>], first: u64, second: u64) -> Vec<u64> {
    let file = lent.get(1).map_or(&[][..], Vec::as_slice);
    let mut numbers = answer(&Call { first, second, ..call(operation, &lent[0], file) }).numbers;
    if operation != Operation::InForce {
        numbers.insert(3, 0);
    }
    numbers
}

fn header() -> String {
    format!("10,\"a\",1,{DAY},1,{DAY},000000,1.0,\"A\"\r\n")
}

fn street(change: char, order: u64, usrn: u64) -> String {
    format!("11,\"{change}\",{order},{usrn},1,1,,,,{DAY},{DAY},{DAY},,0.00,0.00,0.00,0.00\r\n")
}

/// The street's cross reference of type 1 with number 1.
fn street_xref(change: char, order: u64, usrn: u64) -> String {
    format!("12,\"{change}\",{order},{usrn},1,1,{DAY},{DAY},,{DAY}\r\n")
}

/// The check of a header, 4,096 body lines and this tail.
pub fn of_tail(tail: &[u8]) -> Vec<u64> {
    let front: String = header() + &(1..=4096).map(|order| street('I', order, order)).collect::<String>();
    answer(&call(Operation::CheckFile, &[], &[front.as_bytes(), tail].concat())).numbers
}

/// The code and the line for one change, over 8,192 streets with the even numbers.
pub fn of_step(kind: &str, change: &str, usrn: u64) -> Option<Vec<u64>> {
    let letter = match change {
        "ins" => 'I',
        "upd" => 'U',
        "del" => 'D',
        _ => return None,
    };
    let line = match kind {
        "street" => street(letter, 1, usrn),
        "street_xref" => street_xref(letter, 1, usrn),
        _ => return None,
    };
    let end = format!("29,\"a\",\"a\",\"a\",\"a\",\"a\",1,\"a\",\"a\",{DAY},\"a\",\"a\",{DAY},\"a\",\"a\"\r\n99,1,1,{DAY},000000\r\n");
    let held: String = (1..=8192).map(|order| street('I', order, 2 * order)).collect();
    let file = header() + &line + &end;
    let answer = answer(&Call { out: AMPLE, undo: AMPLE, ..call(Operation::Load, held.as_bytes(), file.as_bytes()) });
    Some(answer.numbers[..2].to_vec())
}

/// The numbers of a load with commas between them, and behind that line the new holding.
pub fn of_print(old: &[u8], change: &[u8]) -> Vec<u8> {
    let answer = answer(&Call { out: PROGRAM_ROOM, undo: PROGRAM_ROOM, ..call(Operation::Load, old, change) });
    let numbers = answer.numbers.iter().map(u64::to_string).collect::<Vec<_>>().join(",");
    [numbers.as_bytes(), b"\r\n", result(&answer.out)].concat()
}

/// The place in a field where it must be filled, and where it may be empty.
pub fn of_field(form: Form, field: &[u8]) -> Vec<u64> {
    [true, false].map(|filled| form.place(filled, field) as u64).to_vec()
}
