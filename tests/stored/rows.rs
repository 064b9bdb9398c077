//! The rows of the tables: what each asks, and how it is written with the answer.
use crate::forms::form;
use crate::reference::answers::Operation;
use crate::terms::{bytes, list, Left};
use crate::wants::{self, Case};

/// What a table holds, known by its type.
#[derive(Clone, Copy)]
pub enum Table {
    Cases,
    Enquiries,
    Tails,
    Steps,
    Prints,
    Places,
}

impl Table {
    pub fn of_type(words: &str) -> Option<Table> {
        match words {
            "List Case" => Some(Table::Cases),
            "List (Ask × List ℕ)" => Some(Table::Enquiries),
            "List (List ℕ × List ℕ)" => Some(Table::Tails),
            "List (Change Rec × List ℕ)" => Some(Table::Steps),
            "List (List ℕ × List ℕ × List ℕ)" => Some(Table::Prints),
            "List (Form × List ℕ × List ℕ)" => Some(Table::Places),
            _ => None,
        }
    }

    /// A stored row with its answer given anew; none where what it asks can't be read.
    pub fn row(self, stored: &str) -> Option<String> {
        let mut left = Left(stored);
        match self {
            Table::Cases => case(&mut left).map(|case| case_row(&case)),
            Table::Enquiries => enquiry(&mut left),
            Table::Tails => tail(&mut left),
            Table::Steps => step(&mut left),
            Table::Prints => print(&mut left),
            Table::Places => places(&mut left),
        }
    }
}

fn case(left: &mut Left) -> Option<Case> {
    left.pass("record { old = ")?;
    let old = left.bytes()?;
    left.pass("; change = ")?;
    let change = left.bytes()?;
    left.pass("; room = ")?;
    let room = left.number()? as usize;
    left.pass("; undo_room = ")?;
    let undo_room = left.number()? as usize;
    Some(Case { old, change, room, undo_room })
}

pub fn case_row(case: &Case) -> String {
    let Case { old, change, room, undo_room } = case;
    let (old, change, wants) = (bytes(old), bytes(change), wants::of_case(case));
    format!("record {{ old = {old}; change = {change}; room = {room}; undo_room = {undo_room}; {wants} }}")
}

fn enquiry(left: &mut Left) -> Option<String> {
    left.pass("(")?;
    let name = left.word();
    let (operation, slices) = match name {
        "ask_find" => (Operation::Find, 1),
        "ask_force" => (Operation::InForce, 2),
        "ask_field" => (Operation::Field, 1),
        _ => return None,
    };
    let mut lent = Vec::new();
    for _ in 0..slices {
        left.pass(" ")?;
        lent.push(left.bytes()?);
    }
    left.pass(" ")?;
    let first = left.number()?;
    left.pass(" ")?;
    let second = left.number()?;
    let written = lent.iter().map(|slice| bytes(slice)).collect::<Vec<_>>().join(" ");
    let numbers = list(&wants::of_enquiry(operation, &lent, first, second));
    Some(format!("({name} {written} {first} {second}, {numbers})"))
}

fn tail(left: &mut Left) -> Option<String> {
    left.pass("(")?;
    let tail = left.bytes()?;
    Some(format!("({}, {})", bytes(&tail), list(&wants::of_tail(&tail))))
}

fn step(left: &mut Left) -> Option<String> {
    left.pass("(change ")?;
    let kind = left.word();
    left.pass(" ")?;
    let change = left.word();
    left.pass(" ")?;
    let usrn = left.number()?;
    Some(format!("(change {kind} {change} {usrn}, {})", list(&wants::of_step(kind, change, usrn)?)))
}

fn print(left: &mut Left) -> Option<String> {
    left.pass("(")?;
    let old = left.bytes()?;
    left.pass(", ")?;
    let change = left.bytes()?;
    Some(format!("({}, {}, {})", bytes(&old), bytes(&change), bytes(&wants::of_print(&old, &change))))
}

fn places(left: &mut Left) -> Option<String> {
    left.pass("(")?;
    let (from, form) = (left.0, form(left)?);
    let name = from.strip_suffix(left.0)?;
    left.pass(", ")?;
    let field = left.bytes()?;
    Some(format!("({name}, {}, {})", bytes(&field), list(&wants::of_field(form, &field))))
}
