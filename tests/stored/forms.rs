//! The forms of fields, as modules name them.
use crate::reference::forms::Form;
use crate::reference::table::{columns, position};
use crate::terms::Left;

/// A form, with the widths or the letter behind its name.
pub fn form(left: &mut Left) -> Option<Form> {
    let name = left.word();
    let mut next = || {
        left.pass(" ")?;
        left.number()
    };
    let mut width = || next().map(|number| number as usize);
    match name {
        "number" => Some(Form::Number(width()?)),
        "at_least1" => Some(Form::Positive(width()?)),
        "decimal" => Some(Form::Decimal(width()?, width()?)),
        "date" => Some(Form::Date),
        "time" => Some(Form::Time),
        "text" => Some(Form::Text(width()?)),
        "change_type" => of_field(11, "CHANGE_TYPE"),
        "xref_type" => of_field(12, "XREF_TYPE"),
        "file_type" => of_field(10, "FILE_TYPE"),
        "key_text" => Some(Form::Key(next()?.try_into().ok()?)),
        _ => None,
    }
}

fn of_field(kind: u64, name: &str) -> Option<Form> {
    position(kind, name).map(|at| columns(kind)[at].form)
}
