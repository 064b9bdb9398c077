//! Modules with tables: every line but the rows is kept as it stands.
use crate::added::Added;
use crate::rows::{case_row, Table};

const CONS: &str = "    ∷ ";

/// A row in its place: the first has no cons before it.
fn placed(first: bool, row: &str) -> String {
    format!("{}{row}\n", if first { "    " } else { CONS })
}

/// A module with the answer of every row given anew. The error names a line that can't be read, or that looks like a row and is of no known
/// table, so that no table is passed over.
pub fn answered(stored: &str) -> Result<String, String> {
    let mut anew = String::new();
    let mut table = None;
    for (at, line) in stored.lines().enumerate() {
        if let Some((_, of)) = line.strip_prefix("unfoldable pub ").and_then(|rest| rest.split_once(" : ")) {
            table = Table::of_type(of);
        }
        let first = !line.starts_with(CONS);
        match (line.strip_prefix(if first { "    " } else { CONS }), table) {
            (Some("[]"), Some(_)) => table = None,
            (Some(row), Some(known)) => {
                let row = known.row(row).ok_or_else(|| format!("line {} can't be read", at + 1))?;
                anew += &placed(first, &row);
                continue;
            }
            (Some(_), None) if !first => return Err(format!("line {} is of no known table", at + 1)),
            _ => {}
        }
        anew += &format!("{line}\n");
    }
    Ok(anew)
}

/// The module of the listed loads: its table has a row for each, behind what that shows.
pub fn listed(stored: &str, all: &[Added]) -> Result<String, String> {
    let (front, rest) = stored.split_once("cases =\n").ok_or("it has no table")?;
    let (_, back) = rest.split_once(&format!("{CONS}[]\n")).ok_or("its table has no end")?;
    let mut rows = String::new();
    for added in all {
        added.check()?;
        rows += &format!("    -- {}\n{}", added.shows, placed(rows.is_empty(), &case_row(&added.case)));
    }
    Ok(format!("{front}cases =\n{rows}{CONS}[]\n{back}"))
}

/// How many rows a module has: as many as lines with a cons, since the first row of a table has none and its end has one.
pub fn rows(module: &str) -> usize {
    module.lines().filter(|line| line.starts_with(CONS)).count()
}
