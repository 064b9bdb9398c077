//! The loads that a person lists: what each shows, its lines and lengths, and what is answered.
use crate::reference::answers::{Operation, PLACE};
use crate::wants::{answered, Case};

#[derive(Default)]
pub struct Added {
    pub shows: String,
    pub case: Case,
    load: String,
}

/// The error names the line that can't be read.
pub fn read(list: &str) -> Result<Vec<Added>, String> {
    let mut all = Vec::new();
    for line in list.lines().filter(|line| !line.is_empty() && !line.starts_with('#')) {
        take(&mut all, line).ok_or_else(|| format!("can't be read: {line}"))?;
    }
    Ok(all)
}

fn take(all: &mut Vec<Added>, line: &str) -> Option<()> {
    let (word, rest) = line.split_once(' ')?;
    if word == "case" {
        all.push(Added { shows: rest.to_string(), ..Added::default() });
        return Some(());
    }
    let Added { case, load, .. } = all.last_mut()?;
    match word {
        "holding" => case.old.extend([bytes_of(rest)?.as_slice(), b"\r\n"].concat()),
        "file" => case.change.extend([bytes_of(rest)?.as_slice(), b"\r\n"].concat()),
        "unended" => case.change.extend(bytes_of(rest)?),
        "lengths" => {
            let numbers: Option<Vec<usize>> = rest.split(' ').map(|number| number.parse().ok()).collect();
            [case.room, case.undo_room] = numbers?.try_into().ok()?;
        }
        "load" => *load = rest.to_string(),
        _ => return None,
    }
    Some(())
}

/// The bytes of a line of the list, in which \xHH is a byte that is no letter of UTF-8.
fn bytes_of(line: &str) -> Option<Vec<u8>> {
    let mut parts = line.split("\\x");
    let mut bytes = parts.next()?.as_bytes().to_vec();
    for part in parts {
        let (byte, rest) = part.split_at_checked(2)?;
        bytes.push(u8::from_str_radix(byte, 16).ok()?);
        bytes.extend_from_slice(rest.as_bytes());
    }
    Some(bytes)
}

impl Added {
    /// The error says where the reference's code, line, field and place aren't those of the list.
    pub fn check(&self) -> Result<(), String> {
        let numbers = answered(&self.case, Operation::Load).numbers;
        let told = [numbers[0], numbers[1], numbers[2], numbers[PLACE]];
        let given = told.map(|number| number.to_string()).join(",");
        if given == self.load {
            return Ok(());
        }
        Err(format!("{}: the reference answers {given}, and the list says {}", self.shows, self.load))
    }
}
