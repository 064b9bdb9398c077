//! cases [--write]: the tables of crates/cases, crates/field_places and crates/loads, answered anew by the reference; and what the reference
//! counts in bytes, against Rust's library.
mod added;
mod forms;
mod modules;
#[path = "../reference/mod.rs"]
#[allow(dead_code)]
mod reference;
mod rows;
mod terms;
mod utf8;
mod wants;

use std::path::{Path, PathBuf};
use std::process::exit;

const FOLDERS: [&str; 3] = ["crates/cases/specs", "crates/field_places/specs", "crates/loads/specs"];
const LIST: &str = "tests/stored/added";
/// The module whose table is made from the list.
const LISTED: &str = "crates/loads/specs/Added.antt";
/// How many characters of a difference are shown.
const SHOWN: usize = 200;

fn fail(what: &str) -> ! {
    eprintln!("tests/cases: FAILED: {what}");
    exit(1)
}

/// What was done with the file or folder, or a failure that names it.
fn done<T, E: std::fmt::Display>(path: &Path, result: Result<T, E>) -> T {
    result.unwrap_or_else(|error| fail(&format!("{}: {error}", path.display())))
}

fn read(path: &Path) -> String {
    done(path, std::fs::read_to_string(path))
}

fn modules() -> Vec<PathBuf> {
    let entries = FOLDERS.map(Path::new).map(|folder| done(folder, std::fs::read_dir(folder)));
    let mut found: Vec<PathBuf> = entries.into_iter().flatten().flatten().map(|entry| entry.path()).collect();
    found.sort();
    found
}

/// A module as the reference answers it.
fn anew(path: &Path, stored: &str) -> String {
    if path != Path::new(LISTED) {
        return done(path, modules::answered(stored));
    }
    let list = Path::new(LIST);
    done(list, added::read(&read(list)).and_then(|all| modules::listed(stored, &all)))
}

/// The first line that differs, from a little before the difference on.
fn show(path: &Path, stored: &str, anew: &str) {
    let at = stored.lines().zip(anew.lines()).take_while(|(was, is)| was == is).count();
    let [was, is] = [stored, anew].map(|text| text.lines().nth(at).unwrap_or(""));
    let same = was.chars().zip(is.chars()).take_while(|(a, b)| a == b).count();
    let part = |line: &str| line.chars().skip(same.saturating_sub(SHOWN / 4)).take(SHOWN).collect::<String>();
    eprintln!("{}:{}:{}\n  stored   {}\n  answered {}", path.display(), at + 1, same + 1, part(was), part(is));
}

fn write_wanted() -> bool {
    match std::env::args().skip(1).collect::<Vec<_>>().join(" ").as_str() {
        "" => false,
        "--write" => true,
        _ => {
            eprintln!("usage: tests/cases [--write]");
            exit(2)
        }
    }
}

fn main() {
    let write = write_wanted();
    let counted = utf8::check().unwrap_or_else(|error| fail(&error));
    println!("tests/cases: in {counted} comparisons the reference finds the characters that Rust's library does");
    let (mut rows, mut differ) = (0, 0);
    for path in modules() {
        let stored = read(&path);
        let anew = anew(&path, &stored);
        rows += modules::rows(&anew);
        if anew == stored {
            continue;
        }
        differ += 1;
        if write {
            done(&path, std::fs::write(&path, anew));
        } else {
            show(&path, &stored, &anew);
        }
    }
    match (differ, write) {
        (0, _) => println!("tests/cases: {rows} rows are what the reference answers"),
        (_, true) => println!("tests/cases: {differ} modules written, {rows} rows in all"),
        (_, false) => fail(&format!("{differ} modules aren't what the reference answers; tests/cases --write stores that")),
    }
}
