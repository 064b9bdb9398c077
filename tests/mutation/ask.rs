//! A copy of a crate in a repository of its own outside this one, where the prover is asked; the crate itself is never changed.
use crate::mutants::Mutant;
use std::cell::RefCell;
use std::collections::HashSet;
use std::fs;
use std::io::Write;
use std::path::{Path, PathBuf};
use std::process::Command;

#[derive(Clone, Copy, PartialEq)]
pub enum Verdict {
    Refused,
    Shape,
    Survived,
    NotCompiled,
    NoVerdict,
}

impl Verdict {
    pub const ALL: [Verdict; 5] = [Verdict::Refused, Verdict::Shape, Verdict::Survived, Verdict::NotCompiled, Verdict::NoVerdict];

    pub fn shown(self) -> &'static str {
        match self {
            Verdict::Refused => "refused",
            Verdict::Shape => "refused (shape)",
            Verdict::Survived => "SURVIVED",
            Verdict::NotCompiled => "not compiled",
            Verdict::NoVerdict => "no verdict",
        }
    }
}

/// What the prover says where a proof's text no longer fits the code, so that no fact was tested.
const SHAPE: [&str; 4] = ["that can be named from here", "binders, but its type has room", "has no field", "is expected here"];

/// Whether there are errors, and each says that.
fn is_shape<'a>(mut errors: impl Iterator<Item = &'a str>) -> bool {
    let shape = |error: &str| SHAPE.iter().any(|s| error.contains(s));
    errors.next().is_some_and(shape) && errors.all(shape)
}

/// What is said of one function, if its own proof was tested: not where all that it lacks is a function that it calls.
fn verdict_of(function: &str, said: &str) -> Option<Verdict> {
    let Some(line) = said.lines().find_map(|l| l.strip_prefix(&format!("fn {function}: "))) else {
        return Some(Verdict::NoVerdict);
    };
    if line == "proved" {
        return Some(Verdict::Survived);
    }
    if line.contains("it calls ") && !line.contains("did not prove") {
        return None;
    }
    let folder = function.split_once("::").unwrap().1.replace("::", "/");
    let proofs = ["Answers", "Invariants", "Proof"].map(|file| format!("/proofs/{folder}/{file}.antt:"));
    let own = |l: &&str| l.contains(": error") && proofs.iter().any(|proof| l.contains(proof));
    Some(if is_shape(said.lines().filter(own)) { Verdict::Shape } else { Verdict::Refused })
}

/// What is said of the whole crate.
fn verdict(said: &str) -> Verdict {
    let errors = || said.lines().filter(|l| l.contains(": error"));
    match () {
        _ if said.contains("\nlogic=proved ") => Verdict::Survived,
        _ if said.contains("\nlogic=not-proved") && is_shape(errors()) => Verdict::Shape,
        _ if said.contains("\nlogic=not-proved") => Verdict::Refused,
        _ if errors().next().is_some_and(|l| l.contains(": error[")) => Verdict::NotCompiled,
        _ => Verdict::NoVerdict,
    }
}

/// Whether the front end rejects something within the mutant's function.
fn is_rejected(mutant: &Mutant, said: &str) -> bool {
    let source = format!("src/{}:", mutant.file);
    let errors = said.lines().filter(|l| l.contains(": error["));
    let mut places = errors.filter_map(|l| l.split_once(&source)?.1.split(':').next()?.parse::<usize>().ok());
    places.any(|line| mutant.lines.0 <= line && line <= mutant.lines.1)
}

pub struct Copy {
    name: String,
    root: PathBuf,
    /// Who calls whom, as far as the prover has said so of functions that weren't proved.
    calls: RefCell<HashSet<(String, String)>>,
}

/// The calls that are named where a function isn't proved for the sake of those that it calls.
fn calls_said(said: &str) -> impl Iterator<Item = (String, String)> + '_ {
    let told = said.lines().filter_map(|l| {
        let (caller, why) = l.strip_prefix("fn ")?.split_once(": ")?;
        Some((caller, why.split_once("it calls ")?.1))
    });
    told.flat_map(|(caller, called)| called.split('`').skip(1).step_by(2).map(|f| (caller.to_string(), f.to_string())))
}

/// Copies a folder into another, its files by links where that can be.
fn copy_folder(from: &Path, to: &Path, linked: bool) {
    let copied = |flags| Command::new("cp").args([flags]).arg(from).arg(to).output().is_ok_and(|o| o.status.success());
    assert!(linked && copied("-rl") || copied("-r"), "cp -r {} failed", from.display());
}

impl Copy {
    /// The crate is proved as it stands first; what it leans on is linked, with what was proved of it.
    pub fn of(name: &str) -> Copy {
        let crates = std::env::current_dir().unwrap().join("crates");
        let proved = Command::new("rt").arg("check").current_dir(crates.join(name)).output().unwrap();
        assert!(proved.status.success(), "{name} isn't proved as it stands");
        let root = std::env::temp_dir().join(format!("muiwash-mutants-{}", std::process::id()));
        let _ = fs::remove_dir_all(&root);
        fs::create_dir_all(root.join("crates")).unwrap();
        fs::copy("crates.txt", root.join("crates.txt")).unwrap();
        for folder in fs::read_dir(&crates).unwrap() {
            let folder = folder.unwrap();
            copy_folder(&folder.path(), &root.join("crates"), folder.file_name() != name);
        }
        Copy { name: name.to_string(), root, calls: RefCell::default() }
    }

    fn checked(&self) -> String {
        let folder = self.root.join("crates").join(&self.name);
        let asked = Command::new("timeout").args(["300", "rt", "check"]).current_dir(folder).output().unwrap();
        let said = [asked.stdout, asked.stderr].map(|s| String::from_utf8_lossy(&s).into_owned()).join("\n");
        format!("\n{said}")
    }

    /// Whether two functions can be asked about together: different ones of which neither is known to call the other.
    pub fn apart(&self, f: &Option<String>, g: &Option<String>) -> bool {
        let (Some(f), Some(g)) = (f, g) else { return false };
        let calls = self.calls.borrow();
        f != g && !calls.contains(&(f.clone(), g.clone())) && !calls.contains(&(g.clone(), f.clone()))
    }

    /// The verdict on each of some mutants of different functions; none for one that must be asked again. A proof leans on what the
    /// functions it calls promise, not on their bodies, so that one change doesn't touch the verdict on another.
    pub fn ask(&self, mutants: &[&Mutant]) -> Vec<Option<Verdict>> {
        let folder = self.root.join("crates").join(&self.name).join("src");
        let kept: Vec<_> = mutants.iter().map(|m| fs::read_to_string(folder.join(&m.file)).unwrap()).collect();
        let mut later: Vec<&&Mutant> = mutants.iter().collect();
        later.sort_by_key(|m| std::cmp::Reverse(m.edit.0));
        for m in later {
            let mut text = fs::read_to_string(folder.join(&m.file)).unwrap();
            text.replace_range(m.edit.0..m.edit.1, &m.edit.2);
            fs::write(folder.join(&m.file), text).unwrap();
        }
        let said = self.checked();
        self.calls.borrow_mut().extend(calls_said(&said));
        mutants.iter().zip(kept).for_each(|(m, text)| fs::write(folder.join(&m.file), text).unwrap());
        self.note(mutants, &said);
        match (verdict(&said), mutants) {
            (whole, [_]) => vec![Some(whole)],
            (Verdict::NotCompiled, _) => mutants.iter().map(|m| is_rejected(m, &said).then_some(Verdict::NotCompiled)).collect(),
            (Verdict::NoVerdict, _) => mutants.iter().map(|_| None).collect(),
            (_, several) => several.iter().map(|m| verdict_of(m.function.as_ref().unwrap(), &said)).collect(),
        }
    }

    /// What was said is kept.
    fn note(&self, mutants: &[&Mutant], said: &str) {
        let mut log = fs::OpenOptions::new().create(true).append(true).open("target/mutants.log").unwrap();
        mutants.iter().for_each(|m| writeln!(log, "asked {}", m.shown()).unwrap());
        let told = said.lines().filter(|l| l.contains(": error") || (l.starts_with("fn ") && !l.ends_with(": proved")));
        told.for_each(|l| writeln!(log, "    {l}").unwrap());
    }
}

impl Drop for Copy {
    fn drop(&mut self) {
        let _ = fs::remove_dir_all(&self.root);
    }
}
