//! One change at a time in a copy of a crate's code; the prover is asked about each.
mod ask;
mod mutants;
mod source;
mod tokens;

use ask::{Copy, Verdict};
use mutants::Mutant;

struct Wanted {
    sample: usize,
    seed: u64,
    list: bool,
    crates: Vec<String>,
}

fn wanted() -> Wanted {
    let mut wanted = Wanted { sample: usize::MAX, seed: 1, list: false, crates: Vec::new() };
    let mut words = std::env::args().skip(1);
    while let Some(word) = words.next() {
        let mut number = || words.next().and_then(|n| n.parse::<u64>().ok()).unwrap_or_else(|| usage());
        match word.as_str() {
            "--sample" => wanted.sample = number() as usize,
            "--seed" => wanted.seed = number(),
            "--list" => wanted.list = true,
            name if !name.starts_with('-') => wanted.crates.push(word),
            _ => usage(),
        }
    }
    if wanted.crates.is_empty() {
        usage();
    }
    wanted
}

fn usage() -> ! {
    eprintln!("usage: tests/mutants [--sample N] [--seed S] [--list] CRATE[/FILE] ..");
    std::process::exit(2)
}

/// The mutants in an order that the seed decides.
fn shuffled(mut all: Vec<Mutant>, seed: u64) -> Vec<Mutant> {
    let mut state = seed;
    for i in (1..all.len()).rev() {
        state = state.wrapping_add(0x9E37_79B9_7F4A_7C15);
        let mut z = state;
        z = (z ^ (z >> 30)).wrapping_mul(0xBF58_476D_1CE4_E5B9);
        z = (z ^ (z >> 27)).wrapping_mul(0x94D0_49BB_1331_11EB);
        all.swap(i, ((z ^ (z >> 31)) % (i as u64 + 1)) as usize);
    }
    all
}

/// Of the first `most` mutants those that are asked together: of functions that don't call one another, or one of a constant alone.
fn together(copy: &Copy, left: &[Mutant], most: usize) -> Vec<usize> {
    let mut chosen: Vec<usize> = Vec::new();
    for i in 0..left.len().min(most) {
        if chosen.iter().all(|&j| copy.apart(&left[j].function, &left[i].function)) {
            chosen.push(i);
        }
    }
    chosen
}

/// Asks about mutants until none is left, or as many as are wanted have compiled. One that survives among others is asked again alone.
fn run(name: &str, mut left: Vec<Mutant>, wanted: usize) -> Vec<(Verdict, Mutant)> {
    let copy = Copy::of(name);
    let (mut settled, mut alone): (Vec<(Verdict, Mutant)>, usize) = (Vec::new(), 0);
    loop {
        let compiled = settled.iter().filter(|(v, _)| *v != Verdict::NotCompiled).count();
        let mut chosen = together(&copy, &left, wanted - compiled);
        chosen.truncate(if alone > 0 { 1 } else { chosen.len() });
        if chosen.is_empty() {
            return settled;
        }
        let verdicts = copy.ask(&chosen.iter().map(|&i| &left[i]).collect::<Vec<_>>());
        let several = chosen.len() > 1;
        let before = settled.len();
        let mut again = Vec::new();
        for (&i, verdict) in chosen.iter().zip(verdicts).rev() {
            let mutant = left.remove(i);
            match verdict {
                Some(Verdict::Survived) if several => again.push(mutant),
                Some(verdict) => settled.push((verdict, mutant)),
                None => left.insert(i, mutant),
            }
        }
        settled[before..].iter().for_each(|(v, m)| println!("{}: {}", m.shown(), v.shown()));
        let none = several && settled.len() == before && again.is_empty();
        alone = alone.saturating_sub(1) + if none { chosen.len() } else { again.len() };
        again.into_iter().for_each(|m| left.insert(0, m));
    }
}

/// What became of a crate's mutants.
fn counted(name: &str, settled: &[(Verdict, Mutant)]) -> String {
    let of = |v: Verdict| settled.iter().filter(|(w, _)| *w == v).count();
    let each: Vec<String> = Verdict::ALL.iter().map(|&v| format!("{} {}", of(v), v.shown())).collect();
    format!("{name}: {}", each.join(", "))
}

fn main() {
    let wanted = wanted();
    let mut summary = Vec::new();
    for named in &wanted.crates {
        let (name, file) = named.split_once('/').unwrap_or((named, ""));
        let mut all = mutants::of_crate(name);
        all.retain(|mutant| mutant.file.ends_with(file));
        if wanted.list {
            all.iter().for_each(|m| println!("{}", m.shown()));
            continue;
        }
        if wanted.sample != usize::MAX {
            all = shuffled(all, wanted.seed);
        }
        let settled = run(name, all, wanted.sample);
        summary.push(counted(named, &settled));
        let survivors = settled.iter().filter(|(v, _)| *v == Verdict::Survived);
        summary.extend(survivors.map(|(_, m)| format!("SURVIVED {}", m.shown())));
    }
    summary.iter().for_each(|line| println!("{line}"));
}
