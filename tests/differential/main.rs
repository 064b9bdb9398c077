//! differential CASES SEED FIRST COMMAND...: calls of the library, made by COMMAND (tests/driver.c, tests/driver.mjs), against the reference.
//! Every number and every lent byte is compared. FIRST is the number of the first case, so that one case can be run again.
mod calls;
mod damage;
mod random;
#[path = "../reference/mod.rs"]
mod reference;
mod sound;

use reference::answers::{answer, Answer, Call};
use std::io::{BufReader, BufWriter, Read, Write};
use std::process::{exit, Child, ChildStdin, ChildStdout, Command, Stdio};
use std::sync::mpsc::{sync_channel, SyncSender};
use std::time::{Duration, Instant};

/// Calls that may be under way; they are flushed more often than that, so neither side waits for the other for good.
const UNDER_WAY: usize = 256;
const FLUSHED: u64 = 64;
const CODES: usize = 20;
const OPERATIONS: usize = 6;
const NAMES: [&str; OPERATIONS] = ["check file", "check holding", "load", "find", "in force", "field"];

struct Plan {
    cases: u64,
    seed: u64,
    first: u64,
}

fn write_call(to: &mut impl Write, call: &Call) -> std::io::Result<()> {
    to.write_all(&[call.operation as u8])?;
    let lengths = [call.holding.len(), call.file.len(), call.out, call.undo].map(|length| length as u64);
    for number in lengths.into_iter().chain([call.first, call.second]) {
        to.write_all(&number.to_le_bytes())?;
    }
    to.write_all(&call.holding)?;
    to.write_all(&call.file)
}

/// What the library answered, and whether it left alone what it wasn't lent.
fn read_answer(from: &mut impl Read, call: &Call) -> std::io::Result<(Answer, bool)> {
    let mut kept = [1];
    from.read_exact(&mut kept)?;
    let mut numbers = Vec::new();
    for _ in 0..call.operation.numbers() {
        let mut number = [0; 8];
        from.read_exact(&mut number)?;
        numbers.push(u64::from_le_bytes(number));
    }
    let (mut out, mut undo) = (vec![0; call.out], vec![0; call.undo]);
    from.read_exact(&mut out)?;
    from.read_exact(&mut undo)?;
    Ok((Answer { numbers, out, undo }, kept[0] == 0))
}

fn feed(plan: &Plan, to: ChildStdin, sent: SyncSender<(u64, Call, Answer)>) {
    let mut to = BufWriter::new(to);
    for case in plan.first..plan.first + plan.cases {
        let call = calls::call(&mut random::Random::new(plan.seed, case));
        let written = write_call(&mut to, &call);
        let flushed = if case % FLUSHED == 0 { to.flush() } else { Ok(()) };
        let expected = answer(&call);
        // The other side says what went wrong; here there is nobody left to write for.
        if sent.send((case, call, expected)).is_err() || written.is_err() || flushed.is_err() {
            return;
        }
    }
}

fn show(name: &str, bytes: &[u8]) {
    println!("{name}, {} bytes: {}", bytes.len(), bytes.escape_ascii());
}

fn show_difference(seed: u64, case: u64, call: &Call, expected: &Answer, found: Option<(Answer, bool)>) {
    println!("DIFFERENCE: seed {seed}, case {case}, {}", NAMES[call.operation as usize]);
    show("holding", &call.holding);
    show("file", &call.file);
    println!("out {} bytes, undo {} bytes, asked {} {}", call.out, call.undo, call.first, call.second);
    println!("reference: {:?}", expected.numbers);
    show("reference's out", &expected.out);
    show("reference's undo", &expected.undo);
    match found {
        Some((found, kept)) => {
            println!("library: {:?}", found.numbers);
            show("library's out", &found.out);
            show("library's undo", &found.undo);
            println!("all else left alone: {kept}");
        }
        None => println!("library: no answer"),
    }
}

fn show_counts(plan: &Plan, times: &[[u64; CODES]; OPERATIONS], took: Duration) {
    for (name, times) in NAMES.iter().zip(times) {
        let reached: Vec<_> = (0..CODES).filter(|code| times[*code] > 0).map(|code| format!("{code}: {}", times[code])).collect();
        println!("{name:13} {}", reached.join(", "));
    }
    let of_all: Vec<u64> = (0..CODES).map(|code| times.iter().map(|of_one| of_one[code]).sum()).collect();
    let each: Vec<_> = of_all.iter().enumerate().map(|(code, times)| format!("{code}: {times}")).collect();
    println!("{:13} {}", "all", each.join(", "));
    println!("seed {}: {} taken, {} refused", plan.seed, of_all[0], plan.cases - of_all[0]);
    println!("{} cases, 0 differences; {:.0} cases a minute", plan.cases, 60.0 * plan.cases as f64 / took.as_secs_f64());
}

fn started(command: &[String]) -> (Child, ChildStdin, BufReader<ChildStdout>) {
    let mut child = Command::new(&command[0])
        .args(&command[1..])
        .stdin(Stdio::piped())
        .stdout(Stdio::piped())
        .spawn()
        .expect("the driver starts");
    let (to, from) = (child.stdin.take(), child.stdout.take());
    (child, to.expect("a pipe"), BufReader::new(from.expect("a pipe")))
}

/// One driver's share of the cases: how often each operation answered each code.
fn compared(plan: &Plan, command: &[String]) -> [[u64; CODES]; OPERATIONS] {
    let (mut child, to, mut from) = started(command);
    let (sent, waiting) = sync_channel(UNDER_WAY);
    let mut times = [[0; CODES]; OPERATIONS];
    std::thread::scope(|scope| {
        scope.spawn(|| feed(plan, to, sent));
        for (case, call, expected) in waiting {
            let found = read_answer(&mut from, &call).ok();
            if !found.as_ref().is_some_and(|(found, kept)| *found == expected && *kept) {
                show_difference(plan.seed, case, &call, &expected, found);
                exit(1);
            }
            times[call.operation as usize][expected.numbers[0] as usize] += 1;
        }
    });
    let ended = child.wait().is_ok_and(|status| status.success());
    if !ended {
        println!("the driver failed at its end");
        exit(1);
    }
    times
}

/// A share of the cases for each processor.
fn shares(plan: &Plan) -> impl Iterator<Item = Plan> + '_ {
    let many = std::thread::available_parallelism().map_or(1, |processors| processors.get() as u64);
    let upto = move |share: u64| plan.cases * share / many;
    (0..many).map(move |i| Plan { cases: upto(i + 1) - upto(i), seed: plan.seed, first: plan.first + upto(i) })
}

fn main() {
    let arguments: Vec<String> = std::env::args().skip(1).collect();
    let number = |at: usize| arguments.get(at).and_then(|text| text.parse().ok());
    let (Some(cases), Some(seed), Some(first), true) = (number(0), number(1), number(2), arguments.len() > 3) else {
        eprintln!("differential CASES SEED FIRST COMMAND...");
        exit(2);
    };
    let (plan, command) = (Plan { cases, seed, first }, &arguments[3..]);
    let (began, mut times) = (Instant::now(), [[0; CODES]; OPERATIONS]);
    std::thread::scope(|scope| {
        let running: Vec<_> = shares(&plan).map(|share| scope.spawn(move || compared(&share, command))).collect();
        for share in running {
            let told = share.join().expect("a share is compared");
            times.iter_mut().flatten().zip(told.iter().flatten()).for_each(|(all, of_share)| *all += of_share);
        }
    });
    show_counts(&plan, &times, began.elapsed());
}
