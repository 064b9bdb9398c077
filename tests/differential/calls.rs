//! The calls that are tried.
use crate::damage::damage;
use crate::random::Random;
use crate::reference::answers::{Call, Operation};
use crate::reference::load::{load, numbered, Held};
use crate::sound::{any_line, file, joined, steps};

const OPERATIONS: [Operation; 16] = [
    Operation::Load, Operation::Load, Operation::Load, Operation::Load, Operation::Load, Operation::Load, Operation::Load, Operation::Load,
    Operation::Load, Operation::CheckFile, Operation::CheckFile, Operation::CheckHolding, Operation::Find, Operation::InForce,
    Operation::InForce, Operation::Field,
];
/// One call in so many is large: at the limits of 4,096 body lines and 8,192 records, or where line numbers get longer.
const LARGE: usize = 300;
const FAR: [u64; 8] = [0, 1 << 8, 1 << 32, 1 << 63, 100_000_000, 1_000_000_000_000, u64::MAX, u64::MAX - 1];

pub fn call(random: &mut Random) -> Call {
    let operation = random.pick(&OPERATIONS);
    let large = random.one_in(LARGE);
    let (mut holding, mut file) = if large { large_night(random) } else { night(random) };
    if !large || random.one_in(4) {
        for _ in 0..random.pick(&[0, 0, 0, 0, 1, 1, 1, 2, 3]) {
            let hit = if random.one_in(4) { &mut holding } else { &mut file };
            damage(random, hit);
        }
    }
    let mut call = Call { operation, holding, file, out: 0, undo: 0, first: 0, second: 0 };
    match operation {
        Operation::Load => lend(random, &mut call),
        Operation::Find | Operation::InForce => enquire(random, &mut call),
        Operation::Field => ask_field(random, &mut call),
        _ => {}
    }
    call
}

/// A small holding and a file over it; one in eight is the file's undo over the new holding.
fn night(random: &mut Random) -> (Vec<u8>, Vec<u8>) {
    let most = if random.one_in(100) { 130 } else { 12 };
    let mut held = Held::new();
    let wanted = random.below(most + 1);
    steps(random, &mut held, wanted, b"IIIIU", usize::MAX);
    let holding = numbered(&held);
    let wanted = random.below(most + 1);
    let bad = random.pick(&[10, 100, 1000, usize::MAX]);
    let body = steps(random, &mut held, wanted, b"IIUUD", bad);
    let file = file(random, &body);
    match load(&holding, &file, usize::MAX) {
        Ok(loaded) if random.one_in(8) => (loaded.holding, loaded.undo),
        _ => (holding, file),
    }
}

fn street(change: char, order: usize, usrn: usize) -> Vec<u8> {
    format!("11,\"{change}\",{order},{usrn},1,9,,,,2001-01-01,2001-01-01,2001-01-01,,0.00,0.00,1.00,1.00").into_bytes()
}

fn large_night(random: &mut Random) -> (Vec<u8>, Vec<u8>) {
    match random.below(3) {
        0 => full_holding(random),
        1 => long_file(random),
        _ => longer_numbers(random),
    }
}

/// 8,191 to 8,193 streets, and a short file.
fn full_holding(random: &mut Random) -> (Vec<u8>, Vec<u8>) {
    let count = random.pick(&[8191, 8192, 8192, 8193]);
    let holding: Vec<_> = (1..=count).map(|number| street('I', number, number)).collect();
    let first = random.pick(&['I', 'U', 'D']);
    let usrn = if first == 'I' { count + 1 } else { 1 + random.below(count) };
    let mut body = [street(first, 1, usrn), street('I', 2, count + 2), street('I', 3, count + 3)];
    // A held key or an unmet reference besides: 10 comes before 16, and 16 before 12.
    if random.one_in(2) {
        let kind = random.pick(&[11, 11, 11, 21, 23, 24]);
        body[0] = any_line(random, kind, 1);
    }
    let body = &body[..1 + random.below(3)];
    (joined(&holding), file(random, body))
}

/// A short holding, and a file of 4,095 to 4,097 body lines, whose last may be out of place or faulty.
fn long_file(random: &mut Random) -> (Vec<u8>, Vec<u8>) {
    let count = random.pick(&[4095, 4096, 4097]);
    let mut body: Vec<_> = (1..=count).map(|order| street(if order % 2 == 1 { 'I' } else { 'D' }, order, 7)).collect();
    if random.one_in(3) {
        let kind = random.pick(&[10, 12, 21, 29, 99]);
        body[count - 1] = any_line(random, kind, count);
    }
    // A wrong field count besides: 9 comes before 4.
    if random.one_in(3) {
        body[count - 1].push(b',');
    }
    let holding = if random.one_in(2) { Vec::new() } else { joined(&[street('I', 1, 5)]) };
    (holding, file(random, &body))
}

/// About 10, 100 or 1,000 streets, and steps among them: the numbers of later lines get a digit more or less.
fn longer_numbers(random: &mut Random) -> (Vec<u8>, Vec<u8>) {
    let count = random.pick(&[10, 100, 1000]) - 3 + random.below(5);
    let holding: Vec<_> = (1..=count).map(|number| street('I', number, 2 * number)).collect();
    let steps = random.below(12);
    // Held streets have even numbers; each step has a street of its own.
    let body: Vec<_> = (1..=steps)
        .map(|order| match random.pick(&['I', 'U', 'D']) {
            'I' => street('I', order, 2 * (order * count / 13) + 1),
            change => street(change, order, 2 * (order * count / 13).max(order)),
        })
        .collect();
    (joined(&holding), file(random, &body))
}

/// A length at, one below, one above or somewhere about what is needed.
fn about(random: &mut Random, need: usize) -> usize {
    match random.below(10) {
        0 => need.saturating_sub(1),
        1 => need + 1,
        2 => random.below(need + 1),
        3 | 4 => need,
        _ => need + random.below(300),
    }
}

/// Both buffers of a load, each about as long as it must be, so that 13, 17, both at once and both sides of either's edge are met.
fn lend(random: &mut Random, call: &mut Call) {
    let (peak, new, undo) = match load(&call.holding, &call.file, usize::MAX) {
        Ok(loaded) => (loaded.peak, loaded.holding.len(), loaded.undo.len()),
        Err(_) => (call.holding.len() + call.file.len(), call.holding.len(), call.file.len()),
    };
    let room = if random.one_in(8) { new } else { peak };
    call.out = about(random, room);
    call.undo = about(random, undo);
}

fn enquire(random: &mut Random, call: &mut Call) {
    let near = random.pick(&[10, 12, 23, 24, 29, 99]);
    call.first = if random.one_in(8) { near } else { random.pick(&[11, 21]) };
    call.second = random.pick(&[1, 1, 2, 2, 3, 3, 4, 5, 6, 99_999_999, 999_999_999_999]);
    // Numbers that would be small if only their lowest bits were looked at.
    if random.one_in(20) {
        call.first = call.first.wrapping_add(random.pick(&FAR));
    }
    if random.one_in(20) {
        call.second = call.second.wrapping_add(random.pick(&FAR));
    }
}

fn ask_field(random: &mut Random, call: &mut Call) {
    if random.one_in(2) {
        std::mem::swap(&mut call.holding, &mut call.file);
    }
    if random.one_in(3) {
        let length = random.below(24);
        call.holding = (0..length).map(|_| random.pick(b"\r\n\r\n\",,a\0\xFF")).collect();
    }
    call.file.clear();
    call.first = random.below(6) as u64;
    let fields = random.pick(&[6, 6, 30]);
    call.second = random.below(fields) as u64;
    if random.one_in(10) {
        call.first = call.first.wrapping_add(random.pick(&FAR));
    }
    if random.one_in(10) {
        call.second = call.second.wrapping_add(random.pick(&FAR));
    }
}
