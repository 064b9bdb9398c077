// A night in Rust: the same as night.c. A slice of Rattle is a pointer and a length.
use std::{env, fs, process};

extern "C" {
    fn muiwash_check_holding(holding: *const u8, holding_len: usize, answer: *mut [u64; 3]);
    fn muiwash_load(holding: *const u8, holding_len: usize, file: *const u8, file_len: usize, out: *mut u8, out_len: usize, undo: *mut u8, undo_len: usize, answer: *mut [u64; 7]);
    fn muiwash_find(holding: *const u8, holding_len: usize, kind: u64, number: u64, answer: *mut [u64; 5]);
    fn muiwash_in_force(holding: *const u8, holding_len: usize, file: *const u8, file_len: usize, kind: u64, number: u64, answer: *mut [u64; 6]);
    fn muiwash_field(bytes: *const u8, bytes_len: usize, line: u64, field: u64, answer: *mut [u64; 5]);
}

// How long a buffer is always enough, as muiwash.h says it: for the new holding, for the undo, and for the undo of a file's undo.
fn muiwash_room(h: &[u8], f: &[u8]) -> usize {
    h.len() + f.len() + 16384
}
fn muiwash_undo_room(h: &[u8], f: &[u8]) -> usize {
    h.len() + 2 * f.len()
}
fn muiwash_back_room(f: &[u8], undo: &[u8]) -> usize {
    f.len() + undo.len()
}

// What stands before the zeros.
fn trimmed(mut b: Vec<u8>) -> Vec<u8> {
    b.truncate(b.iter().rposition(|&x| x != 0).map_or(0, |i| i + 1));
    b
}
fn print(what: &str, numbers: &[u64]) {
    println!("{what}: {}", numbers.iter().map(u64::to_string).collect::<Vec<_>>().join(","));
}
fn part(b: &[u8], start: u64, length: u64) -> String {
    String::from_utf8_lossy(&b[start as usize..(start + length) as usize]).into_owned()
}
// The seven numbers, the new holding and the undo, both empty on a refusal.
fn load(h: &[u8], f: &[u8], undo_room: usize) -> ([u64; 7], Vec<u8>, Vec<u8>) {
    let (mut answer, mut out, mut undo) = ([0; 7], vec![0; muiwash_room(h, f)], vec![0; undo_room]);
    unsafe { muiwash_load(h.as_ptr(), h.len(), f.as_ptr(), f.len(), out.as_mut_ptr(), out.len(), undo.as_mut_ptr(), undo.len(), &mut answer) };
    (answer, trimmed(out), trimmed(undo))
}

fn main() {
    let read = |i: usize| fs::read(env::args().nth(i).expect("HOLDING CHANGE REFUSED")).expect("a file that can be read");
    let (h, c, refused) = (read(1), read(2), read(3));
    let (mut three, mut five, mut six) = ([0; 3], [0; 5], [0; 6]);
    unsafe { muiwash_check_holding(h.as_ptr(), h.len(), &mut three) };
    print("the holding", &three);
    let (answer, nothing, none) = load(&h, &refused, muiwash_undo_room(&h, &refused));
    print("refused", &answer);
    println!("bytes left in the outputs: {} and {}", nothing.len(), none.len());
    let (answer, taken, undo) = load(&h, &c, muiwash_undo_room(&h, &c));
    print("taken", &answer);
    println!("bytes of its undo, which is kept: {}", undo.len());
    unsafe { muiwash_find(h.as_ptr(), h.len(), 11, 40000102, &mut five) };
    println!("street 40000102: {}", part(&h, five[3], five[4]));
    unsafe { muiwash_in_force(h.as_ptr(), h.len(), c.as_ptr(), c.len(), 21, 130000001, &mut six) };
    let (side, bytes) = if six[3] == 1 { ("file", &c) } else { ("holding", &h) };
    println!("BLPU 130000001, in force in the {side}: {}", part(bytes, six[4], six[5]));
    unsafe { muiwash_field(h.as_ptr(), h.len(), 2, 4, &mut five) };
    println!("line 2, field 4: {}", part(&h, five[3], five[4]));
    let (answer, back, _) = load(&taken, &undo, muiwash_back_room(&c, &undo));
    print("the undo, taken", &answer);
    println!("handed back: {}", if back == h { "the old holding, byte for byte" } else { "NOT the old holding" });
    process::exit(if back == h { 0 } else { 1 });
}
