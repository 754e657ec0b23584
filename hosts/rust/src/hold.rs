//! Calls many times, and checks that the resident memory does not grow.
use crate::call::{certify, NO_ROOM, NO_SUCH_KIND};
use engine::damage::damaged;
use engine::event::file;
use engine::generate::trace;
use engine::random::Random;

const POOL: usize = 100;
const ROUNDS: usize = 400;
const ROOM: usize = 36_000;
/// Far less than one 16-byte block for each call would come to.
const MOST_PAGES: usize = 32;

/// The resident pages of this process.
fn resident() -> usize {
    let text = std::fs::read_to_string("/proc/self/statm").expect("the system tells of memory");
    text.split(' ').nth(1).and_then(|word| word.parse().ok()).expect("the second number is the resident pages")
}

fn pool(seed: u64) -> Vec<Vec<u8>> {
    let mut random = Random::new(seed);
    let mut files = Vec::new();
    for _ in 0..POOL {
        let bodies = trace(&mut random);
        files.push(file(&bodies));
        files.push(damaged(&mut random, &bodies));
    }
    files
}

/// Calls for each file with one kind, with that kind and no room, and with no kind. Answers the number of calls.
fn call_all(files: &[Vec<u8>], kind: u32, out: &mut [u8]) -> usize {
    for bytes in files {
        assert!(certify(bytes, kind, out) > 0, "no certificate");
        assert_eq!(certify(bytes, kind, &mut out[..20]), NO_ROOM);
        assert_eq!(certify(bytes, 0, out), NO_SUCH_KIND);
    }
    3 * files.len()
}

/// Whether the memory stays as it is.
pub fn hold(seed: u64) -> bool {
    let files = pool(seed);
    let mut out = vec![0; ROOM];
    for kind in 1..=4 {
        call_all(&files, kind, &mut out);
    }
    let before = resident();
    let calls: usize = (0..ROUNDS).map(|round| call_all(&files, 1 + (round % 4) as u32, &mut out)).sum();
    let after = resident();
    println!("loop: {calls} calls, {before} pages resident before and {after} after");
    after <= before + MOST_PAGES
}
