//! Damage to traces: cut, flipped, misplaced, padded.
use crate::event::file;
use crate::random::Random;

/// A damaged file of these bodies.
pub fn damaged(random: &mut Random, bodies: &[Vec<u8>]) -> Vec<u8> {
    match random.below(12) {
        0 | 1 => cut(random, file(bodies)),
        2 | 3 => flip(random, file(bodies)),
        4 | 5 => file(&shorten(random, bodies)),
        6 | 7 => file(&flip_body(random, bodies)),
        8 | 9 => misplace(random, file(bodies)),
        10 => header(random, file(bodies)),
        _ => pad(random, file(bodies)),
    }
}

/// The file up to some byte; often one of the first.
fn cut(random: &mut Random, mut bytes: Vec<u8>) -> Vec<u8> {
    let most = if random.percent(50) { bytes.len().min(12) } else { bytes.len() };
    bytes.truncate(random.between(0, most));
    bytes
}

/// One to three bytes changed, anywhere.
fn flip(random: &mut Random, mut bytes: Vec<u8>) -> Vec<u8> {
    for _ in 0..random.between(1, 3) {
        let at = random.below(bytes.len());
        change(random, &mut bytes, at);
    }
    bytes
}

fn change(random: &mut Random, bytes: &mut [u8], at: usize) {
    let old = bytes[at];
    bytes[at] = if random.percent(50) { old ^ 1 << random.below(8) } else { random.below(256) as u8 };
}

/// The bodies that hold something.
fn filled(bodies: &[Vec<u8>]) -> Vec<usize> {
    (0..bodies.len()).filter(|&i| !bodies[i].is_empty()).collect()
}

/// Some bytes off a body's end, with contents that say so.
fn shorten(random: &mut Random, bodies: &[Vec<u8>]) -> Vec<Vec<u8>> {
    let mut bodies = bodies.to_vec();
    let all = filled(&bodies);
    if !all.is_empty() {
        let body = &mut bodies[random.pick(&all)];
        let less = random.between(1, body.len().min(17));
        body.truncate(body.len() - less);
    }
    bodies
}

/// One byte of a body changed, so that the contents stay right.
fn flip_body(random: &mut Random, bodies: &[Vec<u8>]) -> Vec<Vec<u8>> {
    let mut bodies = bodies.to_vec();
    let all = filled(&bodies);
    if !all.is_empty() {
        let body = &mut bodies[random.pick(&all)];
        let at = random.below(body.len());
        change(random, body, at);
    }
    bodies
}

/// A number of the contents changed: a little, to some other, or to one near the largest.
fn misplace(random: &mut Random, mut bytes: Vec<u8>) -> Vec<u8> {
    let sections = u16::from_le_bytes([bytes[2], bytes[3]]) as usize;
    if sections == 0 {
        return pad(random, bytes);
    }
    let at = 4 + 4 * random.below(2 * sections);
    let old = u32::from_le_bytes(bytes[at..at + 4].try_into().unwrap());
    let new = match random.below(4) {
        0 => old.wrapping_add(1),
        1 => old.wrapping_sub(random.between(1, 3) as u32),
        2 => random.below(70_000) as u32,
        _ => u32::MAX - random.below(64) as u32,
    };
    bytes[at..at + 4].copy_from_slice(&new.to_le_bytes());
    bytes
}

/// Another edition, or another number of sections.
fn header(random: &mut Random, mut bytes: Vec<u8>) -> Vec<u8> {
    let at = random.below(4);
    bytes[at] = random.below(256) as u8;
    bytes
}

/// More bytes behind the last body: a few, or up to about the most that a file may have.
fn pad(random: &mut Random, mut bytes: Vec<u8>) -> Vec<u8> {
    let length = if random.percent(50) { bytes.len() + random.between(1, 20) } else { random.between(65_530, 65_542) };
    bytes.resize(length.max(bytes.len()), 0);
    bytes
}
