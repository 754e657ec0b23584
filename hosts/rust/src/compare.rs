//! Compares the C call's certificates, over all four kinds, with the engine's.
use crate::call::{certify, NO_ROOM};
use engine::certificate::{run, text, Run};
use engine::damage::damaged;
use engine::event::file;
use engine::generate::trace;
use engine::random::Random;
use std::collections::BTreeMap;

const FILLER: u8 = 0xA5;
const SPARE: usize = 40;

/// What was met so far.
#[derive(Default)]
struct Tally {
    certificates: usize,
    accepted: usize,
    findings: usize,
    clean: usize,
    not_clean: usize,
    refused: BTreeMap<u32, usize>,
}

impl Tally {
    fn note(&mut self, run: &Run) {
        self.accepted += run.accepted as usize;
        self.findings += run.findings.len();
        match run.refusal {
            Some(refusal) => *self.refused.entry(refusal.number).or_default() += 1,
            None if run.findings.is_empty() => self.clean += 1,
            None => self.not_clean += 1,
        }
    }

    fn print(&self, traces: usize) {
        let refused: Vec<String> = self.refused.iter().map(|(number, times)| format!("{number}: {times}")).collect();
        println!(
            "compare: {traces} traces and {traces} damaged ones, {} certificates equal; {} events accepted, \
             {} declined; clean {}, not clean {}, refused by number {{{}}}",
            self.certificates,
            self.accepted,
            self.findings,
            self.clean,
            self.not_clean,
            refused.join(", ")
        );
    }
}

/// A difference, in words.
type Checked = Result<(), String>;

/// The call must give this text, whatever room it has beyond it, and keep the bytes behind.
fn check_text(bytes: &[u8], kind: u32, expected: &str, spare: usize) -> Checked {
    let mut out = vec![FILLER; expected.len() + spare];
    let answer = certify(bytes, kind, &mut out);
    let (front, rest) = out.split_at(expected.len());
    if answer == expected.len() as i64 && front == expected.as_bytes() && rest.iter().all(|&byte| byte == FILLER) {
        return Ok(());
    }
    let given = String::from_utf8_lossy(&out).into_owned();
    Err(format!("kind {kind} answers {answer}, buffer:\n{given}\nexpected:\n{expected}"))
}

/// With one byte too few the call must answer so and change nothing.
fn check_short(bytes: &[u8], kind: u32, expected: &str) -> Checked {
    let mut out = vec![FILLER; expected.len() - 1];
    let answer = certify(bytes, kind, &mut out);
    if answer == NO_ROOM && out.iter().all(|&byte| byte == FILLER) {
        return Ok(());
    }
    Err(format!("kind {kind} answers {answer} to a buffer one byte short"))
}

/// All four kinds on one file; one of them also with a full buffer and with one a byte short.
fn check_file(bytes: &[u8], tally: &mut Tally) -> Checked {
    let run = run(bytes);
    let expected = text(&run);
    for kind in 1..=4 {
        check_text(bytes, kind, &expected, SPARE)?;
        tally.certificates += 1;
    }
    let kind = 1 + (bytes.len() % 4) as u32;
    check_text(bytes, kind, &expected, 0)?;
    check_short(bytes, kind, &expected)?;
    tally.note(&run);
    Ok(())
}

fn report(difference: String, bytes: &[u8], index: usize) -> bool {
    let hex: String = bytes.iter().map(|byte| format!("{byte:02x}")).collect();
    println!("compare: trace {index} differs: {difference}\nfile in hex: {hex}");
    false
}

/// Compares on so many traces and as many damaged ones; whether all are equal.
pub fn compare(traces: usize, seed: u64) -> bool {
    let mut random = Random::new(seed);
    let mut tally = Tally::default();
    for index in 0..traces {
        let bodies = trace(&mut random);
        for bytes in [file(&bodies), damaged(&mut random, &bodies)] {
            if let Err(difference) = check_file(&bytes, &mut tally) {
                return report(difference, &bytes, index);
            }
        }
    }
    tally.print(traces);
    true
}
