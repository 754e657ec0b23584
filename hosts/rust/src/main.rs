//! The Rust host: host compare [TRACES [SEED]], host time [SEED], host loop [SEED].
mod call;
mod compare;
mod hold;
mod time;

use std::process::ExitCode;

const TRACES: u64 = 100_000;
const SEED: u64 = 1;

/// The number in that place of the command, if there is one.
fn number(words: &[String], place: usize, usual: u64) -> Option<u64> {
    words.get(place).map_or(Some(usual), |word| word.parse().ok())
}

/// Whether the mode went well; none if the command isn't one.
fn go(words: &[String]) -> Option<bool> {
    match words.first()?.as_str() {
        "compare" => Some(compare::compare(number(words, 1, TRACES)? as usize, number(words, 2, SEED)?)),
        "time" => Some(time::time(number(words, 1, SEED)?)),
        "loop" => Some(hold::hold(number(words, 1, SEED)?)),
        _ => None,
    }
}

fn main() -> ExitCode {
    let words: Vec<String> = std::env::args().skip(1).collect();
    match go(&words) {
        Some(true) => ExitCode::SUCCESS,
        Some(false) => ExitCode::FAILURE,
        None => {
            eprintln!("usage: host compare [TRACES [SEED]] | host time [SEED] | host loop [SEED]");
            ExitCode::from(2)
        }
    }
}
