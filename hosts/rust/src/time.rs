//! Times the engine and the C call with clocks on the same traces, in one run.
use crate::call::certify;
use engine::certificate::{run, text};
use engine::event::file;
use engine::generate::lawful;
use engine::random::Random;
use std::hint::black_box;
use std::time::{Duration, Instant};

const CLOCKS: u32 = 2;
const ROUNDS: usize = 15;
const TRACES: usize = 1_000;
const ROOM: usize = 36_000;

fn traces(seed: u64) -> Vec<Vec<u8>> {
    let mut random = Random::new(seed);
    let length = |i: usize| if i.is_multiple_of(50) { 3_000 } else { 20 + 8 * (i % 50) };
    (0..TRACES).map(|i| file(&lawful(&mut random, length(i)))).collect()
}

fn timed(work: impl FnOnce()) -> Duration {
    let begin = Instant::now();
    work();
    begin.elapsed()
}

fn engine(bytes: &[u8]) {
    black_box(text(&run(black_box(bytes))));
}

fn call(bytes: &[u8], out: &mut [u8]) {
    assert!(certify(black_box(bytes), CLOCKS, out) > 0);
}

/// The shortest times of the engine and of the call on each trace, as the machine's other work can only lengthen them.
/// A round goes over all traces, so that none is met again while the processor still knows its branches.
fn shortest(traces: &[Vec<u8>], out: &mut [u8]) -> Vec<(Duration, Duration)> {
    let mut best = vec![(Duration::MAX, Duration::MAX); traces.len()];
    for _ in 0..ROUNDS {
        for (bytes, best) in traces.iter().zip(&mut best) {
            best.0 = best.0.min(timed(|| engine(bytes)));
            best.1 = best.1.min(timed(|| call(bytes, out)));
        }
    }
    best
}

fn micros(time: Duration) -> f64 {
    time.as_secs_f64() * 1e6 / TRACES as f64
}

/// Prints the mean of both over the traces, and their ratio.
pub fn time(seed: u64) -> bool {
    let mut out = vec![0; ROOM];
    let best = shortest(&traces(seed), &mut out);
    let engine: Duration = best.iter().map(|times| times.0).sum();
    let call: Duration = best.iter().map(|times| times.1).sum();
    println!(
        "time: engine {:.1} us, C call {:.1} us a trace; C call / engine {:.2} ({TRACES} lawful traces of 20 to 3,000 \
         events, the best of {ROUNDS} for each)",
        micros(engine),
        micros(call),
        call.as_secs_f64() / engine.as_secs_f64()
    );
    true
}
