//! A second, slow certificate that follows the rules word by word, to check the engine on small traces.
use crate::event::{Event, Step};

/// One thing met in the file: an event, or the number of a refusal, with section, event and byte.
type Item = (Result<Event, u32>, [usize; 3]);

fn number(bytes: &[u8], at: usize, width: usize) -> u64 {
    (0..width).map(|i| (bytes[at + i] as u64) << (8 * i)).sum()
}

/// The first refusal that applies before the first event: its number and byte.
fn refused_whole(bytes: &[u8]) -> Option<(u32, usize)> {
    let length = bytes.len();
    if length > 65_536 {
        return Some((12, 65_536));
    }
    if length < 4 {
        return Some((13, length));
    }
    if number(bytes, 0, 2) != 1 {
        return Some((14, 0));
    }
    let sections = number(bytes, 2, 2) as usize;
    if sections > 256 {
        return Some((15, 2));
    }
    if length < 4 + 8 * sections {
        return Some((13, length));
    }
    refused_contents(bytes, sections)
}

fn refused_contents(bytes: &[u8], sections: usize) -> Option<(u32, usize)> {
    let length = bytes.len() as u64;
    let mut ended = 4 + 8 * sections as u64;
    for i in 0..sections {
        let (begin, long) = (number(bytes, 4 + 8 * i, 4), number(bytes, 8 + 8 * i, 4));
        if begin != ended || begin + long > length {
            return Some((15, 4 + 8 * i));
        }
        ended = begin + long;
    }
    (ended != length).then_some((15, ended as usize))
}

fn event_at(bytes: &[u8], at: usize) -> Event {
    let x = bytes[at + 2];
    let step = match bytes[at] {
        0 => Step::Read(x),
        1 => Step::Write(x),
        2 => Step::Acquire(x),
        3 => Step::Release(x),
        4 => Step::ReadFlag(x),
        5 => Step::WriteFlag(x),
        6 => Step::Fork(x),
        7 => Step::Join(x),
        8 => Step::Allocate(x),
        _ => Step::Commit { reads: number(bytes, at + 2, 8), writes: number(bytes, at + 10, 8) },
    };
    Event { thread: bytes[at + 1], step }
}

/// Everything the file holds, up to the first refusal of the trace.
fn items(bytes: &[u8]) -> Vec<Item> {
    if let Some((fault, byte)) = refused_whole(bytes) {
        return vec![(Err(fault), [0, 0, byte])];
    }
    let mut found: Vec<Item> = Vec::new();
    for section in 1..=number(bytes, 2, 2) as usize {
        let begin = number(bytes, 8 * section - 4, 4) as usize;
        let body = &bytes[..begin + number(bytes, 8 * section, 4) as usize];
        add_items(body, begin, section, &mut found);
        if matches!(found.last(), Some((Err(_), _))) {
            break;
        }
    }
    found
}

fn add_items(body: &[u8], mut at: usize, section: usize, found: &mut Vec<Item>) {
    while at < body.len() {
        let spot = [section, found.len() + 1, at];
        let long = if body[at] == 9 { 18 } else { 3 };
        if body[at] >= 10 || at + long > body.len() {
            found.push((Err(if body[at] >= 10 { 16 } else { 17 }), spot));
            return;
        }
        found.push((Ok(event_at(body, at)), spot));
        at += long;
    }
}

fn started(record: &[Event], thread: u8) -> bool {
    thread == 0 || record.iter().any(|e| e.step == Step::Fork(thread))
}

fn ended(record: &[Event], thread: u8) -> bool {
    record.iter().any(|e| e.step == Step::Join(thread))
}

/// The thread whose acquire of the lock no release has followed.
fn holder(record: &[Event], lock: u8) -> Option<u8> {
    let last = record.iter().rev().find(|e| matches!(e.step, Step::Acquire(l) | Step::Release(l) if l == lock))?;
    matches!(last.step, Step::Acquire(_)).then_some(last.thread)
}

fn refusal(record: &[Event], event: Event) -> Option<u32> {
    let me = event.thread;
    let other = if let Step::Fork(t) | Step::Join(t) = event.step { Some(t) } else { None };
    let wide = match event.step {
        Step::Read(p) | Step::Write(p) => p > 63,
        Step::Acquire(x) | Step::Release(x) | Step::ReadFlag(x) | Step::WriteFlag(x) => x > 31,
        Step::Allocate(o) => o > 15,
        _ => false,
    };
    let tests: [(u32, &dyn Fn() -> bool); 9] = [
        (1, &|| me > 7 || other.is_some_and(|t| t > 7)),
        (2, &|| wide),
        (3, &|| !started(record, me) || ended(record, me)),
        (4, &|| matches!(event.step, Step::Fork(t) if started(record, t))),
        (5, &|| matches!(event.step, Step::Join(t) if t == me || !started(record, t))),
        (6, &|| matches!(event.step, Step::Acquire(l) if holder(record, l).is_some())),
        (7, &|| matches!(event.step, Step::Release(l) if holder(record, l) != Some(me))),
        (8, &|| matches!(event.step, Step::Join(t) if (0..32).any(|l| holder(record, l) == Some(t)))),
        (9, &|| record.len() >= 1_000_000),
    ];
    tests.iter().find(|(_, applies)| applies()).map(|(fault, _)| *fault)
}

/// Whether the pair, the first the earlier, is one of the six hand-overs.
fn hand_over(first: Event, second: Event) -> bool {
    use Step::*;
    let by_fork = matches!(first.step, Fork(t) if t == second.thread);
    let by_join = matches!(second.step, Join(t) if t == first.thread);
    by_fork
        || by_join
        || match (first.step, second.step) {
            (Release(a), Acquire(b)) | (WriteFlag(a), ReadFlag(b)) | (Fork(a), Join(b)) => a == b,
            (Commit { reads: r, writes: w }, Commit { reads: s, writes: x }) => (r | w) & (s | x) != 0,
            _ => false,
        }
}

/// For each event of the record, whether a chain leads from it to the last one.
fn before_last(record: &[Event]) -> Vec<bool> {
    let last = record.len() - 1;
    let mut leads = vec![false; record.len()];
    for i in (0..last).rev() {
        leads[i] = (i + 1..=last).any(|j| {
            let step = record[i].thread == record[j].thread || hand_over(record[i], record[j]);
            step && (j == last || leads[j])
        });
    }
    leads
}

/// How the event touches the place: a write, a read, or not at all.
fn touches(event: Event, place: u8) -> Option<bool> {
    match event.step {
        Step::Read(p) => (p == place).then_some(false),
        Step::Write(p) => (p == place).then_some(true),
        Step::Commit { writes, .. } if writes >> place & 1 == 1 => Some(true),
        Step::Commit { reads, .. } if reads >> place & 1 == 1 => Some(false),
        _ => None,
    }
}

/// The life of the place at that point of the record.
fn life(record: &[Event], at: usize, place: u8) -> usize {
    record[..at].iter().filter(|e| e.step == Step::Allocate(place / 4)).count()
}

/// The indices of the accesses of this kind to the place, in the life it has for the last event.
fn accesses(record: &[Event], place: u8, write: bool) -> Vec<usize> {
    let last = record.len() - 1;
    let now = life(record, last, place);
    (0..last).filter(|&i| touches(record[i], place) == Some(write) && life(record, i, place) == now).collect()
}

/// Whether the last event races at the place, by the definition alone.
fn races(record: &[Event], leads: &[bool], place: u8) -> bool {
    let Some(mine) = touches(record[record.len() - 1], place) else { return false };
    let write_races = accesses(record, place, true).iter().any(|&i| !leads[i]);
    write_races || mine && accesses(record, place, false).iter().any(|&i| !leads[i])
}

/// The witness's index by the rule for witnesses.
fn witness(record: &[Event], leads: &[bool], place: u8) -> Option<usize> {
    let mine = touches(record[record.len() - 1], place)?;
    let write = accesses(record, place, true).last().copied().filter(|&i| !leads[i]);
    if write.is_some() || !mine {
        return write;
    }
    let reads = accesses(record, place, false);
    let latest = |t: u8| reads.iter().copied().rfind(|&i| record[i].thread == t);
    (0..8).filter_map(latest).find(|&i| !leads[i])
}

/// The place and the witness's serial, if the last event races.
fn decline(record: &[Event]) -> Option<(u8, usize)> {
    let leads = before_last(record);
    let found = (0..64).find_map(|p| Some((p, witness(record, &leads, p)? + 1)));
    let first = (0..64).find(|&p| races(record, &leads, p));
    assert_eq!(found.map(|(p, _)| p), first, "the rule for witnesses and the definition of a race differ");
    found
}

/// The certificate of a file.
pub fn certificate(bytes: &[u8]) -> String {
    let mut record: Vec<Event> = Vec::new();
    let mut findings: Vec<String> = Vec::new();
    let mut fault = None;
    for (item, spot) in items(bytes) {
        fault = match item {
            Err(fault) => Some((fault, spot)),
            Ok(event) => take(event, spot, &mut record, &mut findings).map(|fault| (fault, spot)),
        };
        if fault.is_some() {
            break;
        }
    }
    let end = match fault {
        Some((fault, [s, e, b])) => format!("refused {fault} section {s} event {e} byte {b}"),
        None => if findings.is_empty() { "clean" } else { "not clean" }.to_string(),
    };
    format!("accepted {} declined {}\n{}{end}\n", record.len(), findings.len(), findings.concat())
}

/// Offers one event; answers the refusal that ends the run, if any.
fn take(event: Event, spot: [usize; 3], record: &mut Vec<Event>, findings: &mut Vec<String>) -> Option<u32> {
    if let Some(fault) = refusal(record, event) {
        return Some(fault);
    }
    record.push(event);
    let (place, witness) = decline(record)?;
    record.pop();
    if findings.len() == 1_000 {
        return Some(11);
    }
    findings.push(format!("event {} place {place} witness {witness}\n", spot[1]));
    None
}

#[cfg(test)]
mod tests {
    use super::certificate;
    use crate::certificate::{run, text};
    use crate::damage::damaged;
    use crate::event::file;
    use crate::generate::{small, trace};
    use crate::random::Random;

    fn same(bytes: &[u8]) {
        assert_eq!(text(&run(bytes)), certificate(bytes), "on {bytes:?}");
    }

    #[test]
    fn agrees_on_small_traces() {
        let mut random = Random::new(1);
        for _ in 0..20_000 {
            same(&file(&small(&mut random)));
        }
    }

    #[test]
    fn agrees_on_damaged_traces() {
        let mut random = Random::new(2);
        for _ in 0..20_000 {
            let bodies = small(&mut random);
            same(&damaged(&mut random, &bodies));
        }
    }

    #[test]
    fn agrees_on_traces_of_all_lengths() {
        let mut random = Random::new(3);
        for _ in 0..300 {
            let bodies = trace(&mut random);
            let length: usize = bodies.iter().map(Vec::len).sum();
            if length < 1_500 {
                same(&file(&bodies));
            }
        }
    }

    /// Two threads that write one place, the second so many times.
    fn declined(times: usize) -> Vec<u8> {
        let mut body = vec![6, 0, 1, 1, 0, 5];
        (0..times).for_each(|_| body.extend([1, 1, 5]));
        file(&[body, vec![0, 1, 5, 99]])
    }

    #[test]
    fn agrees_about_the_last_finding() {
        for times in 998..=1_002 {
            same(&declined(times));
        }
        let last = text(&run(&declined(1_001)));
        assert!(last.starts_with("accepted 2 declined 1000\n"));
        assert!(last.ends_with("refused 11 section 1 event 1003 byte 3026\n"));
    }

    #[test]
    fn agrees_about_the_longest_file() {
        let events = |count: usize| file(&[[0, 0, 5].repeat(count), vec![8, 0]]);
        for extra in 0..4 {
            let mut bytes = file(&[Vec::new()]);
            bytes.resize(65_535 + extra, 0);
            same(&bytes);
        }
        same(&events(500));
        let longest = file(&[vec![], vec![], [0, 0, 5].repeat(21_836)]);
        assert_eq!(longest.len(), 65_536);
        assert_eq!(text(&run(&longest)), "accepted 21836 declined 0\nclean\n");
    }
}
