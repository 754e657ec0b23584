//! Random traces: mostly lawful, of several sections, disciplined in their accesses to a varying degree.
use crate::event::{body, Event, Step};
use crate::random::Random;

/// What one trace is like.
struct Profile {
    length: usize,
    threads: usize,
    locks: usize,
    flags: usize,
    objects: usize,
    /// How many accesses in a hundred keep no discipline.
    wild: usize,
    /// Events that do something else than an access, in a hundred.
    other: usize,
    /// How many events in a thousand are unlawful.
    unlawful: usize,
}

/// Which threads run and who holds which lock.
struct World {
    profile: Profile,
    started: Vec<bool>,
    ended: Vec<bool>,
    holders: Vec<Option<usize>>,
}

fn step(thread: usize, step: Step) -> Event {
    Event { thread: thread as u8, step }
}

impl World {
    fn new(profile: Profile) -> Self {
        let mut started = vec![false; 8];
        started[0] = true;
        World { profile, started, ended: vec![false; 8], holders: vec![None; 32] }
    }

    fn running(&self, thread: usize) -> bool {
        self.started[thread] && !self.ended[thread]
    }

    fn holds_any(&self, thread: usize) -> bool {
        self.holders.contains(&Some(thread))
    }

    fn some_running(&self, random: &mut Random) -> usize {
        let all: Vec<usize> = (0..8).filter(|&t| self.running(t)).collect();
        random.pick(&all)
    }

    fn place(&self, random: &mut Random) -> usize {
        random.below(4 * self.profile.objects)
    }

    /// The next event; lawful unless the profile wants another.
    fn next(&mut self, random: &mut Random) -> Event {
        if random.below(1_000) < self.profile.unlawful {
            return self.unlawful(random);
        }
        let thread = self.some_running(random);
        let other = random.percent(self.profile.other);
        let event = if other { self.other(thread, random) } else { None };
        event.unwrap_or_else(|| self.access(thread, random))
    }

    /// An event that is no access, where one is possible.
    fn other(&mut self, thread: usize, random: &mut Random) -> Option<Event> {
        match random.below(10) {
            0 | 1 => self.fork(thread, random),
            2 if random.percent(40) => self.join(thread, random),
            2 | 3 => Some(step(thread, Step::WriteFlag(random.below(self.profile.flags) as u8))),
            4 => Some(step(thread, Step::ReadFlag(random.below(self.profile.flags) as u8))),
            5 | 6 => self.acquire(thread, random),
            7 | 8 => self.release(thread, random),
            _ => Some(step(thread, Step::Allocate(random.below(self.profile.objects) as u8))),
        }
    }

    fn fork(&mut self, thread: usize, random: &mut Random) -> Option<Event> {
        let fresh: Vec<usize> = (1..self.profile.threads).filter(|&t| !self.started[t]).collect();
        if fresh.is_empty() {
            return None;
        }
        let other = random.pick(&fresh);
        self.started[other] = true;
        Some(step(thread, Step::Fork(other as u8)))
    }

    fn join(&mut self, thread: usize, random: &mut Random) -> Option<Event> {
        let ready = |t: &usize| *t != thread && self.started[*t] && !self.holds_any(*t);
        let all: Vec<usize> = (0..8).filter(ready).collect();
        if all.is_empty() {
            return None;
        }
        let other = random.pick(&all);
        self.ended[other] = true;
        Some(step(thread, Step::Join(other as u8)))
    }

    fn acquire(&mut self, thread: usize, random: &mut Random) -> Option<Event> {
        let lock = random.below(self.profile.locks);
        self.take_lock(thread, lock)
    }

    fn take_lock(&mut self, thread: usize, lock: usize) -> Option<Event> {
        if self.holders[lock].is_some() {
            return None;
        }
        self.holders[lock] = Some(thread);
        Some(step(thread, Step::Acquire(lock as u8)))
    }

    fn release(&mut self, thread: usize, random: &mut Random) -> Option<Event> {
        let held: Vec<usize> = (0..32).filter(|&l| self.holders[l] == Some(thread)).collect();
        if held.is_empty() {
            return None;
        }
        let lock = random.pick(&held);
        self.holders[lock] = None;
        Some(step(thread, Step::Release(lock as u8)))
    }

    fn access(&mut self, thread: usize, random: &mut Random) -> Event {
        if random.percent(self.profile.wild) {
            return self.wild(thread, random);
        }
        match random.below(3) {
            0 => self.own(thread, random),
            1 => self.guarded(thread, random),
            _ => self.transaction(thread, random, |p| p % 4 >= 2),
        }
    }

    fn plain(&self, thread: usize, place: usize, random: &mut Random) -> Event {
        let place = place as u8;
        step(thread, if random.percent(50) { Step::Read(place) } else { Step::Write(place) })
    }

    fn wild(&self, thread: usize, random: &mut Random) -> Event {
        if random.percent(20) {
            return self.transaction(thread, random, |_| true);
        }
        let place = self.place(random);
        self.plain(thread, place, random)
    }

    /// An access to a place that only this thread uses.
    fn own(&self, thread: usize, random: &mut Random) -> Event {
        let place = 4 * thread + 32 * random.below(2);
        self.plain(thread, place, random)
    }

    /// An access to a place under its lock, or the acquiring of that lock; a transaction if another thread holds it.
    fn guarded(&mut self, thread: usize, random: &mut Random) -> Event {
        let place = 4 * random.below(self.profile.objects) + 1;
        let lock = place / 4 % self.profile.locks;
        if self.holders[lock] == Some(thread) {
            return self.plain(thread, place, random);
        }
        match self.take_lock(thread, lock) {
            Some(event) => event,
            None => self.transaction(thread, random, |p| p % 4 >= 2),
        }
    }

    /// A commit over a few of the places that are fit for it.
    fn transaction(&self, thread: usize, random: &mut Random, fit: fn(usize) -> bool) -> Event {
        let mut sets = [0u64; 2];
        for set in &mut sets {
            for _ in 0..random.below(4) {
                let place = self.place(random);
                *set |= (fit(place) as u64) << place;
            }
        }
        if random.percent(1) {
            sets[random.below(2)] = random.bits();
        }
        step(thread, Step::Commit { reads: sets[0], writes: sets[1] })
    }

    /// An event that most likely breaks a rule.
    fn unlawful(&self, random: &mut Random) -> Event {
        let thread = self.some_running(random);
        let far = random.between(8, 255) as u8;
        let any = random.below(8) as u8;
        match random.below(9) {
            0 => step(random.between(8, 255), single(random.below(9), random.below(256) as u8)),
            1 => step(thread, single(random.between(6, 7), far)),
            2 => step(thread, single(random.below(9), random.between(16, 255) as u8)),
            3 => step(random.below(8), single(random.below(9), any)),
            4 => step(thread, Step::Fork(any)),
            5 => step(thread, Step::Join(if random.percent(50) { thread as u8 } else { any })),
            6 => step(thread, Step::Acquire(self.some_held(random) as u8)),
            7 => step(thread, Step::Release(self.some_held(random) as u8)),
            _ => step(thread, Step::Join(self.holders[self.some_held(random)].unwrap_or(1) as u8)),
        }
    }

    /// A lock that someone holds, if any is held.
    fn some_held(&self, random: &mut Random) -> usize {
        let held: Vec<usize> = (0..32).filter(|&l| self.holders[l].is_some()).collect();
        if held.is_empty() {
            random.below(32)
        } else {
            random.pick(&held)
        }
    }
}

/// The step of that kind below 9 with this operand.
fn single(kind: usize, x: u8) -> Step {
    let makers = [
        Step::Read,
        Step::Write,
        Step::Acquire,
        Step::Release,
        Step::ReadFlag,
        Step::WriteFlag,
        Step::Fork,
        Step::Join,
        Step::Allocate,
    ];
    makers[kind](x)
}

fn profile(random: &mut Random, length: usize) -> Profile {
    Profile {
        length,
        threads: random.between(1, 8),
        locks: random.pick(&[1, 2, 4, 32]),
        flags: random.pick(&[1, 2, 32]),
        objects: random.pick(&[1, 2, 5, 16]),
        wild: random.pick(&[0, 0, 2, 20, 100]),
        other: random.pick(&[5, 20, 40, 70]),
        unlawful: if random.percent(75) { 0 } else { random.pick(&[5, 20, 100]) },
    }
}

/// A lawful trace that is long enough for more findings than a certificate lists.
fn long_profile(random: &mut Random) -> Profile {
    let length = random.between(1_500, 3_400);
    Profile { threads: 8, wild: 100, other: random.pick(&[5, 20]), unlawful: 0, ..profile(random, length) }
}

fn usual_length(random: &mut Random) -> usize {
    match random.below(100) {
        0..=2 => 0,
        3..=34 => random.between(1, 20),
        35..=79 => random.between(21, 120),
        _ => random.between(121, 400),
    }
}

/// Splits the events into sections, of which some may be empty.
fn split(random: &mut Random, events: &[Event]) -> Vec<Vec<u8>> {
    if events.is_empty() && random.percent(50) {
        return Vec::new();
    }
    let sections = match random.below(100) {
        0 => random.between(250, 260),
        1..=5 => random.between(7, 40),
        _ => random.between(1, 6),
    };
    let mut cuts: Vec<usize> = (1..sections).map(|_| random.between(0, events.len())).collect();
    cuts.extend([0, events.len()]);
    cuts.sort();
    cuts.windows(2).map(|pair| body(&events[pair[0]..pair[1]])).collect()
}

fn bodies(random: &mut Random, profile: Profile) -> Vec<Vec<u8>> {
    let mut world = World::new(profile);
    let events: Vec<Event> = (0..world.profile.length).map(|_| world.next(random)).collect();
    split(random, &events)
}

/// The sections' bodies of a trace of up to a few hundred events, or, now and then, a few thousand.
pub fn trace(random: &mut Random) -> Vec<Vec<u8>> {
    if random.below(400) == 0 {
        let profile = long_profile(random);
        return bodies(random, profile);
    }
    let length = usual_length(random);
    let profile = profile(random, length);
    bodies(random, profile)
}

/// The same of a trace of at most forty events.
pub fn small(random: &mut Random) -> Vec<Vec<u8>> {
    let length = random.between(0, 40);
    let profile = profile(random, length);
    bodies(random, profile)
}

/// The same of a lawful trace of about this many events.
pub fn lawful(random: &mut Random, length: usize) -> Vec<Vec<u8>> {
    let profile = Profile { unlawful: 0, ..profile(random, length) };
    bodies(random, profile)
}
