//! The engine's monitor: judges offered events by vector clocks and a history of accesses for each place.
use crate::clock::{Clock, THREADS};
use crate::event::{Event, Step};

const PLACES: usize = 64;
const LOCKS: usize = 32;
const FLAGS: usize = 32;
const OBJECTS: usize = 16;
const MOST_EVENTS: u32 = 1_000_000;

#[derive(Clone, Copy, Debug, PartialEq, Eq)]
pub enum Answer {
    Accepted,
    Refused(u32),
    Declined { place: u32, witness: u32 },
}

#[derive(Clone, Copy, PartialEq, Eq)]
enum State {
    Unstarted,
    Running,
    Ended,
}

/// An accepted access: its serial, and its thread's number for the event.
#[derive(Clone, Copy)]
struct Access {
    serial: u32,
    thread: u8,
    number: u32,
}

/// The accesses of a place's life that can still matter: its latest write, and each thread's latest read after that.
/// An accepted write has all earlier accesses ordered before it, so that they need no place here any more.
#[derive(Clone, Copy, Default)]
struct History {
    write: Option<Access>,
    reads: [Option<Access>; THREADS],
}

fn unordered(access: &Option<Access>, clock: &Clock) -> Option<u32> {
    let access = access.as_ref()?;
    (!clock.knows(access.thread as usize, access.number)).then_some(access.serial)
}

impl History {
    fn witness(&self, writes: bool, clock: &Clock) -> Option<u32> {
        let found = unordered(&self.write, clock);
        if found.is_some() || !writes {
            return found;
        }
        self.reads.iter().find_map(|read| unordered(read, clock))
    }

    fn read(&mut self, access: Access) {
        self.reads[access.thread as usize] = Some(access);
    }

    fn write(&mut self, access: Access) {
        *self = History { write: Some(access), reads: [None; THREADS] };
    }
}

/// The places of a set, lowest first.
fn members(mut set: u64) -> impl Iterator<Item = usize> {
    std::iter::from_fn(move || {
        let place = (set != 0).then(|| set.trailing_zeros() as usize)?;
        set &= set - 1;
        Some(place)
    })
}

/// The places that a step reads and those that it writes, with none in both.
fn accesses(step: Step) -> (u64, u64) {
    match step {
        Step::Read(place) => (1 << place, 0),
        Step::Write(place) => (0, 1 << place),
        Step::Commit { reads, writes } => (reads & !writes, writes),
        _ => (0, 0),
    }
}

pub struct Monitor {
    accepted: u32,
    states: [State; THREADS],
    holders: [Option<u8>; LOCKS],
    threads: [Clock; THREADS],
    locks: [Clock; LOCKS],
    flags: [Clock; FLAGS],
    commits: [Clock; PLACES],
    histories: [History; PLACES],
}

impl Default for Monitor {
    fn default() -> Self {
        let mut states = [State::Unstarted; THREADS];
        states[0] = State::Running;
        Monitor {
            accepted: 0,
            states,
            holders: [None; LOCKS],
            threads: Default::default(),
            locks: Default::default(),
            flags: Default::default(),
            commits: [Clock::default(); PLACES],
            histories: [History::default(); PLACES],
        }
    }
}

fn out_of_threads(event: Event) -> bool {
    let other = match event.step {
        Step::Fork(other) | Step::Join(other) => other,
        _ => 0,
    };
    event.thread as usize >= THREADS || other as usize >= THREADS
}

fn out_of_operands(step: Step) -> bool {
    match step {
        Step::Read(place) | Step::Write(place) => place as usize >= PLACES,
        Step::Acquire(lock) | Step::Release(lock) => lock as usize >= LOCKS,
        Step::ReadFlag(flag) | Step::WriteFlag(flag) => flag as usize >= FLAGS,
        Step::Allocate(object) => object as usize >= OBJECTS,
        Step::Fork(_) | Step::Join(_) | Step::Commit { .. } => false,
    }
}

impl Monitor {
    pub fn accepted(&self) -> u32 {
        self.accepted
    }

    pub fn offer(&mut self, event: Event) -> Answer {
        if let Some(number) = self.refusal(event) {
            return Answer::Refused(number);
        }
        let clock = self.clock_at(event);
        if let Some((place, witness)) = self.race(event.step, &clock) {
            return Answer::Declined { place, witness };
        }
        self.accept(event, clock);
        Answer::Accepted
    }

    fn refusal(&self, event: Event) -> Option<u32> {
        if out_of_threads(event) {
            return Some(1);
        }
        if out_of_operands(event.step) {
            return Some(2);
        }
        if self.states[event.thread as usize] != State::Running {
            return Some(3);
        }
        self.misuse(event).or((self.accepted >= MOST_EVENTS).then_some(9))
    }

    /// Refusals 4 to 8.
    fn misuse(&self, event: Event) -> Option<u32> {
        match event.step {
            Step::Fork(other) => (self.states[other as usize] != State::Unstarted).then_some(4),
            Step::Join(other) => self.join_misuse(event.thread, other),
            Step::Acquire(lock) => self.holders[lock as usize].is_some().then_some(6),
            Step::Release(lock) => (self.holders[lock as usize] != Some(event.thread)).then_some(7),
            _ => None,
        }
    }

    fn join_misuse(&self, thread: u8, other: u8) -> Option<u32> {
        if thread == other || self.states[other as usize] == State::Unstarted {
            return Some(5);
        }
        self.holders.contains(&Some(other)).then_some(8)
    }

    /// What is ordered before the event if it stands at the record's end.
    fn clock_at(&self, event: Event) -> Clock {
        let mut clock = self.threads[event.thread as usize];
        match event.step {
            Step::Acquire(lock) => clock.join(&self.locks[lock as usize]),
            Step::ReadFlag(flag) => clock.join(&self.flags[flag as usize]),
            Step::Join(other) => clock.join(&self.threads[other as usize]),
            Step::Commit { reads, writes } => {
                members(reads | writes).for_each(|place| clock.join(&self.commits[place]))
            }
            _ => {}
        }
        clock
    }

    fn race(&self, step: Step, clock: &Clock) -> Option<(u32, u32)> {
        let (reads, writes) = accesses(step);
        members(reads | writes).find_map(|place| {
            let witness = self.histories[place].witness(writes >> place & 1 == 1, clock)?;
            Some((place as u32, witness))
        })
    }

    fn accept(&mut self, event: Event, mut clock: Clock) {
        self.accepted += 1;
        let number = clock.tick(event.thread as usize);
        self.threads[event.thread as usize] = clock;
        let access = Access { serial: self.accepted, thread: event.thread, number };
        let (reads, writes) = accesses(event.step);
        members(reads).for_each(|place| self.histories[place].read(access));
        members(writes).for_each(|place| self.histories[place].write(access));
        self.hand_on(event, &clock);
    }

    /// What an accepted event changes besides the histories of the places it accesses.
    fn hand_on(&mut self, event: Event, clock: &Clock) {
        match event.step {
            Step::Acquire(lock) => self.holders[lock as usize] = Some(event.thread),
            Step::Release(lock) => {
                self.holders[lock as usize] = None;
                self.locks[lock as usize].join(clock);
            }
            Step::WriteFlag(flag) => self.flags[flag as usize].join(clock),
            Step::Fork(other) => {
                self.states[other as usize] = State::Running;
                self.threads[other as usize].join(clock);
            }
            Step::Join(other) => self.states[other as usize] = State::Ended,
            Step::Allocate(object) => self.begin_lives(object as usize),
            Step::Commit { reads, writes } => members(reads | writes).for_each(|place| self.commits[place].join(clock)),
            Step::Read(_) | Step::Write(_) | Step::ReadFlag(_) => {}
        }
    }

    fn begin_lives(&mut self, object: usize) {
        self.histories[4 * object..4 * object + 4].fill(History::default());
    }
}
