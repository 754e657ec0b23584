//! Vector clocks: for each thread, how many of its events are ordered before something.

pub const THREADS: usize = 8;

#[derive(Clone, Copy, Debug, Default, PartialEq, Eq)]
pub struct Clock([u32; THREADS]);

impl Clock {
    /// Takes over everything that the other clock knows.
    pub fn join(&mut self, other: &Clock) {
        for (mine, theirs) in self.0.iter_mut().zip(other.0) {
            *mine = (*mine).max(theirs);
        }
    }

    /// Counts one more event of the thread, and answers its number among the thread's events.
    pub fn tick(&mut self, thread: usize) -> u32 {
        self.0[thread] += 1;
        self.0[thread]
    }

    /// Whether the thread's event of this number is known.
    pub fn knows(&self, thread: usize, number: u32) -> bool {
        self.0[thread] >= number
    }
}
