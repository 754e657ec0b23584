//! Events, and how events and sections become the bytes of a trace file.

/// What an event does. Operands are as recorded, in range or not.
#[derive(Clone, Copy, Debug, PartialEq, Eq)]
pub enum Step {
    Read(u8),
    Write(u8),
    Acquire(u8),
    Release(u8),
    ReadFlag(u8),
    WriteFlag(u8),
    Fork(u8),
    Join(u8),
    Allocate(u8),
    Commit { reads: u64, writes: u64 },
}

/// A step of one thread.
#[derive(Clone, Copy, Debug, PartialEq, Eq)]
pub struct Event {
    pub thread: u8,
    pub step: Step,
}

impl Step {
    /// The kind byte, and the operand of a step that has a single one.
    fn parts(self) -> (u8, Option<u8>) {
        match self {
            Step::Read(x) => (0, Some(x)),
            Step::Write(x) => (1, Some(x)),
            Step::Acquire(x) => (2, Some(x)),
            Step::Release(x) => (3, Some(x)),
            Step::ReadFlag(x) => (4, Some(x)),
            Step::WriteFlag(x) => (5, Some(x)),
            Step::Fork(x) => (6, Some(x)),
            Step::Join(x) => (7, Some(x)),
            Step::Allocate(x) => (8, Some(x)),
            Step::Commit { .. } => (9, None),
        }
    }
}

impl Event {
    /// Adds the event's bytes to a body.
    pub fn write(self, body: &mut Vec<u8>) {
        let (kind, operand) = self.step.parts();
        body.extend([kind, self.thread]);
        body.extend(operand);
        if let Step::Commit { reads, writes } = self.step {
            body.extend(reads.to_le_bytes());
            body.extend(writes.to_le_bytes());
        }
    }
}

/// The body that holds these events.
pub fn body(events: &[Event]) -> Vec<u8> {
    let mut bytes = Vec::new();
    events.iter().for_each(|event| event.write(&mut bytes));
    bytes
}

/// The file that holds these bodies.
pub fn file(bodies: &[Vec<u8>]) -> Vec<u8> {
    let mut bytes = Vec::new();
    bytes.extend(1u16.to_le_bytes());
    bytes.extend((bodies.len() as u16).to_le_bytes());
    let mut begin = 4 + 8 * bodies.len() as u32;
    for body in bodies {
        bytes.extend(begin.to_le_bytes());
        bytes.extend((body.len() as u32).to_le_bytes());
        begin += body.len() as u32;
    }
    bodies.iter().for_each(|body| bytes.extend(body));
    bytes
}
