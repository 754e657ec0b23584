//! The engine's reader of trace files: checks header and contents, then takes one event after another.
use crate::event::{Event, Step};

const LIMIT: usize = 65_536;
const SECTIONS: usize = 256;

/// Where something stands in the file.
#[derive(Clone, Copy, Debug, Default, PartialEq, Eq)]
pub struct Spot {
    pub section: usize,
    pub event: usize,
    pub byte: usize,
}

/// A refusal's number and where it applies.
#[derive(Clone, Copy, Debug, PartialEq, Eq)]
pub struct Refusal {
    pub number: u32,
    pub spot: Spot,
}

fn before_events(number: u32, byte: usize) -> Refusal {
    Refusal { number, spot: Spot { section: 0, event: 0, byte } }
}

/// A file whose header and contents are in order, read up to some event.
pub struct Reader<'a> {
    bytes: &'a [u8],
    sections: usize,
    /// The section being read, its body's end, the events taken, and the next byte.
    section: usize,
    end: usize,
    taken: usize,
    next: usize,
}

fn half(bytes: &[u8], at: usize) -> usize {
    u16::from_le_bytes([bytes[at], bytes[at + 1]]) as usize
}

fn word(bytes: &[u8], at: usize) -> usize {
    u32::from_le_bytes(bytes[at..at + 4].try_into().unwrap()) as usize
}

fn set(bytes: &[u8], at: usize) -> u64 {
    u64::from_le_bytes(bytes[at..at + 8].try_into().unwrap())
}

/// Checks the header, and answers the number of sections.
fn header(bytes: &[u8]) -> Result<usize, Refusal> {
    if bytes.len() > LIMIT {
        return Err(before_events(12, LIMIT));
    }
    if bytes.len() < 4 {
        return Err(before_events(13, bytes.len()));
    }
    if half(bytes, 0) != 1 {
        return Err(before_events(14, 0));
    }
    let sections = half(bytes, 2);
    if sections > SECTIONS {
        return Err(before_events(15, 2));
    }
    Ok(sections)
}

/// Checks the contents, entry by entry.
fn contents(bytes: &[u8], sections: usize) -> Result<(), Refusal> {
    let mut end = 4 + 8 * sections;
    if bytes.len() < end {
        return Err(before_events(13, bytes.len()));
    }
    for entry in (4..4 + 8 * sections).step_by(8) {
        let (begin, length) = (word(bytes, entry), word(bytes, entry + 4));
        if begin != end || length > bytes.len() - end {
            return Err(before_events(15, entry));
        }
        end += length;
    }
    if end < bytes.len() {
        return Err(before_events(15, end));
    }
    Ok(())
}

fn single(kind: u8, operand: u8) -> Option<Step> {
    Some(match kind {
        0 => Step::Read(operand),
        1 => Step::Write(operand),
        2 => Step::Acquire(operand),
        3 => Step::Release(operand),
        4 => Step::ReadFlag(operand),
        5 => Step::WriteFlag(operand),
        6 => Step::Fork(operand),
        7 => Step::Join(operand),
        8 => Step::Allocate(operand),
        _ => return None,
    })
}

impl<'a> Reader<'a> {
    pub fn open(bytes: &'a [u8]) -> Result<Self, Refusal> {
        let sections = header(bytes)?;
        contents(bytes, sections)?;
        let next = 4 + 8 * sections;
        Ok(Reader { bytes, sections, section: 0, end: next, taken: 0, next })
    }

    /// Moves to the section that holds the next byte; false at the file's end.
    fn advance(&mut self) -> bool {
        while self.next == self.end {
            if self.section == self.sections {
                return false;
            }
            self.end += word(self.bytes, 4 + 8 * self.section + 4);
            self.section += 1;
        }
        true
    }

    /// The next event and where it stands; none at the file's end.
    pub fn take(&mut self) -> Result<Option<(Event, Spot)>, Refusal> {
        if !self.advance() {
            return Ok(None);
        }
        let spot = Spot { section: self.section, event: self.taken + 1, byte: self.next };
        let kind = self.bytes[self.next];
        if kind > 9 {
            return Err(Refusal { number: 16, spot });
        }
        let length = if kind == 9 { 18 } else { 3 };
        if length > self.end - self.next {
            return Err(Refusal { number: 17, spot });
        }
        let event = self.decode(kind);
        self.next += length;
        self.taken += 1;
        Ok(Some((event, spot)))
    }

    fn decode(&self, kind: u8) -> Event {
        let thread = self.bytes[self.next + 1];
        let step = single(kind, self.bytes[self.next + 2]).unwrap_or_else(|| Step::Commit {
            reads: set(self.bytes, self.next + 2),
            writes: set(self.bytes, self.next + 10),
        });
        Event { thread, step }
    }
}
