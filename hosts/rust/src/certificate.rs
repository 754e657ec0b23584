//! The engine's run over a trace file, and the certificate's text.
use crate::monitor::{Answer, Monitor};
use crate::reader::{Reader, Refusal};
use std::fmt::Write;

const MOST_FINDINGS: usize = 1_000;

/// A declined event: its number in the file, the place and the witness's serial.
#[derive(Clone, Copy, Debug, PartialEq, Eq)]
pub struct Finding {
    pub event: usize,
    pub place: u32,
    pub witness: u32,
}

/// What a run comes to.
#[derive(Clone, Debug, Default, PartialEq, Eq)]
pub struct Run {
    pub accepted: u32,
    pub findings: Vec<Finding>,
    pub refusal: Option<Refusal>,
}

/// Offers the file's events in order, up to the first refusal.
fn offer_all(bytes: &[u8], monitor: &mut Monitor, findings: &mut Vec<Finding>) -> Result<(), Refusal> {
    let mut reader = Reader::open(bytes)?;
    while let Some((event, spot)) = reader.take()? {
        match monitor.offer(event) {
            Answer::Accepted => {}
            Answer::Refused(number) => return Err(Refusal { number, spot }),
            Answer::Declined { .. } if findings.len() == MOST_FINDINGS => return Err(Refusal { number: 11, spot }),
            Answer::Declined { place, witness } => findings.push(Finding { event: spot.event, place, witness }),
        }
    }
    Ok(())
}

pub fn run(bytes: &[u8]) -> Run {
    let mut monitor = Monitor::default();
    let mut findings = Vec::new();
    let refusal = offer_all(bytes, &mut monitor, &mut findings).err();
    Run { accepted: monitor.accepted(), findings, refusal }
}

fn last_line(run: &Run, text: &mut String) -> std::fmt::Result {
    match run.refusal {
        Some(Refusal { number, spot }) => {
            writeln!(text, "refused {number} section {} event {} byte {}", spot.section, spot.event, spot.byte)
        }
        None if run.findings.is_empty() => writeln!(text, "clean"),
        None => writeln!(text, "not clean"),
    }
}

fn write_lines(run: &Run, text: &mut String) -> std::fmt::Result {
    writeln!(text, "accepted {} declined {}", run.accepted, run.findings.len())?;
    for finding in &run.findings {
        writeln!(text, "event {} place {} witness {}", finding.event, finding.place, finding.witness)?;
    }
    last_line(run, text)
}

/// The certificate of a run.
pub fn text(run: &Run) -> String {
    let mut text = String::new();
    write_lines(run, &mut text).expect("a string takes any text");
    text
}
