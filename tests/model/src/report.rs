//! What the program `boardcase` prints for a case text.

use crate::casetext::{self, BadText, Case, MOST_DO_LINES};
use crate::claimant::{Answer, Claimant, Refusal, MOST_CLAIMANTS};
use crate::table;

/// The parts that a report is made of, each as document 01 has it.
///
/// A test of the tests puts a faulty part in the place of one of them.
pub trait Parts {
    fn read(&mut self, text: &[u8], entries: &mut [u32; MOST_DO_LINES]) -> Result<Case, BadText> {
        casetext::read_over(text, entries)
    }

    fn open(&mut self, rows: &mut [Claimant], ceiling: u32) -> Result<(), Refusal> {
        table::open(rows, ceiling)
    }

    fn apply(&mut self, rows: &mut [Claimant], ceiling: u32, entry: u32) -> Answer {
        table::apply(rows, ceiling, entry)
    }

    fn line(&mut self, out: &mut Vec<u8>, at: usize, who: u32, record: &Claimant, answer: u8) {
        let mut line = Line::default();
        line.add(b"at=", at as u32);
        line.add(b" who=", who);
        line.add(b" place=", record.place.into());
        line.add(b" session=", record.session.into());
        line.add(b" raised=", record.choosing.into());
        line.add(b" token=", record.token);
        line.add(b" answer=", answer.into());
        line.end(out);
    }
}

/// Document 01 with no fault.
pub struct AsWritten;
impl Parts for AsWritten {}

/// What `boardcase` prints for `text`.
pub fn report(text: &[u8]) -> Vec<u8> {
    let mut out = Vec::new();
    report_onto(&mut out, text);
    out
}

/// As [`report`], after what `out` already holds.
pub fn report_onto(out: &mut Vec<u8>, text: &[u8]) {
    report_by(&mut AsWritten, out, text);
}

/// As [`report_onto`], with the given parts.
pub fn report_by(parts: &mut impl Parts, out: &mut Vec<u8>, text: &[u8]) {
    let mut entries = [0; MOST_DO_LINES];
    let case = match parts.read(text, &mut entries) {
        Ok(case) => case,
        Err(bad) => return refused(out, bad.refusal, bad.line),
    };
    let mut records = [Claimant::default(); MOST_CLAIMANTS];
    let rows = match records.get_mut(..case.claimants as usize) {
        Some(rows) => rows,
        None => return refused(out, Refusal::RowLength, 1),
    };
    if let Err(refusal) = parts.open(rows, case.ceiling) {
        // Opening meets refusal 1, of line 1, and 2, of line 2.
        return refused(out, refusal, refusal.number().into());
    }
    for (at, &entry) in entries[..case.entries].iter().enumerate() {
        let answer = parts.apply(rows, case.ceiling, entry);
        let who = entry / 65_536 % 256;
        let record = table::index(rows, who)
            .map(|at| rows[at])
            .unwrap_or_default();
        parts.line(out, at + 1, who, &record, answer.byte());
    }
    let mut line = Line::default();
    line.add(b"end=", case.entries as u32);
    line.end(out);
}

fn refused(out: &mut Vec<u8>, refusal: Refusal, line: usize) {
    let mut printed = Line::default();
    printed.add(b"refused=", refusal.number().into());
    printed.add(b" line=", line as u32);
    printed.end(out);
}

/// A line in the making; the longest has 46 bytes beside its seven numbers.
struct Line {
    bytes: [u8; 128],
    length: usize,
}

impl Default for Line {
    fn default() -> Line {
        Line {
            bytes: [0; 128],
            length: 0,
        }
    }
}

impl Line {
    /// A label and then a number in decimal.
    fn add<const L: usize>(&mut self, label: &[u8; L], number: u32) {
        self.bytes[self.length..][..L].copy_from_slice(label);
        self.length += L;
        if number < 10 {
            self.bytes[self.length] = b'0' + number as u8;
            self.length += 1;
            return;
        }
        let digits = number.ilog10() as usize + 1;
        let mut rest = number;
        for digit in self.bytes[self.length..][..digits].iter_mut().rev() {
            *digit = b'0' + (rest % 10) as u8;
            rest /= 10;
        }
        self.length += digits;
    }

    /// Ends the line and puts it after what `out` holds.
    fn end(mut self, out: &mut Vec<u8>) {
        self.bytes[self.length] = b'\n';
        out.extend_from_slice(&self.bytes[..=self.length]);
    }
}
