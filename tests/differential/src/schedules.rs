//! Case texts of lively schedules: claimants get inside, share it, wait, are
//! turned away and are refused.
//!
//! The generator walks the model beside the text that it writes, so that it
//! knows which call gets a claimant on.

use crate::random::Random;
use model::casetext::{MOST_BYTES, MOST_DO_LINES};
use model::claimant::{place::*, Claimant, MOST_CLAIMANTS};
use model::table::{self, Call};

/// A case text in the making.
pub struct Writer {
    pub text: Vec<u8>,
    pub do_lines: usize,
    rows: Vec<Claimant>,
    ceiling: u32,
}

impl Writer {
    pub fn new(claimants: u32, ceiling: u32) -> Writer {
        let text = format!("claimants={claimants}\nceiling={ceiling}\n").into_bytes();
        let n = (claimants as usize).min(MOST_CLAIMANTS);
        Writer {
            text,
            do_lines: 0,
            rows: vec![Claimant::default(); n],
            ceiling,
        }
    }

    /// Writes a do line and makes its call.
    pub fn line(&mut self, who: u32, call: Call) {
        match call {
            Call::Step => self.words(b"do=step ", who, None),
            Call::Leave => self.words(b"do=leave ", who, None),
            Call::Ask(session) => self.words(b"do=ask ", who, Some(session)),
        }
        self.do_lines += 1;
        table::perform(&mut self.rows, self.ceiling, who, call);
    }

    fn words(&mut self, start: &[u8], who: u32, session: Option<u16>) {
        self.text.extend_from_slice(start);
        decimal(&mut self.text, who);
        if let Some(session) = session {
            self.text.push(b' ');
            decimal(&mut self.text, session.into());
        }
        self.text.push(b'\n');
    }

    fn full(&self, lines: usize) -> bool {
        self.do_lines >= lines || self.text.len() + 17 > MOST_BYTES
    }

    fn record(&self, who: u32) -> Claimant {
        table::index(&self.rows, who)
            .map(|at| self.rows[at])
            .unwrap_or_default()
    }
}

fn decimal(text: &mut Vec<u8>, number: u32) {
    if number >= 10 {
        decimal(text, number / 10);
    }
    text.push(b'0' + (number % 10) as u8);
}

/// How many claimants: mostly few, so that they meet, and 64 now and then.
fn some_claimants(random: &mut Random) -> u32 {
    let claimants = match random.below(20) {
        0..=11 => random.between(1, 4),
        12..=16 => random.between(5, 16),
        17 | 18 => random.between(17, 64),
        _ => 64,
    };
    claimants as u32
}

fn some_ceiling(random: &mut Random) -> u32 {
    match random.below(10) {
        0..=5 => random.pick(&[1, 2, 3, u32::MAX]),
        6..=8 => random.between(1, 12) as u32,
        _ => random.next() as u32 | 1,
    }
}

fn some_sessions(random: &mut Random) -> Vec<u16> {
    let count = random.pick(&[1, 2, 2, 2, 3, 3, 5, 20]);
    (0..count)
        .map(|_| match random.below(4) {
            0 => random.between(1, 65_535) as u16,
            1 => random.pick(&[1, 255, 256, 65_534, 65_535]),
            _ => random.between(1, 9) as u16,
        })
        .collect()
}

/// A schedule for a table that can be opened, of at most so many lines.
pub fn lively(random: &mut Random, most_lines: usize) -> Writer {
    let claimants = some_claimants(random);
    let mut writer = Writer::new(claimants, some_ceiling(random));
    let lines = match random.below(10) {
        0..=8 => random.between(0, 40 + 10 * claimants as usize),
        _ => random.between(0, MOST_DO_LINES),
    };
    fill(random, &mut writer, lines.min(most_lines));
    writer
}

/// Writes do lines until there are `lines` of them, or no room.
pub fn fill(random: &mut Random, writer: &mut Writer, lines: usize) {
    let claimants = writer.rows.len().max(1);
    let sessions = some_sessions(random);
    // Few of many claimants act, so that they get inside in the lines there are.
    let acting = random.between(1, claimants.min(6));
    let actors: Vec<u32> = (0..acting)
        .map(|_| random.between(1, claimants) as u32)
        .collect();
    let noise = random.pick(&[8, 16, 64, 1_000]);
    let longest = random.pick(&[1, 3, 12, 6 * claimants + 12]);
    while !writer.full(lines) {
        if random.once_in(noise) {
            let (who, call) = noisy(random, claimants, &actors);
            writer.line(who, call);
        } else {
            let who = random.pick(&actors);
            let burst = random.between(1, longest);
            go_on(random, writer, who, &sessions, burst, lines);
        }
    }
}

/// A call that is likely to be refused.
fn noisy(random: &mut Random, claimants: usize, actors: &[u32]) -> (u32, Call) {
    let next = claimants as u32 + 1;
    let who = match random.below(6) {
        0 => random.pick(&[0, next, 64, 65, 128, 255]),
        1 => random.between(1, claimants) as u32,
        _ => random.pick(actors),
    };
    let session = random.pick(&[0, 0, 7, 65_535]);
    let call = random.pick(&[Call::Step, Call::Leave, Call::Ask(session)]);
    (who, call)
}

/// Lets a claimant go on for a while: it asks, steps, and leaves again, or
/// gives up its turn when it has long waited.
fn go_on(
    random: &mut Random,
    writer: &mut Writer,
    who: u32,
    sessions: &[u16],
    burst: usize,
    lines: usize,
) {
    let mut waited = 0;
    for _ in 0..burst {
        if writer.full(lines) || waited > 5 {
            return;
        }
        let before = writer.record(who);
        let call = match before.place {
            REST => Call::Ask(random.pick(sessions)),
            INSIDE if random.once_in(2) => return,
            INSIDE => Call::Leave,
            _ => Call::Step,
        };
        writer.line(who, call);
        let same_row = before.other == writer.record(who).other && before.place >= SEE_CHOOSING;
        waited = if same_row { waited + 1 } else { 0 };
    }
}
