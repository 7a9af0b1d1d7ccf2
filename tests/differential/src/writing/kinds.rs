//! What writing has met: kinds of draft, of row and of refusal. A run that
//! never met one of them has compared less than it says.

use super::drafts::{barred, fields, text_length};
use super::sides::{Draft, Writing};
use crate::coverage::Counts;
use model::casetext::{MOST_BYTES, MOST_DO_LINES};

/// All that a run must meet.
const KINDS: &[&str] = &[
    "written, the row of just its length",
    "written, the row a byte longer",
    "written, the row longer still",
    "written, with no entry",
    "written, with 2048 entries",
    "written, of 32768 bytes",
    "written, for 0 claimants",
    "written, for 64 claimants",
    "written, for 65 claimants",
    "written, for 4294967295 claimants",
    "written, for ceiling 0",
    "written, for ceiling 4294967295",
    "line of a step",
    "line of an ask",
    "line of an ask, session 0",
    "line of an ask, session 65535",
    "line of a leave",
    "line of claimant 0",
    "line of claimant 255",
    "refused 9, a kind over 2",
    "refused 9, a step with a session",
    "refused 9, a leave with a session",
    "refused 9, the first entry",
    "refused 9, the last entry",
    "refused 9, past 2048 entries alone",
    "refused 9, the text too long too",
    "refused 9, a row of no byte",
    "refused 13, with 2049 entries",
    "refused 13, with more",
    "refused 13, the text too long too",
    "refused 13, a row of no byte",
    "refused 11, of 32769 bytes",
    "refused 11, of more, the row long enough",
    "refused 11, a row of no byte",
    "refused 11, a row a byte short",
    "refused 11, a row shorter still",
];

pub struct Kinds {
    counts: Counts,
}

impl Kinds {
    pub fn new() -> Kinds {
        Kinds {
            counts: Counts::new(KINDS),
        }
    }

    /// Counts what a draft meets, which both sides answer so.
    pub fn note(&mut self, draft: &Draft, answer: Writing) {
        let needed = text_length(draft.claimants, draft.ceiling, &draft.schedule);
        match answer {
            Ok(length) => self.note_written(draft, length),
            Err(9) => self.note_barred(draft, needed),
            Err(13) => self.note_too_many(draft, needed),
            Err(_) => self.note_too_long(draft, needed),
        }
    }

    fn met_if(&mut self, holds: bool, kind: &'static str) {
        if holds {
            self.counts.met(kind);
        }
    }

    fn note_written(&mut self, draft: &Draft, length: usize) {
        self.counts.met(match draft.room - length {
            0 => "written, the row of just its length",
            1 => "written, the row a byte longer",
            _ => "written, the row longer still",
        });
        let entries = draft.schedule.len();
        self.met_if(entries == 0, "written, with no entry");
        self.met_if(entries == MOST_DO_LINES, "written, with 2048 entries");
        self.met_if(length == MOST_BYTES, "written, of 32768 bytes");
        match draft.claimants {
            0 => self.counts.met("written, for 0 claimants"),
            64 => self.counts.met("written, for 64 claimants"),
            65 => self.counts.met("written, for 65 claimants"),
            u32::MAX => self.counts.met("written, for 4294967295 claimants"),
            _ => {}
        }
        self.met_if(draft.ceiling == 0, "written, for ceiling 0");
        self.met_if(draft.ceiling == u32::MAX, "written, for ceiling 4294967295");
        for &entry in &draft.schedule {
            self.note_line(entry);
        }
    }

    fn note_line(&mut self, entry: u32) {
        let (kind, claimant, session) = fields(entry);
        self.counts.met(match (kind, session) {
            (0, _) => "line of a step",
            (1, 0) => "line of an ask, session 0",
            (1, 65_535) => "line of an ask, session 65535",
            (1, _) => "line of an ask",
            _ => "line of a leave",
        });
        self.met_if(claimant == 0, "line of claimant 0");
        self.met_if(claimant == 255, "line of claimant 255");
    }

    fn note_barred(&mut self, draft: &Draft, needed: usize) {
        let schedule = &draft.schedule;
        let first = schedule.iter().position(|&entry| barred(entry));
        let first = first.expect("refusal 9 is for a barred entry");
        self.counts.met(match fields(schedule[first]) {
            (0, ..) => "refused 9, a step with a session",
            (2, ..) => "refused 9, a leave with a session",
            _ => "refused 9, a kind over 2",
        });
        self.met_if(first == 0, "refused 9, the first entry");
        self.met_if(first + 1 == schedule.len(), "refused 9, the last entry");
        let past = first >= MOST_DO_LINES;
        self.met_if(past, "refused 9, past 2048 entries alone");
        self.met_if(needed > MOST_BYTES, "refused 9, the text too long too");
        self.met_if(draft.room == 0, "refused 9, a row of no byte");
    }

    fn note_too_many(&mut self, draft: &Draft, needed: usize) {
        let one = draft.schedule.len() == MOST_DO_LINES + 1;
        self.met_if(one, "refused 13, with 2049 entries");
        self.met_if(!one, "refused 13, with more");
        self.met_if(needed > MOST_BYTES, "refused 13, the text too long too");
        self.met_if(draft.room == 0, "refused 13, a row of no byte");
    }

    fn note_too_long(&mut self, draft: &Draft, needed: usize) {
        let long_enough = draft.room >= needed;
        self.met_if(needed == MOST_BYTES + 1, "refused 11, of 32769 bytes");
        self.met_if(long_enough, "refused 11, of more, the row long enough");
        if needed <= MOST_BYTES {
            self.counts.met(match draft.room {
                0 => "refused 11, a row of no byte",
                room if room + 1 == needed => "refused 11, a row a byte short",
                _ => "refused 11, a row shorter still",
            });
        }
    }

    /// Prints the counts; whether all kinds were met.
    pub fn print(&self) -> bool {
        self.counts.print()
    }
}
