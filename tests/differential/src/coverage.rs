//! What has been met: kinds of text, of row, of answer, of step and of meeting.
//! A run that never met one of them has compared less than it says.

use model::casetext::{self, BadText, Case, MOST_BYTES, MOST_DO_LINES};
use model::claimant::{conflict, place::*, Answer, Claimant, MOST_CLAIMANTS};
use model::table::{self, Call};
use std::collections::BTreeMap;

/// All that a run must meet.
const KINDS: &[&str] = &[
    "text refused 11",
    "text refused 12 at line 1",
    "text refused 12 at line 2",
    "text refused 12 at a do line",
    "text refused 12 past 2048 do lines",
    "text refused 12 for bytes after the last LF",
    "text refused 13",
    "text good, of 32768 bytes",
    "text good, with no do line",
    "text good, with 2048 do lines",
    "row for entries, of 2048",
    "row for entries, longer",
    "row for entries, of 2047",
    "row for entries, shorter",
    "row for entries, too short for a text too long",
    "opening refused 1, of 0 claimants",
    "opening refused 1, of 65 claimants",
    "opening refused 1, of more",
    "opening refused 2",
    "claimants 1",
    "claimants 2",
    "claimants 3 to 63",
    "claimants 64",
    "ceiling 1",
    "ceiling 2",
    "ceiling 3",
    "ceiling 4294967295",
    "ceiling another",
    "ask taken",
    "ask refused 4",
    "ask refused 5, at rest",
    "ask refused 5, not at rest",
    "ask refused 6",
    "leave taken",
    "leave refused 4",
    "leave refused 7, at rest",
    "leave refused 7, waiting",
    "step refused 4, claimant 0",
    "step refused 4, claimant N + 1",
    "step refused 8, at rest",
    "step refused 8, inside",
    "step 1 to 2",
    "step 2 to 3",
    "step 3 to the next row",
    "step 3 to 4",
    "step 4 to 5",
    "step 4 turned away",
    "step 5 to 6",
    "step 6 to 7",
    "step 6 to 8",
    "step 7 to 6, a conflict",
    "step 7 to 8, no claim",
    "step 7 to 8, the same session",
    "step 8 passes, no token",
    "step 8 passes, a lower token",
    "step 8 passes, a lower number",
    "step 8 to 9, a higher token",
    "step 8 to 9, a higher number",
    "step 8 to 9, the own row",
    "step 9 to 8, a conflict",
    "step 9 passes, the own row",
    "step 9 passes, the same session",
    "step 9 passes, no claim",
    "step to inside",
    "step 11 to 12",
    "step 12 to rest",
    "inside together under one session",
    "kept out by a conflicting claimant inside",
    "overtaken while waiting",
    "conflicting claimants with equal tokens",
];

/// How often each of some kinds was met.
pub struct Counts {
    kinds: &'static [&'static str],
    counts: BTreeMap<&'static str, u64>,
}

impl Counts {
    pub fn new(kinds: &'static [&'static str]) -> Counts {
        Counts {
            kinds,
            counts: BTreeMap::new(),
        }
    }

    pub fn met(&mut self, kind: &'static str) {
        debug_assert!(self.kinds.contains(&kind), "{kind}");
        *self.counts.entry(kind).or_default() += 1;
    }

    /// Prints the counts; whether all kinds were met.
    pub fn print(&self) -> bool {
        let mut all = true;
        for &kind in self.kinds {
            let count = self.counts.get(kind).copied().unwrap_or(0);
            let note = if count == 0 { "   NEVER MET" } else { "" };
            println!("  {count:>10}  {kind}{note}");
            all &= count > 0;
        }
        all
    }
}

pub struct Coverage {
    counts: Counts,
}

impl Coverage {
    pub fn new() -> Coverage {
        Coverage {
            counts: Counts::new(KINDS),
        }
    }

    fn met(&mut self, kind: &'static str) {
        self.counts.met(kind);
    }

    /// Counts the rows that the readers are lent for a text: one that is long
    /// enough, and perhaps one that is not.
    pub fn note_rooms(&mut self, text: &[u8], (room, short): (usize, Option<usize>)) {
        self.met(match room {
            MOST_DO_LINES => "row for entries, of 2048",
            _ => "row for entries, longer",
        });
        if let Some(short) = short {
            self.met(match short + 1 {
                MOST_DO_LINES => "row for entries, of 2047",
                _ => "row for entries, shorter",
            });
            if text.len() > MOST_BYTES {
                self.met("row for entries, too short for a text too long");
            }
        }
    }

    /// Counts what a text meets.
    pub fn note(&mut self, text: &[u8]) {
        let mut entries = [0; MOST_DO_LINES];
        match casetext::read_over(text, &mut entries) {
            Err(bad) => self.note_bad(text, bad),
            Ok(case) => {
                if text.len() == MOST_BYTES {
                    self.met("text good, of 32768 bytes");
                }
                match case.entries {
                    0 => self.met("text good, with no do line"),
                    MOST_DO_LINES => self.met("text good, with 2048 do lines"),
                    _ => {}
                }
                self.note_case(case, &entries[..case.entries]);
            }
        }
    }

    fn note_bad(&mut self, text: &[u8], bad: BadText) {
        let last_line = 1 + text.iter().filter(|&&byte| byte == b'\n').count();
        if bad.refusal.number() == 12 && bad.line == last_line && text.last() != Some(&b'\n') {
            self.met("text refused 12 for bytes after the last LF");
        }
        self.met(match (bad.refusal.number(), bad.line) {
            (11, _) => "text refused 11",
            (13, _) => "text refused 13",
            (_, 1) => "text refused 12 at line 1",
            (_, 2) => "text refused 12 at line 2",
            (_, line) if line > MOST_DO_LINES + 2 => "text refused 12 past 2048 do lines",
            _ => "text refused 12 at a do line",
        });
    }

    fn note_case(&mut self, case: Case, entries: &[u32]) {
        match case.claimants {
            0 => return self.met("opening refused 1, of 0 claimants"),
            65 => return self.met("opening refused 1, of 65 claimants"),
            66.. => return self.met("opening refused 1, of more"),
            _ if case.ceiling == 0 => return self.met("opening refused 2"),
            1 => self.met("claimants 1"),
            2 => self.met("claimants 2"),
            64 => self.met("claimants 64"),
            _ => self.met("claimants 3 to 63"),
        }
        self.met(match case.ceiling {
            1 => "ceiling 1",
            2 => "ceiling 2",
            3 => "ceiling 3",
            u32::MAX => "ceiling 4294967295",
            _ => "ceiling another",
        });
        let mut records = [Claimant::default(); MOST_CLAIMANTS];
        let rows = &mut records[..case.claimants as usize];
        for &entry in entries {
            let (who, call) = table::decode(entry).expect("the reader makes good entries");
            let at = table::index(rows, who);
            let before = at.map(|at| rows[at]).unwrap_or_default();
            let looked_at = table::index(rows, before.other.into()).map(|at| rows[at]);
            let answer = table::perform(rows, case.ceiling, who, call);
            self.note_call(rows.len(), who, call, before, looked_at, answer);
            if let (Some(at), Answer::Reached(_)) = (at, answer) {
                self.note_meetings(rows, at);
            }
        }
    }

    fn note_call(
        &mut self,
        n: usize,
        who: u32,
        call: Call,
        me: Claimant,
        looked_at: Option<Claimant>,
        answer: Answer,
    ) {
        let at_rest = me.place == REST;
        self.met(match (call, answer.byte()) {
            (Call::Ask(_), 1) => "ask taken",
            (Call::Ask(_), 36) => "ask refused 4",
            (Call::Ask(_), 37) if at_rest => "ask refused 5, at rest",
            (Call::Ask(_), 37) => "ask refused 5, not at rest",
            (Call::Ask(_), _) => "ask refused 6",
            (Call::Leave, 11) => "leave taken",
            (Call::Leave, 36) => "leave refused 4",
            (Call::Leave, _) if at_rest => "leave refused 7, at rest",
            (Call::Leave, _) if (6..=9).contains(&me.place) => "leave refused 7, waiting",
            (Call::Leave, _) => return,
            (Call::Step, 36) if who == 0 => "step refused 4, claimant 0",
            (Call::Step, 36) if who as usize == n + 1 => "step refused 4, claimant N + 1",
            (Call::Step, 36) => return,
            (Call::Step, 40) if at_rest => "step refused 8, at rest",
            (Call::Step, 40) => "step refused 8, inside",
            (Call::Step, answer) => step_kind(who, me, looked_at.unwrap_or_default(), answer),
        });
        if call == Call::Step && answer == Answer::Reached(INSIDE) {
            self.met("step to inside");
        }
    }

    /// What the claimant at `me` meets in the table where it now stands.
    fn note_meetings(&mut self, rows: &[Claimant], me: usize) {
        let mine = rows[me];
        let waits = |row: &Claimant| (6..=9).contains(&row.place);
        for row in rows
            .iter()
            .enumerate()
            .filter(|(at, _)| *at != me)
            .map(|(_, row)| row)
        {
            let at_odds = conflict(mine.session, row.session);
            if mine.place == INSIDE && row.place == INSIDE && !at_odds {
                self.met("inside together under one session");
            }
            if waits(&mine) && row.place == INSIDE && at_odds {
                self.met("kept out by a conflicting claimant inside");
            }
            if mine.place == INSIDE && waits(row) && at_odds {
                self.met("overtaken while waiting");
            }
            if at_odds && mine.token != 0 && mine.token == row.token {
                self.met("conflicting claimants with equal tokens");
            }
        }
    }

    /// Prints the counts; whether all kinds were met.
    pub fn print(&self) -> bool {
        self.counts.print()
    }
}

/// The kind of a step that was taken, by what it read.
fn step_kind(who: u32, me: Claimant, row: Claimant, answer: u8) -> &'static str {
    let own_row = u32::from(me.other) == who;
    match (me.place, answer) {
        (1, _) => "step 1 to 2",
        (2, _) => "step 2 to 3",
        (3, 3) => "step 3 to the next row",
        (3, _) => "step 3 to 4",
        (4, 31) => "step 4 turned away",
        (4, _) => "step 4 to 5",
        (5, _) => "step 5 to 6",
        (6, 7) => "step 6 to 7",
        (6, _) => "step 6 to 8",
        (7, 6) => "step 7 to 6, a conflict",
        (7, _) if row.session == 0 => "step 7 to 8, no claim",
        (7, _) => "step 7 to 8, the same session",
        (8, 9) if own_row => "step 8 to 9, the own row",
        (8, 9) if row.token == me.token => "step 8 to 9, a higher number",
        (8, 9) => "step 8 to 9, a higher token",
        (8, _) if row.token == 0 => "step 8 passes, no token",
        (8, _) if row.token == me.token => "step 8 passes, a lower number",
        (8, _) => "step 8 passes, a lower token",
        (9, 8) => "step 9 to 8, a conflict",
        (9, _) if own_row => "step 9 passes, the own row",
        (9, _) if row.session == 0 => "step 9 passes, no claim",
        (9, _) => "step 9 passes, the same session",
        (11, _) => "step 11 to 12",
        _ => "step 12 to rest",
    }
}
