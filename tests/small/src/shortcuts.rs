//! Document 01's shortcuts that look harmless, each as a change of the model's
//! stepping rules.

use model::claimant::{conflict, place::*, Answer, Claimant, MOST_CLAIMANTS};
use model::report::Parts;
use model::table::{self, Call};

/// A shortcut; two of the five on document 01's list can be read in two ways,
/// and one has two halves.
#[derive(Clone, Copy, Debug, PartialEq, Eq)]
pub enum Shortcut {
    /// Passing at 9 because one's own session is already inside.
    JoinInside,
    /// Comparing tokens without numbers, passing at 8 if one's own is below.
    TokensBelow,
    /// Comparing tokens without numbers, passing at 8 if one's own is not above.
    TokensNotAbove,
    /// Lowering Choosing before the token is written: 4 lowers, 5 takes.
    LowerFirst,
    /// Scanning all rows in one step.
    ScanAtOnce,
    /// Testing both halves of a wait in one step: 6 with 7, and 8 with 9.
    WaitAtOnce,
    /// Remembering at 9 the session read at 7, if 7 was walked for this row;
    /// otherwise 9 reads.
    RememberRead,
    /// Remembering at 9 the session read at 7, which is 0, no claim, if 7 was
    /// not walked for this row.
    RememberZero,
}

impl Shortcut {
    pub const ALL: [Shortcut; 8] = [
        Shortcut::JoinInside,
        Shortcut::TokensBelow,
        Shortcut::TokensNotAbove,
        Shortcut::LowerFirst,
        Shortcut::ScanAtOnce,
        Shortcut::WaitAtOnce,
        Shortcut::RememberRead,
        Shortcut::RememberZero,
    ];

    pub fn name(self) -> &'static str {
        match self {
            Shortcut::JoinInside => "join-inside",
            Shortcut::TokensBelow => "tokens-below",
            Shortcut::TokensNotAbove => "tokens-not-above",
            Shortcut::LowerFirst => "lower-first",
            Shortcut::ScanAtOnce => "scan-at-once",
            Shortcut::WaitAtOnce => "wait-at-once",
            Shortcut::RememberRead => "remember-read",
            Shortcut::RememberZero => "remember-zero",
        }
    }
}

/// The session a claimant remembers from 7, for the row it looks at. Only the
/// two remembering shortcuts keep one.
pub type Memory = Option<u16>;

/// A lock with a shortcut, for a report of what it would have printed.
pub struct Taken {
    shortcut: Shortcut,
    memory: [Memory; MOST_CLAIMANTS],
}

impl Taken {
    pub fn new(shortcut: Shortcut) -> Taken {
        Taken {
            shortcut,
            memory: [None; MOST_CLAIMANTS],
        }
    }
}

impl Parts for Taken {
    fn open(&mut self, rows: &mut [Claimant], ceiling: u32) -> Result<(), model::Refusal> {
        self.memory = [None; MOST_CLAIMANTS];
        table::open(rows, ceiling)
    }

    fn apply(&mut self, rows: &mut [Claimant], ceiling: u32, entry: u32) -> Answer {
        match table::decode(entry) {
            Ok((who, call)) => perform(
                Some(self.shortcut),
                rows,
                &mut self.memory,
                ceiling,
                who,
                call,
            ),
            Err(refusal) => Answer::Refused(refusal),
        }
    }
}

/// A call under the right rules or under a shortcut; `memory` has a place for
/// each row.
pub fn perform(
    shortcut: Option<Shortcut>,
    rows: &mut [Claimant],
    memory: &mut [Memory],
    ceiling: u32,
    number: u32,
    call: Call,
) -> Answer {
    let (Some(shortcut), Call::Step, Some(at)) = (shortcut, call, table::index(rows, number))
    else {
        return table::perform(rows, ceiling, number, call);
    };
    match stepped_otherwise(shortcut, rows, memory, ceiling, at) {
        Some(answer) => answer,
        None => {
            let answer = table::perform(rows, ceiling, number, call);
            // A memory is for one row's wait and ends with it.
            if !(SEE_CHOOSING..=SEE_HOLDERS_SESSION).contains(&rows[at].place) {
                memory[at] = None;
            }
            answer
        }
    }
}

/// The step of the claimant at `at` where the shortcut has it another way.
fn stepped_otherwise(
    shortcut: Shortcut,
    rows: &mut [Claimant],
    memory: &mut [Memory],
    ceiling: u32,
    at: usize,
) -> Option<Answer> {
    let n = rows.len();
    let me = rows[at];
    let other = |row: u8| rows[row as usize - 1];
    let mut after = me;
    let answer = match (shortcut, me.place) {
        (Shortcut::JoinInside, SEE_HOLDERS_SESSION)
            if rows
                .iter()
                .any(|r| r.place == INSIDE && r.session == me.want) =>
        {
            after.pass(n)
        }
        (Shortcut::TokensBelow, SEE_TOKEN) => {
            let token = other(me.other).token;
            if token == 0 || me.token < token {
                after.pass(n)
            } else {
                reach(&mut after, SEE_HOLDERS_SESSION)
            }
        }
        (Shortcut::TokensNotAbove, SEE_TOKEN) => {
            let token = other(me.other).token;
            if token == 0 || me.token <= token {
                after.pass(n)
            } else {
                reach(&mut after, SEE_HOLDERS_SESSION)
            }
        }
        (Shortcut::LowerFirst, TAKE) if me.seen < ceiling => {
            after.choosing = 0;
            reach(&mut after, LOWER)
        }
        (Shortcut::LowerFirst, LOWER) => {
            after.token = me.seen + 1;
            after.seen = 0;
            after.other = 1;
            reach(&mut after, SEE_CHOOSING)
        }
        (Shortcut::ScanAtOnce, SCAN) => {
            after.seen = rows.iter().map(|r| r.token).max().unwrap_or(0);
            after.other = 0;
            reach(&mut after, TAKE)
        }
        (Shortcut::WaitAtOnce, SEE_CHOOSING) => {
            let row = other(me.other);
            let free = row.choosing == 0 || !conflict(me.want, row.session);
            reach(&mut after, if free { SEE_TOKEN } else { SEE_CHOOSING })
        }
        (Shortcut::WaitAtOnce, SEE_TOKEN) => {
            let row = other(me.other);
            let first = row.token == 0 || (me.token, at + 1) < (row.token, me.other.into());
            if first || !conflict(me.want, row.session) {
                after.pass(n)
            } else {
                reach(&mut after, SEE_TOKEN)
            }
        }
        (Shortcut::RememberRead | Shortcut::RememberZero, SEE_CHOOSERS_SESSION) => {
            memory[at] = Some(other(me.other).session);
            return None;
        }
        (Shortcut::RememberRead | Shortcut::RememberZero, SEE_TOKEN | SEE_HOLDERS_SESSION) => {
            return remembering(shortcut, rows, memory, ceiling, at);
        }
        _ => return None,
    };
    rows[at] = after;
    Some(answer)
}

/// Places 8 and 9 with a memory: 9 uses it, and a pass ends it.
fn remembering(
    shortcut: Shortcut,
    rows: &mut [Claimant],
    memory: &mut [Memory],
    ceiling: u32,
    at: usize,
) -> Option<Answer> {
    let me = rows[at];
    let row = rows[me.other as usize - 1];
    let value = match (me.place, shortcut, memory[at]) {
        (SEE_TOKEN, _, _) => row.token,
        (_, _, Some(remembered)) => remembered.into(),
        (_, Shortcut::RememberZero, None) => 0,
        (_, _, None) => row.session.into(),
    };
    let answer = rows[at].stepped(rows.len(), ceiling, at as u32 + 1, value);
    if rows[at].other != me.other {
        memory[at] = None;
    }
    Some(answer)
}

fn reach(record: &mut Claimant, place: u8) -> Answer {
    record.place = place;
    Answer::Reached(place)
}
