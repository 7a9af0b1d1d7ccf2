//! A table with the little history that the promises speak of, packed into one
//! number.

use crate::shortcuts::{perform, Memory, Shortcut};
use model::claimant::{conflict, place::*, Answer, Claimant};
use model::table::Call;

/// The most claimants searched.
pub const MOST: usize = 3;

/// What is searched: all tables reached with so many claimants, sessions 1 to
/// `sessions`, under this ceiling and these rules.
#[derive(Clone, Copy, Debug, PartialEq, Eq)]
pub struct Space {
    pub claimants: usize,
    pub sessions: u16,
    pub ceiling: u32,
    pub shortcut: Option<Shortcut>,
}

/// What a call broke, if a promise fell with it.
#[derive(Clone, Copy, Debug, PartialEq, Eq)]
pub enum Break {
    /// Two claimants of conflicting sessions are inside together.
    BothInside,
    /// A waiting claimant was overtaken by a conflicting claim whose doorway
    /// began after its own had ended.
    OvertakenByLater,
    /// A waiting claimant was overtaken a second time by the same conflicting
    /// claimant.
    OvertakenTwice,
}

/// A table and its history.
///
/// A claimant waits from the end of its doorway until it is inside, at places
/// 6 to 9. It is overtaken when a claimant of a conflicting session gets inside
/// meanwhile.
#[derive(Clone, Copy, Debug, PartialEq, Eq)]
pub struct State {
    pub rows: [Claimant; MOST],
    pub memory: [Memory; MOST],
    /// Of p and q: q's claim began its doorway before p's doorway ended. Kept
    /// only while p waits and q is on its way inside under a conflicting
    /// session, for nothing else is ever asked of it.
    early: Pairs,
    /// Of p and q: q has overtaken p since p's doorway ended.
    overtaken: Pairs,
}

/// A set of pairs of claimants, a bit for each.
#[derive(Clone, Copy, Debug, PartialEq, Eq)]
struct Pairs(u64);

impl Pairs {
    const BITS: usize = MOST * MOST;

    fn bit(p: usize, q: usize) -> u64 {
        1 << (p * MOST + q)
    }

    fn has(self, p: usize, q: usize) -> bool {
        self.0 & Pairs::bit(p, q) != 0
    }

    fn add(&mut self, p: usize, q: usize) {
        self.0 |= Pairs::bit(p, q);
    }

    fn remove(&mut self, p: usize, q: usize) {
        self.0 &= !Pairs::bit(p, q);
    }
}

fn waits(record: &Claimant) -> bool {
    (SEE_CHOOSING..=SEE_HOLDERS_SESSION).contains(&record.place)
}

/// Whether its doorway has begun and it is not inside yet.
fn on_its_way(record: &Claimant) -> bool {
    (RAISE..=SEE_HOLDERS_SESSION).contains(&record.place)
}

impl State {
    /// A freshly opened table.
    pub fn fresh() -> State {
        State {
            rows: [Claimant::default(); MOST],
            memory: [None; MOST],
            early: Pairs(0),
            overtaken: Pairs(0),
        }
    }

    /// The state after a call of claimant `who`, its answer, and what it broke.
    pub fn called(&self, space: &Space, who: usize, call: Call) -> (State, Answer, Vec<Break>) {
        let n = space.claimants;
        let mut next = *self;
        let rows = &mut next.rows[..n];
        let answer = perform(
            space.shortcut,
            rows,
            &mut next.memory,
            space.ceiling,
            who as u32,
            call,
        );
        let broken = next.remember(self, n, who - 1);
        (next, answer, broken)
    }

    /// Brings the history up to date after a call of the claimant at `me`.
    fn remember(&mut self, before: &State, n: usize, me: usize) -> Vec<Break> {
        let (was, is) = (before.rows[me], self.rows[me]);
        let mut broken = Vec::new();
        let told = |row: &Claimant| (waits(row), on_its_way(row), row.want);
        if told(&was) == told(&is) {
            // Nothing that the history speaks of has changed.
            return broken;
        }
        if is.place == INSIDE && was.place != INSIDE {
            for p in (0..n).filter(|&p| p != me && conflict(self.rows[p].want, is.want)) {
                if self.rows[p].place == INSIDE {
                    broken.push(Break::BothInside);
                }
                if waits(&self.rows[p]) {
                    if !self.early.has(p, me) {
                        broken.push(Break::OvertakenByLater);
                    }
                    if self.overtaken.has(p, me) {
                        broken.push(Break::OvertakenTwice);
                    }
                    self.overtaken.add(p, me);
                }
            }
        }
        for q in 0..n {
            if waits(&is) && !waits(&was) {
                // The doorway ends: who has begun one is early.
                self.early.add(me, q);
            }
            self.tidy(me, q);
            self.tidy(q, me);
        }
        broken
    }

    /// Drops the history of p and q that nothing is asked of any more.
    fn tidy(&mut self, p: usize, q: usize) {
        let (waiter, comer) = (self.rows[p], self.rows[q]);
        if !(waits(&waiter) && on_its_way(&comer) && conflict(waiter.want, comer.want)) {
            self.early.remove(p, q);
        }
        if !waits(&waiter) {
            self.overtaken.remove(p, q);
        }
    }

    /// Whether the claimant at `p` waits.
    pub fn waits(&self, p: usize) -> bool {
        waits(&self.rows[p])
    }

    /// How many overtakings the history has.
    pub fn overtakings(&self) -> u32 {
        self.overtaken.0.count_ones()
    }

    /// The same state with sessions renamed 1, 2, 3 in the order in which the
    /// claimants and then their memories have them. No rule and no promise
    /// tells sessions apart but by equality, so what is true of one is true of
    /// the other.
    fn renamed(mut self, n: usize) -> State {
        let mut names = [0u16; 2 * MOST + 1];
        let mut named = 0;
        let mut name = |session: u16| {
            if session != 0 && names[session as usize] == 0 {
                named += 1;
                names[session as usize] = named;
            }
            names[session as usize]
        };
        for row in &mut self.rows[..n] {
            row.want = name(row.want);
            row.session = if row.session == 0 { 0 } else { row.want };
        }
        for remembered in self.memory[..n].iter_mut().flatten() {
            *remembered = name(*remembered);
        }
        self
    }

    /// The state as one number, sessions renamed.
    pub fn key(&self, n: usize) -> u64 {
        let state = self.renamed(n);
        let mut key = 0u64;
        for p in 0..n {
            let row = &state.rows[p];
            debug_assert!(row.session == if row.place >= RAISE { row.want } else { 0 });
            debug_assert!(row.token == 0 || row.seen == 0);
            let remembered = state.memory[p].map_or(0, |session| session + 1);
            for (value, bits) in [
                (u32::from(row.place), 4),
                (row.want.into(), 2),
                (row.choosing.into(), 1),
                (row.other.into(), 2),
                (row.token.max(row.seen), 3),
                (remembered.into(), 3),
            ] {
                debug_assert!(value < 1 << bits);
                key = key << bits | u64::from(value);
            }
        }
        key = key << Pairs::BITS | state.early.0;
        key << Pairs::BITS | state.overtaken.0
    }

    /// The table of a key alone, with no history.
    pub fn table_of(key: u64) -> u64 {
        key >> (2 * Pairs::BITS)
    }

    /// The key of a table with an empty history.
    pub fn key_of(table: u64) -> u64 {
        table << (2 * Pairs::BITS)
    }

    /// The state that a key stands for.
    pub fn from_key(space: &Space, mut key: u64) -> State {
        let n = space.claimants;
        let mut state = State::fresh();
        let mut low = |bits: usize| {
            let value = key & ((1 << bits) - 1);
            key >>= bits;
            value
        };
        state.overtaken = Pairs(low(Pairs::BITS));
        state.early = Pairs(low(Pairs::BITS));
        for p in (0..n).rev() {
            state.memory[p] = low(3).checked_sub(1).map(|session| session as u16);
            let number = low(3) as u32;
            let row = &mut state.rows[p];
            row.other = low(2) as u8;
            row.choosing = low(1) as u8;
            row.want = low(2) as u16;
            row.place = low(4) as u8;
            row.session = if row.place >= RAISE { row.want } else { 0 };
            let still_seen = row.place == LOWER && space.shortcut == Some(Shortcut::LowerFirst);
            if row.place <= TAKE || still_seen {
                row.seen = number;
            } else {
                row.token = number;
            }
        }
        state
    }
}

/// What claimant `who` may be asked to do here: the calls that are not refused.
pub fn calls(space: &Space, record: &Claimant) -> impl Iterator<Item = Call> {
    let (asks, other) = match record.place {
        REST => (space.sessions, None),
        INSIDE => (0, Some(Call::Leave)),
        _ => (0, Some(Call::Step)),
    };
    (1..=asks).map(Call::Ask).chain(other)
}
