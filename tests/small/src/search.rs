//! The search: every state reached from a fresh table, nearest first, and what
//! breaks on the way.

use crate::shortcuts::Shortcut;
use crate::state::{calls, Break, Space, State};
use model::claimant::{place::*, Answer};
use model::table::{self, Call};
use std::collections::{HashMap, HashSet};
use std::hash::{BuildHasherDefault, Hasher};

/// A call of one claimant.
pub type Turn = (usize, Call);

/// What can go wrong, or at least go otherwise.
#[derive(Clone, Copy, Debug, PartialEq, Eq)]
pub enum Finding {
    Broken(Break),
    /// A claimant that no order of steps and leaves gets on any more: it is
    /// never inside and never turned away.
    Stuck,
    /// A table that the right rules don't allow.
    Unsound,
    /// An answer or a record that is not as under the right rules.
    Differs,
}

impl Finding {
    pub const ALL: [Finding; 6] = [
        Finding::Broken(Break::BothInside),
        Finding::Broken(Break::OvertakenByLater),
        Finding::Broken(Break::OvertakenTwice),
        Finding::Stuck,
        Finding::Unsound,
        Finding::Differs,
    ];
}

/// How often what makes the promises worth having was met.
#[derive(Clone, Copy, Debug, Default, PartialEq, Eq)]
pub struct Met {
    /// States with two claimants of one session inside together.
    pub shared: usize,
    /// Calls by which a waiting claimant was overtaken.
    pub overtaken: usize,
    /// Calls that were turned away.
    pub turned_away: usize,
    /// States in which a claimant waits while a conflicting one is inside.
    pub kept_out: usize,
}

/// All that was found in one space.
pub struct Outcome {
    pub space: Space,
    /// How many states there are: tables with their history.
    pub states: usize,
    /// The tables among them, without the history.
    pub tables: Vec<u64>,
    pub met: Met,
    /// The shortest way to each thing found, in the order of [`Finding::ALL`].
    pub found: Vec<(Finding, Vec<Turn>)>,
}

/// Keys are spread by one multiplication; they are all different already.
#[derive(Default)]
pub struct Spread(u64);

impl Hasher for Spread {
    fn finish(&self) -> u64 {
        self.0
    }
    fn write(&mut self, _: &[u8]) {
        unreachable!("keys are written as u64")
    }
    fn write_u64(&mut self, key: u64) {
        let product = u128::from(key) * 0x9E37_79B9_7F4A_7C15;
        self.0 = (product >> 64) as u64 ^ product as u64;
    }
}

pub type Set = HashSet<u64, BuildHasherDefault<Spread>>;
type Map<V> = HashMap<u64, V, BuildHasherDefault<Spread>>;

/// The states reached so far, in the order in which they were reached, each
/// with the one it was reached from.
struct Reached {
    space: Space,
    keys: Vec<u64>,
    from: Vec<u32>,
    known: Set,
    /// Whether states that differ in their history alone are one.
    tables_only: bool,
}

impl Reached {
    fn fresh(space: Space) -> Reached {
        let key = State::fresh().key(space.claimants);
        Reached {
            space,
            keys: vec![key],
            from: vec![0],
            known: Set::from_iter([key]),
            tables_only: false,
        }
    }

    /// The key that a state is known by.
    fn kept(&self, key: u64) -> u64 {
        if self.tables_only {
            State::key_of(State::table_of(key))
        } else {
            key
        }
    }

    fn add(&mut self, key: u64, from: usize) {
        let key = self.kept(key);
        if self.known.insert(key) {
            self.keys.push(key);
            self.from.push(from as u32);
        }
    }

    /// A shortest way to state `at`. Sessions are renamed in the keys, so the
    /// way is walked again from the fresh table.
    fn way(&self, mut at: usize) -> Vec<Turn> {
        let mut keys = Vec::new();
        while at != 0 {
            keys.push(self.keys[at]);
            at = self.from[at] as usize;
        }
        let mut state = State::fresh();
        let mut way = Vec::new();
        for &key in keys.iter().rev() {
            let (turn, next) = turns(&self.space, &state)
                .map(|(who, call)| ((who, call), state.called(&self.space, who, call).0))
                .find(|(_, next)| self.kept(next.key(self.space.claimants)) == key)
                .expect("the state was reached so");
            way.push(turn);
            state = next;
        }
        way
    }

    /// A shortest way to state `at`, and then the first turn that `pick` picks.
    fn way_and(&self, at: usize, pick: impl Fn(&State, Turn) -> bool) -> Vec<Turn> {
        let mut way = self.way(at);
        let state = walked(&self.space, &way);
        let turn = turns(&self.space, &state).find(|&turn| pick(&state, turn));
        way.push(turn.expect("the turn was seen on this state under other names"));
        way
    }
}

/// The calls that are not refused here.
pub fn turns<'a>(space: &'a Space, state: &'a State) -> impl Iterator<Item = Turn> + 'a {
    (1..=space.claimants)
        .flat_map(move |who| calls(space, &state.rows[who - 1]).map(move |call| (who, call)))
}

/// The state that a way leads to.
pub fn walked(space: &Space, way: &[Turn]) -> State {
    way.iter().fold(State::fresh(), |state, &(who, call)| {
        state.called(space, who, call).0
    })
}

/// A shortest way to each table of a space.
pub fn ways(space: &Space) -> impl Iterator<Item = Vec<Turn>> {
    let n = space.claimants;
    let mut reached = Reached {
        tables_only: true,
        ..Reached::fresh(*space)
    };
    let mut at = 0;
    while at < reached.keys.len() {
        let state = State::from_key(space, reached.keys[at]);
        for (who, call) in turns(space, &state) {
            reached.add(state.called(space, who, call).0.key(n), at);
        }
        at += 1;
    }
    (0..reached.keys.len()).map(move |at| reached.way(at))
}

/// Searches a space to its end.
pub fn search(space: Space) -> Outcome {
    let n = space.claimants;
    let mut reached = Reached::fresh(space);
    let mut found: Vec<(Finding, Vec<Turn>)> = Vec::new();
    let mut met = Met::default();
    let mut drains = Drains::new(space);
    let mut at = 0;
    while at < reached.keys.len() {
        let state = State::from_key(&space, reached.keys[at]);
        let new = |finding: Finding, found: &[(Finding, Vec<Turn>)]| {
            found.iter().all(|(known, _)| *known != finding)
        };
        count(&mut met, &state, n);
        if new(Finding::Unsound, &found) && table::judge(&state.rows[..n], space.ceiling).is_err() {
            found.push((Finding::Unsound, reached.way(at)));
        }
        if new(Finding::Stuck, &found) && drains.stuck(&state, State::table_of(reached.keys[at])) {
            found.push((Finding::Stuck, reached.way(at)));
        }
        for (who, call) in turns(&space, &state) {
            let (next, answer, broken) = state.called(&space, who, call);
            for what in broken {
                if new(Finding::Broken(what), &found) {
                    let way = reached.way_and(at, |state, (who, call)| {
                        state.called(&space, who, call).2.contains(&what)
                    });
                    found.push((Finding::Broken(what), way));
                }
            }
            if new(Finding::Differs, &found) && differs(&space, &state, (who, call)) {
                let way = reached.way_and(at, |state, turn| differs(&space, state, turn));
                found.push((Finding::Differs, way));
            }
            met.turned_away += usize::from(answer == Answer::TurnedAway);
            met.overtaken += usize::from(next.overtakings() > state.overtakings());
            reached.add(next.key(n), at);
        }
        at += 1;
    }
    found.sort_by_key(|(finding, _)| Finding::ALL.iter().position(|known| known == finding));
    let mut tables: Vec<u64> = reached.keys.iter().copied().map(State::table_of).collect();
    tables.sort_unstable();
    tables.dedup();
    Outcome {
        space,
        states: reached.keys.len(),
        tables,
        met,
        found,
    }
}

/// Whether a call answers or leaves a record otherwise than the right rules.
fn differs(space: &Space, state: &State, (who, call): Turn) -> bool {
    let right = Space {
        shortcut: None,
        ..*space
    };
    let (here, answer, _) = state.called(space, who, call);
    let (there, right_answer, _) = state.called(&right, who, call);
    here.rows != there.rows || answer != right_answer
}

fn count(met: &mut Met, state: &State, n: usize) {
    let inside = |p: usize| state.rows[p].place == INSIDE;
    let pairs = || (0..n).flat_map(|p| (0..p).map(move |q| (p, q)));
    let same = |p: usize, q: usize| state.rows[p].want == state.rows[q].want;
    met.shared += usize::from(pairs().any(|(p, q)| inside(p) && inside(q) && same(p, q)));
    met.kept_out +=
        usize::from(pairs().any(|(p, q)| {
            !same(p, q) && (state.waits(p) && inside(q) || inside(p) && state.waits(q))
        }));
}

/// Finds out whether everybody gets on, from a given state on.
struct Drains {
    space: Space,
    /// Tables from which everybody comes to rest by turns.
    good: Set,
    /// For tables from which turns lead round and round: is somebody stuck?
    bad: Map<bool>,
}

impl Drains {
    fn new(space: Space) -> Drains {
        Drains {
            space,
            good: Set::default(),
            bad: Map::default(),
        }
    }

    fn table(&self, state: &State) -> u64 {
        State::table_of(state.key(self.space.claimants))
    }

    /// Whether some claimant gets on by no order of steps and leaves from this
    /// state, whose table is given too.
    ///
    /// First all take turns, nobody asking anew, and who is inside leaves. If
    /// that brings all to rest, nobody is stuck. If not, all orders are tried.
    fn stuck(&mut self, state: &State, table: u64) -> bool {
        let mut path = Vec::new();
        let mut now = (*state, table);
        loop {
            let (state, table) = now;
            if state.rows.iter().all(|row| row.place == REST) || self.good.contains(&table) {
                self.good.extend(path);
                return false;
            }
            if self.bad.contains_key(&table) || path.contains(&table) {
                break;
            }
            path.push(table);
            let next = round(&self.space, &state).1;
            now = (next, self.table(&next));
        }
        if let Some(&known) = self.bad.get(&table) {
            return known;
        }
        let stuck = (1..=self.space.claimants).any(|who| !self.gets_on(state, who));
        self.bad.insert(table, stuck);
        stuck
    }

    /// Whether some order of steps and leaves gets `who` inside or turned away.
    fn gets_on(&self, state: &State, who: usize) -> bool {
        let claims =
            |state: &State| (SIGN..=SEE_HOLDERS_SESSION).contains(&state.rows[who - 1].place);
        if !claims(state) {
            return true;
        }
        let mut known = Set::from_iter([self.table(state)]);
        let mut open = vec![*state];
        while let Some(state) = open.pop() {
            for turn in turns(&self.space, &state) {
                if matches!(turn.1, Call::Ask(_)) {
                    continue;
                }
                let next = state.called(&self.space, turn.0, turn.1).0;
                if !claims(&next) {
                    return true;
                }
                if known.insert(self.table(&next)) {
                    open.push(next);
                }
            }
        }
        false
    }
}

/// A turn for everybody who is not at rest: leave if inside, else step.
pub fn round(space: &Space, state: &State) -> (Vec<Turn>, State) {
    let mut now = *state;
    let mut taken = Vec::new();
    for who in 1..=space.claimants {
        let call = match now.rows[who - 1].place {
            REST => continue,
            INSIDE => Call::Leave,
            _ => Call::Step,
        };
        now = now.called(space, who, call).0;
        taken.push((who, call));
    }
    (taken, now)
}

/// Tables as a shortcut can be compared by: the right rules' table read in the
/// shortcut's terms, or none if the shortcut has no such table by its making.
fn in_terms_of(shortcut: Shortcut, state: &State, n: usize) -> Option<u64> {
    let mut state = *state;
    for row in &mut state.rows[..n] {
        row.place = match (shortcut, row.place) {
            (Shortcut::ScanAtOnce, SCAN) => return None,
            (Shortcut::WaitAtOnce, SEE_CHOOSERS_SESSION) => SEE_CHOOSING,
            (Shortcut::WaitAtOnce, SEE_HOLDERS_SESSION) => SEE_TOKEN,
            (_, place) => place,
        };
    }
    state.memory = Default::default();
    Some(State::table_of(state.key(n)))
}

/// Tables that the right rules reach and a shortcut never does.
pub struct Unseen {
    /// How many of the right rules' tables can be compared.
    pub compared: usize,
    pub unseen: usize,
    /// A shortest way to one, under the right rules.
    pub way: Option<Vec<Turn>>,
}

/// Compares the tables of the right rules with those a shortcut reached.
pub fn unseen(outcome: &Outcome) -> Unseen {
    let shortcut = outcome.space.shortcut.expect("a shortcut's outcome");
    let n = outcome.space.claimants;
    let space = Space {
        shortcut: None,
        ..outcome.space
    };
    let theirs: Set = outcome
        .tables
        .iter()
        .filter_map(|&table| {
            let state = State::from_key(&outcome.space, State::key_of(table));
            in_terms_of(shortcut, &state, n)
        })
        .collect();
    let mut reached = Reached {
        tables_only: true,
        ..Reached::fresh(space)
    };
    let mut compared = Set::default();
    let (mut unseen, mut way) = (0, None);
    let mut at = 0;
    while at < reached.keys.len() {
        let state = State::from_key(&space, reached.keys[at]);
        if let Some(table) = in_terms_of(shortcut, &state, n) {
            if compared.insert(table) && !theirs.contains(&table) {
                unseen += 1;
                way.get_or_insert_with(|| reached.way(at));
            }
        }
        for (who, call) in turns(&space, &state) {
            let next = state.called(&space, who, call).0;
            reached.add(next.key(n), at);
        }
        at += 1;
    }
    Unseen {
        compared: compared.len(),
        unseen,
        way,
    }
}

#[cfg(test)]
mod tests {
    use super::*;

    fn space(claimants: usize, ceiling: u32, shortcut: Option<Shortcut>) -> Space {
        Space {
            claimants,
            sessions: 3,
            ceiling,
            shortcut,
        }
    }

    #[test]
    fn a_key_stands_for_its_state() {
        for shortcut in [None].into_iter().chain(Shortcut::ALL.map(Some)) {
            let space = space(2, 2, shortcut);
            let mut reached = Reached::fresh(space);
            let mut at = 0;
            while at < reached.keys.len() {
                let key = reached.keys[at];
                let state = State::from_key(&space, key);
                assert_eq!(state.key(2), key);
                for (who, call) in turns(&space, &state) {
                    let next = state.called(&space, who, call).0;
                    assert_eq!(State::from_key(&space, next.key(2)).key(2), next.key(2));
                    reached.add(next.key(2), at);
                }
                at += 1;
            }
            for at in [1, reached.keys.len() / 2, reached.keys.len() - 1] {
                let way = reached.way(at);
                assert_eq!(walked(&space, &way).key(2), reached.keys[at]);
            }
        }
    }

    #[test]
    fn each_finding_is_found_somewhere() {
        let finds = |claimants, ceiling, shortcut| -> Vec<Finding> {
            let outcome = search(space(claimants, ceiling, shortcut));
            outcome
                .found
                .into_iter()
                .map(|(finding, _)| finding)
                .collect()
        };
        use Finding::*;
        assert_eq!(finds(2, 3, None), []);
        assert_eq!(finds(2, 1, Some(Shortcut::TokensBelow)), [Stuck, Differs]);
        assert_eq!(
            finds(2, 1, Some(Shortcut::LowerFirst)),
            [Broken(Break::BothInside), Unsound, Differs]
        );
        assert_eq!(
            finds(2, 2, Some(Shortcut::RememberZero)),
            [
                Broken(Break::BothInside),
                Broken(Break::OvertakenByLater),
                Broken(Break::OvertakenTwice),
                Differs
            ]
        );
    }

    /// Claimant 2 waits; whether claimant 1 began early decides.
    #[test]
    fn an_overtaking_is_early_or_late() {
        let space = space(2, 7, None);
        let to = |way: &mut Vec<Turn>, who: usize, place: u8| {
            while walked(&space, way).rows[who - 1].place != place {
                way.push((who, Call::Step));
            }
        };
        // Both scan, 2 ends its doorway, and 1, of the lower number, goes first.
        let mut way = vec![(1, Call::Ask(1)), (2, Call::Ask(2))];
        to(&mut way, 1, TAKE);
        to(&mut way, 2, SEE_CHOOSING);
        to(&mut way, 1, SEE_HOLDERS_SESSION);
        to(&mut way, 1, SEE_CHOOSING);
        to(&mut way, 1, SEE_TOKEN);
        let before = walked(&space, &way);
        let (after, answer, broken) = before.called(&space, 1, Call::Step);
        assert_eq!((answer, broken), (Answer::Reached(INSIDE), vec![]));
        assert_eq!((before.overtakings(), after.overtakings()), (0, 1));
    }
}
