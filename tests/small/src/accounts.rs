//! What is searched, and the account of what was found.

use crate::casetexts::{self, text, with_rounds};
use crate::search::{search, unseen, Finding, Outcome, Turn};
use crate::shortcuts::Shortcut;
use crate::state::{Space, MOST};
use crate::waiting::most_own_steps;
use std::sync::Mutex;
use std::thread;

/// Claimants, sessions and ceilings searched under the right rules. With two
/// claimants a third session adds no state, sessions being told apart only by
/// equality; with three claimants a fourth would add none.
const RIGHT: [(usize, u16, u32); 14] = [
    (2, 2, 1),
    (2, 2, 2),
    (2, 2, 3),
    (2, 2, 7),
    (2, 3, 1),
    (2, 3, 2),
    (2, 3, 3),
    (2, 3, 7),
    (3, 2, 1),
    (3, 2, 2),
    (3, 2, 3),
    (3, 3, 1),
    (3, 3, 2),
    (3, 3, 3),
];

/// The same for a shortcut, the smallest first. The last is searched only if no
/// promise fell before.
const SHORTCUT: [(usize, u16, u32); 6] = [
    (2, 3, 1),
    (2, 3, 2),
    (2, 3, 3),
    (3, 3, 1),
    (3, 3, 2),
    (3, 3, 3),
];

/// A case text that a search found.
pub struct Text {
    pub shortcut: Shortcut,
    pub name: String,
    pub text: String,
}

/// What is printed for one set of rules, and the texts that go with it.
pub struct Account {
    pub printed: String,
    pub texts: Vec<Text>,
    pub good: bool,
}

/// The account of the right rules and then that of each shortcut, worked out
/// side by side.
pub fn all() -> Vec<Account> {
    let jobs: Vec<Option<Shortcut>> = [None].into_iter().chain(Shortcut::ALL.map(Some)).collect();
    // The longest first, so that the last to end is a short one.
    let todo = Mutex::new((0..jobs.len()).collect::<Vec<usize>>());
    let done = Mutex::new(Vec::new());
    let work = || loop {
        let Some(at) = todo.lock().expect("nobody panicked").pop() else {
            break;
        };
        let account = match jobs[at] {
            None => right_rules(),
            Some(shortcut) => one_shortcut(shortcut),
        };
        done.lock().expect("nobody panicked").push((at, account));
    };
    thread::scope(|scope| {
        for _ in 0..thread::available_parallelism().map_or(1, usize::from) {
            scope.spawn(work);
        }
    });
    let mut done = done.into_inner().expect("nobody panicked");
    done.sort_by_key(|(at, _)| *at);
    done.into_iter().map(|(_, account)| account).collect()
}

fn space_line(outcome: &Outcome) -> String {
    let Space {
        claimants,
        sessions,
        ceiling,
        ..
    } = outcome.space;
    format!(
        "  {claimants} claimants, {sessions} sessions, ceiling {ceiling}: {} tables, {} with history\n",
        outcome.tables.len(),
        outcome.states
    )
}

/// Both promises in every state, everybody gets on, and the bound on waiting.
fn right_rules() -> Account {
    let mut account = Account::new("the right rules\n");
    for (claimants, sessions, ceiling) in RIGHT {
        let outcome = search(Space {
            claimants,
            sessions,
            ceiling,
            shortcut: None,
        });
        account.printed += &space_line(&outcome);
        account.add_right(&outcome);
    }
    for claimants in 1..=MOST {
        let bound = 5 * claimants + 3;
        let most = most_own_steps(claimants, 3, bound);
        account.printed += &format!(
            "  claimants of one session, {claimants}: inside after {most} own steps at most, promised {bound}\n"
        );
        // The bound is met exactly; fewer would mean that the search is blind.
        account.good &= most == bound;
    }
    if account.good {
        account.printed += "  in every state: nobody inside beside a conflicting claimant, nobody overtaken twice by one\n";
        account.printed += "  or by a later claim, the table well-formed, nobody stuck\n";
    }
    account
}

/// What a shortcut breaks, or that it breaks nothing.
fn one_shortcut(shortcut: Shortcut) -> Account {
    let mut account = Account::new(&format!("shortcut {}\n", shortcut.name()));
    let mut shortest: Vec<Found> = Vec::new();
    let mut outcomes = Vec::new();
    for (claimants, sessions, ceiling) in SHORTCUT {
        let fell = shortest.iter().any(|found| breaks(found.finding));
        if claimants == 3 && ceiling == 3 && fell {
            break;
        }
        let space = Space {
            claimants,
            sessions,
            ceiling,
            shortcut: Some(shortcut),
        };
        let outcome = search(space);
        account.printed += &space_line(&outcome);
        for (finding, way) in &outcome.found {
            keep_shortest(
                &mut shortest,
                Found {
                    finding: *finding,
                    space,
                    way: way.clone(),
                },
            );
        }
        outcomes.push(outcome);
    }
    let fell = shortest.iter().any(|found| breaks(found.finding));
    for found in shortest.iter().filter(|found| breaks(found.finding)) {
        account.add_broken(shortcut, found);
    }
    if !fell {
        account.add_harmless(shortcut, &shortest, &outcomes);
    }
    account
}

/// Something found, and a way to it.
struct Found {
    finding: Finding,
    space: Space,
    way: Vec<Turn>,
}

/// Keeps the shortest way to each thing found; of equals, the first.
fn keep_shortest(shortest: &mut Vec<Found>, new: Found) {
    match shortest
        .iter_mut()
        .find(|known| known.finding == new.finding)
    {
        None => shortest.push(new),
        Some(known) if new.way.len() < known.way.len() => *known = new,
        Some(_) => {}
    }
}

impl Account {
    fn new(printed: &str) -> Account {
        Account {
            printed: String::from(printed),
            texts: Vec::new(),
            good: true,
        }
    }

    /// Adds what the right rules met in a space: nothing broken, and everything
    /// that makes the promises worth having.
    fn add_right(&mut self, outcome: &Outcome) {
        let met = outcome.met;
        self.printed += &format!(
            "    shared inside {}, kept out {}, overtaken {}, turned away {}\n",
            met.shared, met.kept_out, met.overtaken, met.turned_away
        );
        if [met.shared, met.kept_out, met.overtaken, met.turned_away].contains(&0) {
            self.printed += "    NOTHING TO CHECK: one of these never happened\n";
            self.good = false;
        }
        for (finding, way) in &outcome.found {
            self.printed += &format!("    BROKEN: {finding:?}\n{}", text(&outcome.space, way));
            self.good = false;
        }
    }

    /// Adds a way as a case text, and says so.
    fn add(&mut self, shortcut: Shortcut, what: &str, space: &Space, way: &[Turn], note: &str) {
        let name = format!("{}.{what}", shortcut.name());
        let (claimants, ceiling) = (space.claimants, space.ceiling);
        self.printed +=
            &format!("  {what}: {claimants} claimants, ceiling {ceiling}, {note}: {name}.txt\n");
        self.texts.push(Text {
            shortcut,
            name,
            text: text(space, way),
        });
    }

    /// Adds a broken promise; where somebody is stuck, with rounds that show it.
    fn add_broken(&mut self, shortcut: Shortcut, found: &Found) {
        let what = casetexts::name(found.finding);
        let calls = format!("{} calls", found.way.len());
        if found.finding == Finding::Stuck {
            let whole = with_rounds(&found.space, &found.way);
            let note = format!("{calls} and then {} in turn", whole.len() - found.way.len());
            self.add(shortcut, what, &found.space, &whole, &note);
        } else {
            self.add(shortcut, what, &found.space, &found.way, &calls);
        }
    }

    /// Adds what a shortcut that breaks nothing does otherwise, and what it hides.
    fn add_harmless(&mut self, shortcut: Shortcut, shortest: &[Found], outcomes: &[Outcome]) {
        for found in shortest
            .iter()
            .filter(|found| found.finding == Finding::Differs)
        {
            let note = format!("{} calls", found.way.len());
            self.add(
                shortcut,
                casetexts::name(found.finding),
                &found.space,
                &found.way,
                &note,
            );
        }
        let (note, hidden) = never_reached(outcomes);
        if let Some((space, way)) = hidden {
            self.add(
                shortcut,
                "unseen",
                &space,
                &way,
                &format!("{} calls", way.len()),
            );
        }
        self.printed += &note;
        self.printed += "  no promise falls in these spaces\n";
    }
}

/// Whether a promise falls with this finding. A table that is not well-formed
/// is of lower-first's making, and to go otherwise is what a shortcut does.
fn breaks(finding: Finding) -> bool {
    matches!(finding, Finding::Broken(_) | Finding::Stuck)
}

/// The right rules' tables that a harmless shortcut never reaches, and a
/// shortest way to one.
fn never_reached(outcomes: &[Outcome]) -> (String, Option<(Space, Vec<Turn>)>) {
    let (mut compared, mut missing, mut hidden) = (0, 0, None);
    for outcome in outcomes {
        let unseen = unseen(outcome);
        compared += unseen.compared;
        missing += unseen.unseen;
        hidden = hidden.or(unseen.way.map(|way| (outcome.space, way)));
    }
    let note = format!("  of {compared} tables of the right rules it never reaches {missing}\n");
    (note, hidden)
}
