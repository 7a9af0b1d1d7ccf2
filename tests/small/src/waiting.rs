//! How many steps of its own a claimant needs that nobody conflicts with.

use crate::search::{turns, Turn};
use crate::state::{Space, State};
use model::claimant::{place::*, Answer};
use model::table::Call;
use std::collections::HashSet;

/// The most steps of its own that a claimant makes from its ask until it is
/// inside, over all tables and orders of calls with one session; turned-away
/// claims don't count. Gives up, answering one more, past `bound`.
pub fn most_own_steps(claimants: usize, ceiling: u32, bound: usize) -> usize {
    let space = Space {
        claimants,
        sessions: 1,
        ceiling,
        shortcut: None,
    };
    (1..=claimants)
        .map(|who| most_of(&space, who, bound))
        .max()
        .unwrap_or(0)
}

fn most_of(space: &Space, who: usize, bound: usize) -> usize {
    let n = space.claimants;
    let start = (State::fresh(), 0);
    let mut known = HashSet::from([(start.0.key(n), 0)]);
    let mut open = vec![start];
    let mut most = 0;
    while let Some((state, own)) = open.pop() {
        for turn in turns(space, &state) {
            let (next, answer, _) = state.called(space, turn.0, turn.1);
            let own = counted(own, turn, who, answer);
            if next.rows[who - 1].place == INSIDE && turn.0 == who {
                most = most.max(own);
            }
            if own > bound {
                return own;
            }
            let own = if next.rows[who - 1].place >= INSIDE {
                0
            } else {
                own
            };
            if known.insert((next.key(n), own)) {
                open.push((next, own));
            }
        }
    }
    most
}

/// The own steps of `who` since its ask, after one more turn.
fn counted(own: usize, (by, call): Turn, who: usize, answer: Answer) -> usize {
    match (by == who, call, answer) {
        (false, _, _) => own,
        (true, Call::Step, Answer::Reached(_)) => own + 1,
        (true, _, _) => 0,
    }
}
