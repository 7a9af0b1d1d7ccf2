//! What the search finds, as case texts.

use crate::search::{round, walked, Finding, Turn};
use crate::state::{Break, Space, State};
use model::table::Call;
use std::fmt::Write;

/// The case text of a way. Sessions 1, 2, 3 are written 7, 8, 9.
pub fn text(space: &Space, way: &[Turn]) -> String {
    let mut text = format!("claimants={}\nceiling={}\n", space.claimants, space.ceiling);
    for (who, call) in way {
        match call {
            Call::Ask(0) => writeln!(text, "do=ask {who} 0"),
            Call::Ask(session) => writeln!(text, "do=ask {who} {}", session + 6),
            Call::Step => writeln!(text, "do=step {who}"),
            Call::Leave => writeln!(text, "do=leave {who}"),
        }
        .expect("a string takes all that is written");
    }
    text
}

/// The way with rounds of turns for everybody after it, until a table comes
/// back: who is not inside by then never is.
pub fn with_rounds(space: &Space, way: &[Turn]) -> Vec<Turn> {
    let n = space.claimants;
    let table = |state: &State| State::table_of(state.key(n));
    let mut way = way.to_vec();
    let mut state = walked(space, &way);
    let mut tables = Vec::new();
    while !tables.contains(&table(&state)) {
        tables.push(table(&state));
        let (taken, next) = round(space, &state);
        way.extend(taken);
        state = next;
    }
    way
}

/// A finding as the last part of a file's name.
pub fn name(finding: Finding) -> &'static str {
    match finding {
        Finding::Broken(Break::BothInside) => "both-inside",
        Finding::Broken(Break::OvertakenByLater) => "overtaken-by-later",
        Finding::Broken(Break::OvertakenTwice) => "overtaken-twice",
        Finding::Stuck => "stuck",
        Finding::Unsound => "unsound",
        Finding::Differs => "differs",
    }
}
