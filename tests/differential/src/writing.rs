//! Compares how the library and the model write case texts, and read them back.

mod drafts;
mod faults;
mod kinds;
pub mod sides;

use crate::random::Random;
use crate::shown;
use crate::texts::Texts;
use drafts::{barred, Drafts};
use faults::Faulty;
use kinds::Kinds;
use sides::{some_rooms, Both, Draft, Model, Side};
use std::time::Instant;

/// How many cases a run has, and below how many it need not meet every kind.
const CASES: u64 = 100_000;
const ENOUGH: u64 = 50_000;
/// How many cases the self-test gives a fault to be found in.
const AT_ONCE: u64 = 20_000;

/// Two texts that should be one, or answers that should be.
struct Difference {
    case: u64,
    what: String,
    draft: Draft,
    model: Vec<u8>,
    library: Vec<u8>,
}

impl Difference {
    /// Prints all of it; false, for it is a failure.
    fn print(&self, seed: u64) -> bool {
        let Draft {
            claimants,
            ceiling,
            schedule,
            room,
        } = &self.draft;
        println!("DIFFERENCE: {}", self.what);
        println!("--- claimants {claimants}, ceiling {ceiling}, a row of {room} bytes");
        let start: Vec<String> = schedule
            .iter()
            .take(24)
            .map(|entry| format!("{entry:08x}"))
            .collect();
        println!("--- {} entries, beginning", schedule.len());
        println!("{}", start.join(" "));
        if let Some(at) = schedule.iter().position(|&entry| barred(entry)) {
            println!("--- the first barred one is {:08x}, at {at}", schedule[at]);
        }
        println!("--- model wrote {} bytes", self.model.len());
        println!("{}", shown(&self.model));
        println!("--- library wrote {} bytes", self.library.len());
        println!("{}", shown(&self.library));
        println!(
            "--- seed {seed}, case {} (--write --seed {seed} --case {})",
            self.case, self.case
        );
        false
    }
}

/// The cases of a seed, and what comparing them met.
struct Comparison<S> {
    drafts: Drafts,
    both: Both<S>,
    kinds: Kinds,
}

impl<S: Side> Comparison<S> {
    fn new(seed: u64, model: S) -> Comparison<S> {
        Comparison {
            drafts: Drafts::new(seed),
            both: Both::new(model),
            kinds: Kinds::new(),
        }
    }

    /// Compares one case; the difference, if there is one.
    fn case(&mut self, case: u64) -> Option<Difference> {
        let draft = self.drafts.draft(case);
        match self.both.write_then_read(&draft) {
            Ok(answer) => {
                self.kinds.note(&draft, answer);
                None
            }
            Err(what) => {
                let (model, library) = self.both.written();
                Some(Difference {
                    case,
                    what,
                    draft,
                    model,
                    library,
                })
            }
        }
    }
}

/// A run: `cases` cases of a seed.
pub fn compare(seed: u64, cases: Option<u64>) -> bool {
    let cases = cases.unwrap_or(CASES);
    println!("differential --write: seed {seed}, {cases} cases");
    let start = Instant::now();
    let mut comparison = Comparison::new(seed, Model);
    for case in 0..cases {
        if let Some(difference) = comparison.case(case) {
            return difference.print(seed);
        }
    }
    println!("met, in all the cases:");
    let all = comparison.kinds.print();
    println!(
        "differential --write: {cases} cases, no difference, {:.1} s (seed {seed})",
        start.elapsed().as_secs_f64()
    );
    if cases >= ENOUGH && !all {
        println!("differential --write: FAILED: some kind was never met");
        return false;
    }
    true
}

/// One case of a seed again.
pub fn compare_one(seed: u64, case: u64) -> bool {
    let difference = Comparison::new(seed, Model).case(case);
    println!("differential --write: seed {seed}, case {case}");
    difference.is_none_or(|difference| difference.print(seed))
}

/// Each wrong reader and each wrong writer is found, and soon: by the cases
/// here, or by the texts of the other run.
pub fn self_test(seed: u64) -> bool {
    let mut good = true;
    for &(fault, what) in faults::ALL {
        let mut comparison = Comparison::new(seed, Faulty(Some(fault)));
        let mut texts = Texts::new(seed);
        let mut found = |case| {
            let text = texts.text(case);
            let rooms = some_rooms(&mut Random::new(!seed, case));
            comparison.case(case).is_some()
                || comparison.both.read_then_write(&text, rooms).is_err()
        };
        match (0..AT_ONCE).find(|&case| found(case)) {
            Some(case) => println!("  found at case {case:>5}: {what}"),
            None => {
                println!("  NOT FOUND in {AT_ONCE} cases: {what}");
                good = false;
            }
        }
    }
    let verdict = if good { "all found" } else { "FAILED" };
    println!(
        "differential --self-test: {} faults of reading and writing, {verdict} (seed {seed})",
        faults::ALL.len()
    );
    good
}

#[cfg(test)]
mod tests {
    use super::*;

    #[test]
    fn what_the_faults_are_put_into_has_none_itself() {
        let mut comparison = Comparison::new(1, Faulty(None));
        for case in 0..2_000 {
            assert!(comparison.case(case).is_none(), "{case}");
        }
    }
}
