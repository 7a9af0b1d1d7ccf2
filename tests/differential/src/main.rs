//! Compares the proved library with the model, byte for byte.
//!
//!     differential [--cases COUNT] [--seed SEED]
//!     differential --seed SEED --case NUMBER     one case again
//!     differential --write ..                    schedules written, with the same options
//!     differential --files FILE...               these texts
//!     differential --every                       every call on every small table
//!     differential --self-test [--seed SEED]     that faults are found
//!
//! Of a text the two reports are compared and what the two readers say, and a
//! text that is taken is written as it was. A difference prints the text, both
//! outputs and the seed, and fails; so does a run of the full number of cases
//! that never met some kind of text or step.

mod coverage;
mod damage;
mod faults;
mod limits;
mod random;
mod schedules;
mod texts;
mod writing;

use coverage::Coverage;
use faults::Faulty;
use model::casetext::MOST_DO_LINES;
use model::report::{report_by, AsWritten, Parts};
use model::table::Call;
use random::Random;
use small::search::{turns, walked, ways, Turn};
use small::state::Space;
use std::process::{exit, ExitCode};
use std::time::Instant;
use std::{env, fs};
use texts::Texts;
use writing::sides::{some_rooms, Both, Model};

/// How many cases a run has, and below how many it need not meet every kind.
const CASES: u64 = 250_000;
const ENOUGH: u64 = 100_000;
/// How many cases the self-test gives a fault to be found in.
const AT_ONCE: u64 = 20_000;

/// Fills the row that the library writes into, to see what it leaves alone.
const FILLER: u8 = 0xA5;
const MARGIN: usize = 64;

fn main() -> ExitCode {
    let args: Vec<String> = env::args().skip(1).collect();
    let mut words: Vec<&str> = args.iter().map(String::as_str).collect();
    let mut number = |name: &str| {
        let at = words.iter().position(|word| *word == name)?;
        let number = words.get(at + 1).and_then(|word| word.parse::<u64>().ok());
        words.drain(at..words.len().min(at + 2));
        // No number there is as bad as a word that is not known.
        number.or_else(usage)
    };
    let seed = number("--seed").unwrap_or(1);
    let cases = number("--cases");
    let case = number("--case");
    let good = match (cases, case, &words[..]) {
        (_, None, []) => compare(seed, cases.unwrap_or(CASES)),
        (None, Some(case), []) => compare_one(seed, case),
        (_, None, ["--write"]) => writing::compare(seed, cases),
        (None, Some(case), ["--write"]) => writing::compare_one(seed, case),
        (None, None, ["--self-test"]) => self_test(seed) & writing::self_test(seed),
        (None, None, ["--every"]) => compare_every(),
        (None, None, ["--files", files @ ..]) => compare_files(files),
        _ => usage(),
    };
    if good {
        ExitCode::SUCCESS
    } else {
        ExitCode::FAILURE
    }
}

/// Ends the program for words that it doesn't know.
fn usage<T>() -> T {
    eprintln!(
        "differential [--seed SEED] [[--write] [--cases COUNT | --case NUMBER] | --self-test | --every | --files FILE...]"
    );
    exit(2)
}

/// One case of a seed again.
fn compare_one(seed: u64, case: u64) -> bool {
    let difference = Comparison::new(seed).case(&mut AsWritten, case);
    println!("differential: seed {seed}, case {case}");
    difference.is_none_or(|difference| difference.print(seed))
}

/// Two outputs that should be one.
struct Difference {
    case: u64,
    what: String,
    text: Vec<u8>,
    model: Vec<u8>,
    library: Vec<u8>,
}

impl Difference {
    /// Prints all of it; false, for it is a failure.
    fn print(&self, seed: u64) -> bool {
        println!("DIFFERENCE: {}", self.what);
        println!("--- text, {} bytes", self.text.len());
        println!("{}", shown(&self.text));
        println!("--- model, {} bytes", self.model.len());
        println!("{}", shown(&self.model));
        println!("--- library, {} bytes", self.library.len());
        println!("{}", shown(&self.library));
        let lines = |bytes: &[u8]| -> Vec<String> {
            bytes.split(|&byte| byte == b'\n').map(shown).collect()
        };
        let (model, library) = (lines(&self.model), lines(&self.library));
        for at in 0..model.len().max(library.len()) {
            let (ours, theirs) = (model.get(at), library.get(at));
            if ours != theirs {
                println!(
                    "--- first at line {}: model {ours:?}, library {theirs:?}",
                    at + 1
                );
                break;
            }
        }
        println!(
            "--- seed {seed}, case {} (--seed {seed} --case {})",
            self.case, self.case
        );
        false
    }
}

/// Bytes for a person: lines as they are, odd bytes escaped.
fn shown(bytes: &[u8]) -> String {
    let lines: Vec<String> = bytes
        .split(|&byte| byte == b'\n')
        .map(|line| line.escape_ascii().to_string())
        .collect();
    lines.join("\n")
}

/// The cases of a seed, and what comparing them met.
struct Comparison {
    seed: u64,
    texts: Texts,
    /// The row lent to the library, and what it is filled with before.
    row: Vec<u8>,
    filled: Vec<u8>,
    out: Vec<u8>,
    both: Both<Model>,
    coverage: Coverage,
    /// How many texts were written as they were read, and how many not taken.
    rewritten: u64,
    refused: u64,
}

impl Comparison {
    fn new(seed: u64) -> Comparison {
        Comparison {
            seed,
            texts: Texts::new(seed),
            row: vec![FILLER; colliemist::REPORT_BYTES + MARGIN],
            filled: vec![FILLER; colliemist::REPORT_BYTES + MARGIN],
            out: Vec::new(),
            both: Both::new(Model),
            coverage: Coverage::new(),
            rewritten: 0,
            refused: 0,
        }
    }

    /// Compares one case; the difference, if there is one.
    fn case(&mut self, parts: &mut impl Parts, case: u64) -> Option<Difference> {
        let text = self.texts.text(case);
        self.coverage.note(&text);
        // A row that is too short gets nothing, and stays as it is.
        let random = &mut Random::new(!self.seed, case);
        let short = random.below(64 * colliemist::REPORT_BYTES);
        let short = (short < colliemist::REPORT_BYTES).then_some(short);
        let rooms = some_rooms(random);
        self.coverage.note_rooms(&text, rooms);
        self.compare_report(parts, case, &text, short)
            .or_else(|| self.compare_reading(case, &text, rooms))
    }

    /// Compares a text that is no case of a seed.
    fn text(&mut self, text: &[u8]) -> Option<Difference> {
        self.compare_report(&mut AsWritten, 0, text, None)
            .or_else(|| self.compare_reading(0, text, (MOST_DO_LINES, None)))
    }

    /// What both readers say of a text, and what both writers make of that.
    fn compare_reading(
        &mut self,
        case: u64,
        text: &[u8],
        rooms: (usize, Option<usize>),
    ) -> Option<Difference> {
        match self.both.read_then_write(text, rooms) {
            Ok(Ok(_)) => self.rewritten += 1,
            Ok(Err(_)) => self.refused += 1,
            Err(what) => {
                let (model, library) = self.both.written();
                return Some(Difference {
                    case,
                    what,
                    text: text.to_vec(),
                    model,
                    library,
                });
            }
        }
        None
    }

    fn compare_report(
        &mut self,
        parts: &mut impl Parts,
        case: u64,
        text: &[u8],
        short: Option<usize>,
    ) -> Option<Difference> {
        self.out.clear();
        report_by(parts, &mut self.out, text);
        let mut what = None;
        if let Some(short) = short {
            if colliemist::report_into(text, &mut self.row[..short]).is_some() {
                what = Some(format!("a row of {short} bytes is too short but was taken"));
            }
            if self.row != self.filled {
                what = Some(format!(
                    "a row of {short} bytes is too short but was written to"
                ));
            }
        }
        let room = colliemist::REPORT_BYTES + case as usize % MARGIN;
        let library = colliemist::report_into(text, &mut self.row[..room]).unwrap_or_default();
        let library = library.to_vec();
        if self.row[library.len()..] != self.filled[library.len()..] {
            what = Some(String::from("bytes past the report were written to"));
        }
        self.row[..library.len()].fill(FILLER);
        if library != self.out {
            what = Some(String::from("the reports differ"));
        }
        what.map(|what| {
            self.row.fill(FILLER);
            Difference {
                case,
                what,
                text: text.to_vec(),
                model: self.out.clone(),
                library,
            }
        })
    }
}

/// A run: `cases` cases of a seed.
fn compare(seed: u64, cases: u64) -> bool {
    println!("differential: seed {seed}, {cases} cases");
    let start = Instant::now();
    let mut comparison = Comparison::new(seed);
    for case in 0..cases {
        if let Some(difference) = comparison.case(&mut AsWritten, case) {
            return difference.print(seed);
        }
    }
    println!("met, in all the cases:");
    let mut all = comparison.coverage.print();
    println!("damages done:");
    for ((kind, _), count) in damage::KINDS.iter().zip(comparison.texts.damages) {
        println!("  {count:>10}  {kind}");
        all &= count > 0;
    }
    println!(
        "{} texts written as they were read, {} not taken",
        comparison.rewritten, comparison.refused
    );
    println!(
        "differential: {cases} cases, no difference, {:.1} s (seed {seed})",
        start.elapsed().as_secs_f64()
    );
    if cases >= ENOUGH && !all {
        println!("differential: FAILED: some kind was never met");
        return false;
    }
    true
}

/// Compares the texts in files.
fn compare_files(files: &[&str]) -> bool {
    let mut comparison = Comparison::new(0);
    let mut good = !files.is_empty();
    for file in files {
        match fs::read(file) {
            Ok(text) => {
                if let Some(difference) = comparison.text(&text) {
                    println!("{file}");
                    good = difference.print(0);
                }
            }
            Err(error) => {
                println!("{file}: {error}");
                good = false;
            }
        }
    }
    println!(
        "differential: {} files, {} written as they were read, {} not taken, {}",
        files.len(),
        comparison.rewritten,
        comparison.refused,
        if good { "no difference" } else { "FAILED" }
    );
    good
}

/// Compares every call, refused ones too, on every table that two claimants
/// reach under small ceilings and that three reach under ceiling 1.
fn compare_every() -> bool {
    let mut comparison = Comparison::new(0);
    for (claimants, sessions, ceiling) in [(1, 1, 2), (2, 2, 1), (2, 2, 2), (2, 2, 3), (3, 3, 1)] {
        let space = Space {
            claimants,
            sessions,
            ceiling,
            shortcut: None,
        };
        let (mut tables, mut calls, mut texts) = (0, 0, 0);
        for way in ways(&space) {
            tables += 1;
            let state = walked(&space, &way);
            let (taken, refused): (Vec<Turn>, Vec<Turn>) =
                every_turn(&space).partition(|turn| turns(&space, &state).any(|t| t == *turn));
            calls += taken.len() + refused.len();
            // Refused calls change nothing, so that they all go before a taken one.
            for turn in taken {
                let all: Vec<Turn> = way.iter().chain(&refused).copied().chain([turn]).collect();
                let text = small::casetexts::text(&space, &all).into_bytes();
                texts += 1;
                if let Some(found) = comparison.text(&text) {
                    return found.print(0);
                }
            }
        }
        println!(
            "differential --every: {claimants} claimants, {sessions} sessions, ceiling {ceiling}: \
             {calls} calls on {tables} tables, {texts} texts, no difference"
        );
    }
    true
}

/// Every call of every claimant, and of some that are none.
fn every_turn(space: &Space) -> impl Iterator<Item = Turn> + '_ {
    let asks = (0..=space.sessions).map(Call::Ask);
    let calls: Vec<Call> = [Call::Step, Call::Leave].into_iter().chain(asks).collect();
    (0..=space.claimants + 1)
        .flat_map(move |who| calls.clone().into_iter().map(move |call| (who, call)))
}

/// Each fault in the model is found, and soon.
fn self_test(seed: u64) -> bool {
    let mut good = true;
    let faults = faults::all();
    for (fault, what) in &faults {
        let mut comparison = Comparison::new(seed);
        let mut faulty = Faulty::new(*fault);
        match (0..AT_ONCE).find_map(|case| comparison.case(&mut faulty, case)) {
            Some(found) => println!("  found at case {:>5}: {what}", found.case),
            None => {
                println!("  NOT FOUND in {AT_ONCE} cases: {what}");
                good = false;
            }
        }
    }
    let verdict = if good { "all found" } else { "FAILED" };
    println!(
        "differential --self-test: {} faults, {verdict} (seed {seed})",
        faults.len()
    );
    good
}
