//! How fast the proved library is beside the model, both from case text to
//! report or from schedule to case text, and both without allocating.
//!
//!     bench [ROUNDS]               a table of times and ratios
//!     bench --growth               how the library's time grows
//!     bench --names                the cases' names
//!     bench --once SIDE NAME       one call of one side, for counting instructions
//!
//! The two sides take turns in each round, so that what else the machine does
//! falls on both.

mod cases;

use cases::{Case, Job};
use model::casetext;
use std::env;
use std::hint::black_box;
use std::process::ExitCode;
use std::time::{Duration, Instant};

/// What a call writes into, which is there already: the model puts a report
/// onto a vector, and all else goes into a row.
struct Out {
    vector: Vec<u8>,
    row: Vec<u8>,
}

impl Out {
    /// Takes any report and any case text; it is touched, so that it is there.
    fn new() -> Out {
        Out {
            vector: vec![1; colliemist::REPORT_BYTES],
            row: vec![1; colliemist::REPORT_BYTES],
        }
    }
}

/// What is measured: one call, which gives back what it wrote; nothing if it
/// was refused. The names are kept for callgrind, which counts only what they
/// call.
#[no_mangle]
#[inline(never)]
fn measured_model<'a>(job: &Job, out: &'a mut Out) -> &'a [u8] {
    match job {
        Job::Report(text) => {
            out.vector.clear();
            model::report::report_onto(&mut out.vector, text);
            &out.vector
        }
        Job::Write {
            claimants,
            ceiling,
            schedule,
        } => {
            let length = casetext::write(*claimants, *ceiling, schedule, &mut out.row);
            &out.row[..length.unwrap_or(0)]
        }
    }
}

#[no_mangle]
#[inline(never)]
fn measured_library<'a>(job: &Job, out: &'a mut Out) -> &'a [u8] {
    match job {
        Job::Report(text) => colliemist::report_into(text, &mut out.row).unwrap_or_default(),
        Job::Write {
            claimants,
            ceiling,
            schedule,
        } => {
            colliemist::write_into(*claimants, *ceiling, schedule, &mut out.row).unwrap_or_default()
        }
    }
}

type Side = for<'a> fn(&Job, &'a mut Out) -> &'a [u8];

/// The time of one call, taken over so many.
fn time(side: Side, job: &Job, out: &mut Out, calls: u32) -> Duration {
    let start = Instant::now();
    for _ in 0..calls {
        black_box(side(black_box(job), black_box(out)));
    }
    start.elapsed() / calls
}

/// How many calls take about a millisecond.
fn calls_a_millisecond(side: Side, job: &Job, out: &mut Out) -> u32 {
    let once = time(side, job, out, 3).max(Duration::from_nanos(1));
    (Duration::from_millis(1).as_nanos() / once.as_nanos()).clamp(1, 100_000) as u32
}

struct Measured {
    best: Duration,
    median: Duration,
}

fn measured(mut times: Vec<Duration>) -> Measured {
    times.sort();
    Measured {
        best: times[0],
        median: times[times.len() / 2],
    }
}

fn micros(time: Duration) -> f64 {
    time.as_nanos() as f64 / 1_000.0
}

/// Whether both sides write the same for a case; otherwise times mean nothing.
fn same(case: &Case) -> bool {
    let (mut ours, mut theirs) = (Out::new(), Out::new());
    let model = measured_model(&case.job, &mut ours);
    !model.is_empty() && model == measured_library(&case.job, &mut theirs)
}

/// The times of each case, the model's and the library's.
fn times(cases: &[Case], rounds: usize) -> Vec<(Vec<Duration>, Vec<Duration>)> {
    let (mut ours, mut theirs) = (Out::new(), Out::new());
    let calls: Vec<(u32, u32)> = cases
        .iter()
        .map(|case| {
            (
                calls_a_millisecond(measured_model, &case.job, &mut ours),
                calls_a_millisecond(measured_library, &case.job, &mut theirs),
            )
        })
        .collect();
    let mut times = vec![(Vec::new(), Vec::new()); cases.len()];
    for _ in 0..rounds {
        for ((case, calls), times) in cases.iter().zip(&calls).zip(&mut times) {
            let model = time(measured_model, &case.job, &mut ours, calls.0);
            let library = time(measured_library, &case.job, &mut theirs, calls.1);
            times.0.push(model);
            times.1.push(library);
        }
    }
    times
}

fn compare(rounds: usize) -> bool {
    let cases = cases::all();
    if let Some(case) = cases.iter().find(|case| !same(case)) {
        println!("bench: FAILED: the sides differ on {}", case.name);
        return false;
    }
    let times = times(&cases, rounds);
    println!("One call: a report, from case text to printed bytes, or a case text written from its schedule;");
    println!("{rounds} rounds, the sides taking turns.");
    println!("Times in microseconds; a ratio under 1 means that the library is faster.\n");
    println!("| case | bytes | entries | model best | median | library best | median | ratio best | median | library entries a second |");
    println!("|---|---:|---:|---:|---:|---:|---:|---:|---:|---:|");
    for (case, (model, library)) in cases.iter().zip(times) {
        print_times(case, measured(model), measured(library));
    }
    true
}

/// A line of the table.
fn print_times(case: &Case, model: Measured, library: Measured) {
    let a_second = match case.entries {
        0 => String::from("-"),
        entries => format!("{:.1} million", entries as f64 / micros(library.best)),
    };
    println!(
        "| {} | {} | {} | {:.2} | {:.2} | {:.2} | {:.2} | {:.2} | {:.2} | {a_second} |",
        case.what,
        case.bytes,
        case.entries,
        micros(model.best),
        micros(model.median),
        micros(library.best),
        micros(library.median),
        micros(library.best) / micros(model.best),
        micros(library.median) / micros(model.median),
    );
}

/// The time of the library's reports by the number of claimants and by that of
/// entries.
fn growth() {
    let mut out = Out::new();
    let mut best = |text: Vec<u8>| {
        let job = Job::Report(text);
        let calls = calls_a_millisecond(measured_library, &job, &mut out);
        let times = (0..25)
            .map(|_| time(measured_library, &job, &mut out, calls))
            .collect();
        micros(measured(times).best)
    };
    println!("The library's best time in microseconds, by claimants (2,048 entries):\n");
    println!("| claimants | time | nanoseconds an entry |\n|---:|---:|---:|");
    for claimants in [1, 2, 4, 8, 16, 32, 64] {
        let time = best(cases::schedule(claimants, 2_048));
        println!(
            "| {claimants} | {time:.2} | {:.1} |",
            time * 1_000.0 / 2_048.0
        );
    }
    println!("\nThe same by entries (8 claimants):\n");
    println!("| entries | time | nanoseconds an entry |\n|---:|---:|---:|");
    for entries in [0, 32, 128, 512, 1_024, 2_048] {
        let time = best(cases::schedule(8, entries));
        let each = if entries == 0 {
            String::from("-")
        } else {
            format!("{:.1}", time * 1_000.0 / entries as f64)
        };
        println!("| {entries} | {time:.2} | {each} |");
    }
}

/// One call of one side.
fn once(side: &str, name: &str) -> bool {
    let Some(case) = cases::all().into_iter().find(|case| case.name == name) else {
        println!("bench: no case is called {name}");
        return false;
    };
    let side: Side = match side {
        "model" => measured_model,
        "library" => measured_library,
        _ => {
            println!("bench: no side is called {side}");
            return false;
        }
    };
    let mut out = Out::new();
    let length = side(&case.job, &mut out).len();
    println!("{length}");
    length > 0
}

fn main() -> ExitCode {
    let args: Vec<String> = env::args().skip(1).collect();
    let words: Vec<&str> = args.iter().map(String::as_str).collect();
    let good = match words[..] {
        ["--once", side, name] => once(side, name),
        ["--growth"] => {
            growth();
            true
        }
        ["--names"] => {
            for case in cases::all() {
                println!("{} {}", case.name, case.entries);
            }
            true
        }
        [] => compare(101),
        [rounds] if rounds.parse::<usize>().is_ok_and(|rounds| rounds > 0) => {
            compare(rounds.parse().expect("it was tried"))
        }
        _ => {
            println!("bench [ROUNDS] | --growth | --names | --once SIDE NAME");
            false
        }
    };
    if good {
        ExitCode::SUCCESS
    } else {
        ExitCode::FAILURE
    }
}
