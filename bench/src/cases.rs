//! What is measured: reports of case texts, and case texts written.

use model::casetext::{self, MOST_BYTES, MOST_DO_LINES};
use model::claimant::{place::*, Claimant};
use model::table::{perform, Call};

pub struct Case {
    /// For the command line.
    pub name: &'static str,
    /// For the table.
    pub what: &'static str,
    pub job: Job,
    /// How many bytes the case text has that is read or written.
    pub bytes: usize,
    /// How many entries are run or written.
    pub entries: usize,
}

/// What one call does.
pub enum Job {
    /// The report of a case text.
    Report(Vec<u8>),
    /// The case text of a schedule.
    Write {
        claimants: u32,
        ceiling: u32,
        schedule: Vec<u32>,
    },
}

pub fn all() -> Vec<Case> {
    let most = MOST_DO_LINES;
    vec![
        report("n2", "long schedule, N = 2", schedule(2, most)),
        report("n8", "long schedule, N = 8", schedule(8, most)),
        report("n64", "long schedule, N = 64", schedule(64, most)),
        report("largest", "the largest case text", largest()),
        report(
            "reader",
            "a line too many (reader alone)",
            schedule(8, most + 1),
        ),
        report("listing", "document 01's listing", listing()),
        write("write-n8", "write: long schedule, N = 8", schedule(8, most)),
        write("write-largest", "write: the largest case text", largest()),
    ]
}

fn report(name: &'static str, what: &'static str, text: Vec<u8>) -> Case {
    let mut entries = [0; MOST_DO_LINES];
    Case {
        name,
        what,
        bytes: text.len(),
        entries: casetext::read(&text, &mut entries).map_or(0, |case| case.entries),
        job: Job::Report(text),
    }
}

/// Writing a text again, from what it says.
fn write(name: &'static str, what: &'static str, text: Vec<u8>) -> Case {
    let mut entries = [0; MOST_DO_LINES];
    let case = casetext::read(&text, &mut entries).expect("a good text");
    Case {
        name,
        what,
        bytes: text.len(),
        entries: case.entries,
        job: Job::Write {
            claimants: case.claimants,
            ceiling: case.ceiling,
            schedule: entries[..case.entries].to_vec(),
        },
    }
}

fn listing() -> Vec<u8> {
    let steps = |count| "do=step 1\n".repeat(count);
    let text = format!(
        "claimants=1\nceiling=1\ndo=ask 1 7\n{}do=leave 1\n{}",
        steps(8),
        steps(2)
    );
    text.into_bytes()
}

/// A schedule in which up to four of the claimants, under two sessions, get
/// inside, wait for each other and leave, in turns of uneven length.
pub fn schedule(claimants: u32, lines: usize) -> Vec<u8> {
    let ceiling = u32::MAX;
    let mut text = format!("claimants={claimants}\nceiling={ceiling}\n");
    let mut rows = vec![Claimant::default(); claimants as usize];
    let actors: Vec<u32> = match claimants {
        1..=4 => (1..=claimants).collect(),
        5..=16 => vec![1, claimants / 3, 2 * claimants / 3, claimants],
        _ => vec![1, claimants / 2, claimants],
    };
    let mut state = 1u64;
    let mut below = |end: u64| {
        state = state
            .wrapping_mul(6_364_136_223_846_793_005)
            .wrapping_add(1);
        (state >> 33) % end
    };
    let mut written = 0;
    while written < lines {
        let who = actors[below(actors.len() as u64) as usize];
        for _ in 0..=below(2 * u64::from(claimants) + 6) {
            if written == lines {
                break;
            }
            let call = match rows[who as usize - 1].place {
                REST => Call::Ask(7 + who as u16 % 2),
                INSIDE => Call::Leave,
                _ => Call::Step,
            };
            perform(&mut rows, ceiling, who, call);
            text += &match call {
                Call::Ask(session) => format!("do=ask {who} {session}\n"),
                Call::Leave => format!("do=leave {who}\n"),
                Call::Step => format!("do=step {who}\n"),
            };
            written += 1;
        }
    }
    text.into_bytes()
}

/// 2,048 do lines in 32,768 bytes.
fn largest() -> Vec<u8> {
    let mut text = String::from("claimants=64\nceiling=4294967295\n");
    for at in 0..MOST_DO_LINES {
        let who = 10 + at % 55;
        // Lines of 16 bytes, and as many shorter ones as the top takes bytes.
        text += &if at < 32 {
            format!("do=ask {who} 6553\n")
        } else {
            format!("do=ask {who} 65535\n")
        };
    }
    assert_eq!(text.len(), MOST_BYTES);
    text.into_bytes()
}

#[cfg(test)]
mod tests {
    use super::*;

    #[test]
    fn the_long_schedules_get_claimants_inside_and_make_them_wait() {
        let mut long = 0;
        for case in all().iter().filter(|case| case.entries == MOST_DO_LINES) {
            let Job::Report(text) = &case.job else {
                continue;
            };
            let report = String::from_utf8(model::report(text)).unwrap();
            let answers = |answer: &str| report.matches(&format!("answer={answer}\n")).count();
            long += 1;
            if case.name != "largest" {
                assert!(
                    answers("10") >= 4,
                    "{}: {} inside",
                    case.name,
                    answers("10")
                );
                assert!(answers("9") >= 40, "{}: {} waits", case.name, answers("9"));
                // Nothing is refused: the steps are what is measured.
                let refused = (33..=45)
                    .filter(|answer| answers(&answer.to_string()) > 0)
                    .count();
                assert_eq!(refused, 0, "{}", case.name);
            }
        }
        assert_eq!(long, 4);
    }
}
