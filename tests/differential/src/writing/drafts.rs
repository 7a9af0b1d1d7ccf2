//! The drafts of a run, one for each case of a seed: schedules that have a
//! text, and such as are barred, too many or too long, each with a row that
//! takes the text or is too short for it.

use super::sides::Draft;
use crate::random::Random;
use crate::schedules::lively;
use model::casetext::{self, MOST_BYTES, MOST_DO_LINES};

pub struct Drafts {
    seed: u64,
    limits: Vec<Draft>,
}

/// Numbers at the ends of ranges and at each change of their digits.
const NUMBERS: [u32; 18] = [
    0,
    1,
    9,
    10,
    63,
    64,
    65,
    99,
    100,
    255,
    256,
    999,
    65_535,
    65_536,
    999_999_999,
    1_000_000_000,
    u32::MAX - 1,
    u32::MAX,
];
const CLAIMANTS: [u32; 8] = [0, 1, 9, 10, 99, 100, 254, 255];
const SESSIONS: [u32; 11] = [0, 1, 9, 10, 99, 100, 999, 1_000, 9_999, 10_000, 65_535];

const STEP: u32 = 0;
const ASK: u32 = 1;
const LEAVE: u32 = 2;

const STEP_OF_1: u32 = 0x0001_0000;
/// Its line has 16 bytes, and 2,046 of them with a top of 32 bytes are the
/// longest text.
const ASK_10_65535: u32 = 0x010A_FFFF;
/// The longest line, of 17 bytes.
const ASK_255_65535: u32 = 0x01FF_FFFF;

fn entry(kind: u32, claimant: u32, session: u32) -> u32 {
    kind * 16_777_216 + claimant * 65_536 + session
}

/// An entry's kind, claimant and session.
pub fn fields(entry: u32) -> (u32, u32, u32) {
    (entry / 16_777_216, entry / 65_536 % 256, entry % 65_536)
}

/// Whether refusal 9 names the entry.
pub fn barred(entry: u32) -> bool {
    let (kind, _, session) = fields(entry);
    kind > LEAVE || (kind != ASK && session != 0)
}

/// How many bytes the text has; a barred entry has no line.
pub fn text_length(claimants: u32, ceiling: u32, schedule: &[u32]) -> usize {
    let top = 20 + digits(claimants) + digits(ceiling);
    let lines = schedule.iter().filter(|&&entry| !barred(entry));
    top + lines.map(|&entry| line_length(entry)).sum::<usize>()
}

fn line_length(entry: u32) -> usize {
    match fields(entry) {
        (STEP, claimant, _) => "do=step \n".len() + digits(claimant),
        (ASK, claimant, session) => "do=ask  \n".len() + digits(claimant) + digits(session),
        (_, claimant, _) => "do=leave \n".len() + digits(claimant),
    }
}

fn digits(number: u32) -> usize {
    number.checked_ilog10().unwrap_or(0) as usize + 1
}

impl Drafts {
    pub fn new(seed: u64) -> Drafts {
        Drafts {
            seed,
            limits: limits(),
        }
    }

    /// The draft of one case: first those at the limits, then random ones.
    pub fn draft(&self, case: u64) -> Draft {
        if let Some(draft) = self.limits.get(case as usize) {
            return draft.clone();
        }
        let random = &mut Random::new(self.seed, case);
        let (claimants, ceiling) = (some_number(random), some_number(random));
        let schedule = match random.below(100) {
            0..=49 => some_entries(random, 0, 40),
            50..=57 => some_lively(random),
            58..=75 => {
                let schedule = some_entries(random, 1, 40);
                with_barred(random, schedule, 0)
            }
            76..=80 => (0..random.between(1, 40))
                .map(|_| random.next() as u32)
                .collect(),
            81..=86 => some_entries(random, MOST_DO_LINES - 8, MOST_DO_LINES + 8),
            87..=93 => {
                let near = random.between(MOST_BYTES - 20, MOST_BYTES + 20);
                let length = random.pick(&[MOST_BYTES, MOST_BYTES + 1, near]);
                of_length(random, length - text_length(claimants, ceiling, &[]))
            }
            94..=95 => {
                let one = random.pick(&[ASK_10_65535, ASK_255_65535]);
                vec![one; random.between(1_900, 2_060)]
            }
            _ => too_many(random),
        };
        let room = some_room(random, text_length(claimants, ceiling, &schedule));
        Draft {
            claimants,
            ceiling,
            schedule,
            room,
        }
    }
}

fn some_number(random: &mut Random) -> u32 {
    match random.below(8) {
        0..=4 => random.pick(&NUMBERS),
        5 => random.between(1, 64) as u32,
        // As many digits as another, not as large.
        _ => random.next() as u32 >> random.below(32),
    }
}

/// A row for a text of `needed` bytes: awkward lengths on both sides of it.
fn some_room(random: &mut Random, needed: usize) -> usize {
    match random.below(12) {
        0 => 0,
        1 => needed - 1,
        2 => random.below(needed),
        3..=5 => needed,
        6 => needed + 1,
        7 | 8 => needed + random.between(2, 64),
        9 => MOST_BYTES,
        10 => MOST_BYTES + 1,
        _ => MOST_BYTES + random.below(MOST_BYTES),
    }
}

fn some_entry(random: &mut Random) -> u32 {
    let kind = random.pick(&[STEP, ASK, ASK, LEAVE]);
    let session = match (kind, random.below(2)) {
        (ASK, 0) => random.pick(&SESSIONS),
        (ASK, _) => random.below(65_536) as u32,
        _ => 0,
    };
    entry(kind, some_claimant(random), session)
}

fn some_claimant(random: &mut Random) -> u32 {
    if random.once_in(2) {
        random.pick(&CLAIMANTS)
    } else {
        random.below(256) as u32
    }
}

fn some_entries(random: &mut Random, fewest: usize, most: usize) -> Vec<u32> {
    let count = random.between(fewest, most);
    (0..count).map(|_| some_entry(random)).collect()
}

fn some_barred(random: &mut Random) -> u32 {
    let any = random.between(1, 65_535) as u32;
    let session = random.pick(&[1, 7, 65_535, any]);
    let (kind, session) = match random.below(4) {
        0 => (random.pick(&[3, 3, 4, 127, 128, 255]), 0),
        1 => (random.between(3, 255) as u32, session),
        2 => (STEP, session),
        _ => (LEAVE, session),
    };
    entry(kind, some_claimant(random), session)
}

/// Puts a few barred entries in, none of them before `first`.
fn with_barred(random: &mut Random, mut schedule: Vec<u32>, first: usize) -> Vec<u32> {
    let last = schedule.len() - 1;
    for _ in 0..random.pick(&[1, 1, 1, 2, 3]) {
        let between = random.between(first, last);
        schedule[random.pick(&[first, last, between])] = some_barred(random);
    }
    schedule
}

/// The schedule of a text in which claimants get on.
fn some_lively(random: &mut Random) -> Vec<u32> {
    let mut entries = [0; MOST_DO_LINES];
    let text = lively(random, usize::MAX).text;
    let case = casetext::read_over(&text, &mut entries).expect("a good text");
    entries[..case.entries].to_vec()
}

/// More entries than a text has, some with a barred one past the last that it
/// could have.
fn too_many(random: &mut Random) -> Vec<u32> {
    let most = random.pick(&[1, 1, 2, 60, 3_000]);
    let schedule = some_entries(random, MOST_DO_LINES + 1, MOST_DO_LINES + most);
    match random.below(4) {
        0 => with_barred(random, schedule, 0),
        1 => with_barred(random, schedule, MOST_DO_LINES),
        _ => schedule,
    }
}

/// A schedule whose lines have exactly so many bytes together.
fn of_length(random: &mut Random, bytes: usize) -> Vec<u32> {
    const SHORTEST: usize = 10;
    const LONGEST: usize = 17;
    let mut lines = random.between(bytes.div_ceil(LONGEST), MOST_DO_LINES.min(bytes / SHORTEST));
    let mut left = bytes;
    let mut schedule = Vec::new();
    while lines > 0 {
        lines -= 1;
        // The lines after this one can have what it leaves.
        let fewest = SHORTEST.max(left.saturating_sub(lines * LONGEST));
        let most = LONGEST.min(left - lines * SHORTEST);
        let length = random.between(fewest, most);
        schedule.push(of_line_length(random, length));
        left -= length;
    }
    schedule
}

/// An entry whose line has so many bytes, 10 to 17.
fn of_line_length(random: &mut Random, length: usize) -> u32 {
    const OF_DIGITS: [u32; 5] = [7, 10, 100, 1_000, 65_535];
    let number = |digits: usize| OF_DIGITS[digits - 1];
    let mut lines = Vec::new();
    for claimant in (1..=3).map(number) {
        lines.extend([entry(STEP, claimant, 0), entry(LEAVE, claimant, 0)]);
        lines.extend((1..=5).map(|digits| entry(ASK, claimant, number(digits))));
    }
    lines.retain(|&entry| line_length(entry) == length);
    random.pick(&lines)
}

/// What every run starts with: each limit, with rows that are just long enough
/// and such as are not.
fn limits() -> Vec<Draft> {
    let mut drafts = Vec::new();
    let mut add = |claimants, ceiling, schedule: Vec<u32>| {
        let needed = text_length(claimants, ceiling, &schedule);
        for room in [
            0,
            needed - 1,
            needed,
            needed + 1,
            MOST_BYTES,
            MOST_BYTES + 1,
        ] {
            drafts.push(Draft {
                claimants,
                ceiling,
                schedule: schedule.clone(),
                room,
            });
        }
    };
    for number in NUMBERS {
        add(number, 1, Vec::new());
        add(64, number, vec![STEP_OF_1]);
    }
    for schedule in one_of_each() {
        add(2, 3, schedule);
    }
    for schedule in long_ones() {
        // The top has 32, 33 or 22 bytes.
        for (claimants, ceiling) in [(64, u32::MAX), (100, u32::MAX), (0, 0)] {
            add(claimants, ceiling, schedule.clone());
        }
    }
    drafts
}

/// Entries at the ends of their fields' ranges, good and barred.
fn one_of_each() -> Vec<Vec<u32>> {
    let mut schedules = Vec::new();
    for kind in [STEP, ASK, LEAVE, 3, 255] {
        for session in [0, 1, 65_535] {
            for claimant in CLAIMANTS {
                let one = entry(kind, claimant, session);
                schedules.push(vec![one]);
                schedules.push(vec![STEP_OF_1, one, ASK_10_65535]);
            }
        }
    }
    schedules
}

/// Schedules about the most entries and the most bytes, and barred entries
/// about the last that a text has.
fn long_ones() -> Vec<Vec<u32>> {
    let mut schedules = Vec::new();
    for count in MOST_DO_LINES - 1..=MOST_DO_LINES + 2 {
        schedules.push(vec![STEP_OF_1; count]);
        schedules.push(vec![ASK_255_65535; count]);
        for at in [
            0,
            MOST_DO_LINES - 2,
            MOST_DO_LINES - 1,
            MOST_DO_LINES,
            count - 1,
        ] {
            let mut schedule = vec![STEP_OF_1; count];
            if let Some(place) = schedule.get_mut(at) {
                *place = entry(3, 1, 0);
            }
            schedules.push(schedule);
        }
    }
    schedules.push(vec![ASK_10_65535; 2_045]);
    schedules.push(vec![ASK_10_65535; 2_046]);
    schedules.push(vec![ASK_10_65535; 2_047]);
    schedules
}

#[cfg(test)]
mod tests {
    use super::*;

    #[test]
    fn the_longest_line_and_the_longest_text() {
        assert_eq!(line_length(ASK_255_65535), 17);
        let schedule = [ASK_10_65535; 2_046];
        assert_eq!(text_length(64, u32::MAX, &schedule), MOST_BYTES);
        assert_eq!(text_length(100, u32::MAX, &schedule), MOST_BYTES + 1);
    }

    #[test]
    fn schedules_have_the_length_that_is_asked_for() {
        for length in [10, 17, 20, 34, 1_000, MOST_BYTES - 22, MOST_BYTES + 9] {
            let random = &mut Random::new(1, length as u64);
            let schedule = of_length(random, length);
            assert!(schedule.len() <= MOST_DO_LINES);
            assert_eq!(text_length(0, 0, &schedule), 22 + length);
        }
    }
}
