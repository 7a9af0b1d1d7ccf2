//! Document 01's situations P1 to P12, its unmarked ones, and its bounds on
//! waiting, on the model.

use crate::claimant::{place, Answer, Claimant};
use crate::report::report;
use crate::table::{self, Call};

/// A freshly opened table, with the calls a situation makes.
struct Board {
    rows: Vec<Claimant>,
    ceiling: u32,
}

impl Board {
    fn open(n: usize, ceiling: u32) -> Board {
        let mut rows = vec![Claimant::default(); n];
        table::open(&mut rows, ceiling).unwrap();
        Board { rows, ceiling }
    }

    fn call(&mut self, who: u32, call: Call) -> u8 {
        table::call(&mut self.rows, self.ceiling, who, call).byte()
    }

    fn ask(&mut self, who: u32, session: u16) -> u8 {
        self.call(who, Call::Ask(session))
    }

    fn step(&mut self, who: u32) -> u8 {
        self.call(who, Call::Step)
    }

    fn leave(&mut self, who: u32) -> u8 {
        self.call(who, Call::Leave)
    }

    /// The answers of `count` steps of `who`.
    fn steps(&mut self, who: u32, count: usize) -> Vec<u8> {
        (0..count).map(|_| self.step(who)).collect()
    }

    /// Steps `who` until it answers `place`; how many steps that took.
    fn step_to(&mut self, who: u32, place: u8) -> usize {
        (1..=1_000)
            .find(|_| self.step(who) == place)
            .expect("the place is reached")
    }

    fn of(&self, who: u32) -> Claimant {
        self.rows[who as usize - 1]
    }

    fn standing(&self, a: u32, b: u32) -> i64 {
        table::standing(&self.rows, self.ceiling, a, b).unwrap()
    }
}

fn lines(text: &str) -> Vec<String> {
    String::from_utf8(report(text.as_bytes()))
        .unwrap()
        .lines()
        .map(String::from)
        .collect()
}

#[test]
fn p1_the_run_of_the_listing() {
    let steps = |count| "do=step 1\n".repeat(count);
    let text = format!(
        "claimants=1\nceiling=1\ndo=ask 1 7\n{}do=leave 1\n{}",
        steps(8),
        steps(2)
    );
    let printed = "\
at=1 who=1 place=1 session=0 raised=0 token=0 answer=1
at=2 who=1 place=2 session=7 raised=0 token=0 answer=2
at=3 who=1 place=3 session=7 raised=1 token=0 answer=3
at=4 who=1 place=4 session=7 raised=1 token=0 answer=4
at=5 who=1 place=5 session=7 raised=1 token=1 answer=5
at=6 who=1 place=6 session=7 raised=0 token=1 answer=6
at=7 who=1 place=8 session=7 raised=0 token=1 answer=8
at=8 who=1 place=9 session=7 raised=0 token=1 answer=9
at=9 who=1 place=10 session=7 raised=0 token=1 answer=10
at=10 who=1 place=11 session=7 raised=0 token=1 answer=11
at=11 who=1 place=12 session=7 raised=0 token=0 answer=12
at=12 who=1 place=0 session=0 raised=0 token=0 answer=0
end=12
";
    assert_eq!(String::from_utf8(report(text.as_bytes())).unwrap(), printed);
}

#[test]
fn p2_three_claimants_fourteen_steps() {
    for who in 1..=3 {
        let mut board = Board::open(3, 5);
        board.ask(who, 7);
        assert_eq!(board.step_to(who, place::INSIDE), 14);
    }
}

#[test]
fn p3_equal_tokens_go_by_number() {
    let mut board = Board::open(2, 9);
    board.ask(1, 7);
    board.ask(2, 8);
    board.step_to(1, place::TAKE);
    board.step_to(2, place::TAKE);
    board.step_to(1, place::SEE_CHOOSING);
    board.step_to(2, place::SEE_CHOOSING);
    assert_eq!((board.of(1).token, board.of(2).token), (1, 1));
    assert_eq!((board.standing(1, 2), board.standing(2, 1)), (-1, 1));
    board.step_to(1, place::INSIDE);
    assert_eq!(board.steps(2, 6), [8, 9, 8, 9, 8, 9]);
    assert_eq!(board.of(2).other, 1);
}

/// Claimant 1 of session 7 at 6 and looking at claimant 2, which is raised.
fn looking_at_a_raised_claimant(session: u16) -> Board {
    let mut board = Board::open(2, 9);
    board.ask(1, 7);
    board.ask(2, session);
    board.step_to(2, place::SCAN);
    board.step_to(1, place::SEE_CHOOSING);
    assert_eq!(board.steps(1, 3), [8, 9, 6]);
    assert_eq!((board.of(1).other, board.of(2).choosing), (2, 1));
    board
}

#[test]
fn p4_a_conflicting_chooser_is_waited_for() {
    assert_eq!(looking_at_a_raised_claimant(8).steps(1, 4), [7, 6, 7, 6]);
}

#[test]
fn p5_a_chooser_of_the_same_session_is_not() {
    assert_eq!(looking_at_a_raised_claimant(7).steps(1, 2), [7, 8]);
}

#[test]
fn p6_turned_away_at_the_ceiling() {
    let mut board = Board::open(2, 1);
    board.ask(1, 7);
    board.step_to(1, place::INSIDE);
    board.ask(2, 7);
    board.step_to(2, place::TAKE);
    assert_eq!(board.step(2), 31);
    let away = Claimant {
        place: 12,
        session: 7,
        want: 7,
        ..Claimant::default()
    };
    assert_eq!(board.of(2), away);
    assert_eq!(board.step(2), 0);
    assert_eq!(board.of(2), Claimant::default());
}

#[test]
fn p7_no_joining_past_a_waiting_claimant() {
    let mut board = Board::open(3, 9);
    for (who, session) in [(1, 7), (2, 8), (3, 7)] {
        board.ask(who, session);
        board.step_to(who, place::SEE_CHOOSING);
        if who == 1 {
            board.step_to(who, place::INSIDE);
        }
    }
    let tokens: Vec<u32> = board.rows.iter().map(|record| record.token).collect();
    assert_eq!(tokens, [1, 2, 3]);
    board.steps(2, 20);
    assert_eq!((board.of(2).other, board.of(1).place), (1, place::INSIDE));
    board.steps(3, 20);
    assert_eq!(board.of(3).other, 2);
    assert!([8, 9].contains(&board.of(3).place));
}

#[test]
fn p8_session_0_comes_before_not_at_rest() {
    let mut board = Board::open(1, 1);
    board.ask(1, 7);
    let before = board.of(1);
    assert_eq!(board.ask(1, 0), 32 + 5);
    assert_eq!(board.ask(1, 7), 32 + 6);
    assert_eq!(board.of(1), before);
}

#[test]
fn p9_leave_at_9_and_step_at_10() {
    let mut board = Board::open(1, 1);
    board.ask(1, 7);
    board.step_to(1, place::SEE_HOLDERS_SESSION);
    assert_eq!(board.leave(1), 32 + 7);
    board.step_to(1, place::INSIDE);
    assert_eq!(board.step(1), 32 + 8);
}

#[test]
fn p10_entries_as_numbers() {
    assert_eq!(table::decode(16_842_759), Ok((1, Call::Ask(7))));
    assert_eq!(table::decode(33_619_968), Ok((1, Call::Leave)));
    assert_eq!(table::encode(1, Call::Ask(7)), 16_842_759);
    assert_eq!(table::encode(1, Call::Leave), 33_619_968);
    let mut board = Board::open(1, 1);
    let mut answers = [99; 4];
    table::run(
        &mut board.rows,
        1,
        &[16_842_759, 50_397_184, 33_619_968],
        &mut answers,
    )
    .unwrap();
    assert_eq!(answers, [1, 41, 39, 99]);
    // 9 comes before 4, and a session with a step or a leave is 9.
    let schedule = [0x0309_0000, 0x0001_0001, 0x0201_0001, 0x0009_0000];
    table::run(&mut board.rows, 1, &schedule, &mut answers).unwrap();
    assert_eq!(answers, [41, 41, 41, 36]);
}

#[test]
fn p11_the_standing_of_far_tokens() {
    let inside = |session, token| Claimant {
        session,
        token,
        place: place::INSIDE,
        want: session,
        ..Claimant::default()
    };
    let board = Board {
        rows: vec![inside(7, u32::MAX), inside(8, 1)],
        ceiling: u32::MAX,
    };
    assert_eq!(board.standing(1, 2), 4_294_967_294);
    assert_eq!(board.standing(2, 1), -4_294_967_294);
    assert_eq!(board.standing(1, 1), 0);
    let refused = |ceiling, a, b| {
        table::standing(&board.rows, ceiling, a, b)
            .unwrap_err()
            .number()
    };
    assert_eq!((refused(0, 0, 0), refused(1, 0, 0)), (2, 3));
    assert_eq!((refused(u32::MAX, 0, 1), refused(u32::MAX, 1, 3)), (4, 4));
}

#[test]
fn p12_an_empty_schedule_changes_nothing() {
    let mut board = looking_at_a_raised_claimant(8);
    let before = board.rows.clone();
    let mut answers = [99; 2];
    table::run(&mut board.rows, board.ceiling, &[], &mut answers).unwrap();
    assert_eq!((board.rows, answers), (before, [99; 2]));
}

#[test]
fn a_run_is_refused_in_order_and_changes_nothing() {
    let run = |rows: &[Claimant], ceiling| {
        let (mut after, mut answers) = (rows.to_vec(), [99; 1]);
        let refusal = table::run(&mut after, ceiling, &[0, 0], &mut answers).unwrap_err();
        assert_eq!((&after[..], answers), (rows, [99]));
        refusal.number()
    };
    let broken = Claimant {
        place: 13,
        ..Claimant::default()
    };
    assert_eq!(run(&[], 0), 1);
    assert_eq!(run(&[broken; 65], 0), 1);
    assert_eq!(run(&[broken; 2], 0), 2);
    assert_eq!(run(&[Claimant::default(), broken], 1), 3);
    assert_eq!(run(&[Claimant::default(); 2], 1), 10);
}

#[test]
fn the_most_claimants_and_one_more() {
    assert_eq!(
        lines("claimants=64\nceiling=1\ndo=step 64\ndo=step 65\n"),
        [
            "at=1 who=64 place=0 session=0 raised=0 token=0 answer=40",
            "at=2 who=65 place=0 session=0 raised=0 token=0 answer=36",
            "end=2",
        ]
    );
    assert_eq!(lines("claimants=65\nceiling=0\n"), ["refused=1 line=1"]);
    assert_eq!(lines("claimants=0\nceiling=0\n"), ["refused=1 line=1"]);
    assert_eq!(
        lines("claimants=4294967295\nceiling=0\n"),
        ["refused=1 line=1"]
    );
    assert_eq!(lines("claimants=64\nceiling=0\n"), ["refused=2 line=2"]);
    assert_eq!(lines("claimants=65\nceiling=0\nx"), ["refused=12 line=3"]);
    assert_eq!(lines("claimants=1\nceiling=1\n"), ["end=0"]);
}

#[test]
fn alone_it_takes_3n_and_5_and_two_to_rest() {
    for n in 1..=64 {
        for who in [1, n / 2 + 1, n] {
            let mut board = Board::open(n as usize, 1);
            board.ask(who, 7);
            assert_eq!(board.step_to(who, place::INSIDE), 3 * n as usize + 5);
            board.leave(who);
            assert_eq!(board.steps(who, 2), [12, 0]);
        }
    }
}

#[test]
fn with_no_conflict_at_most_5n_and_3() {
    // Before each step of `who` the others of its session make some of their
    // own, as a small generator of numbers says.
    let mut state = 1u64;
    let mut below = move |most: u64| {
        state = state
            .wrapping_mul(6_364_136_223_846_793_005)
            .wrapping_add(1_442_695_040_888_963_407);
        (state >> 33) % most
    };
    for round in 0..400 {
        let n = 2 + round % 6;
        let who = 1 + below(n) as u32;
        let mut board = Board::open(n as usize, u32::MAX);
        board.ask(who, 7);
        let mut own = 0;
        while board.of(who).place != place::INSIDE {
            for _ in 0..below(30) {
                let other = 1 + below(n) as u32;
                if other != who {
                    let call = match board.of(other).place {
                        place::REST => Call::Ask(7),
                        place::INSIDE => Call::Leave,
                        _ => Call::Step,
                    };
                    board.call(other, call);
                }
            }
            assert_ne!(
                table::perform(&mut board.rows, u32::MAX, who, Call::Step),
                Answer::TurnedAway
            );
            own += 1;
            assert!(own <= 5 * n + 3);
        }
    }
}
