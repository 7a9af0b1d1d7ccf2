//! One claimant's record: what it may hold at each place, and what ask, step
//! and leave do to it.

/// The most claimants a table has.
pub const MOST_CLAIMANTS: usize = 64;

/// Names for the places 0 to 12.
pub mod place {
    pub const REST: u8 = 0;
    pub const SIGN: u8 = 1;
    pub const RAISE: u8 = 2;
    pub const SCAN: u8 = 3;
    pub const TAKE: u8 = 4;
    pub const LOWER: u8 = 5;
    pub const SEE_CHOOSING: u8 = 6;
    pub const SEE_CHOOSERS_SESSION: u8 = 7;
    pub const SEE_TOKEN: u8 = 8;
    pub const SEE_HOLDERS_SESSION: u8 = 9;
    pub const INSIDE: u8 = 10;
    pub const DROP_TOKEN: u8 = 11;
    pub const CLEAR_SESSION: u8 = 12;
}
use place::*;

/// The three shared registers of a claimant and what it keeps to itself.
///
/// The fields are wide enough to hold what no table reached by calls holds;
/// [`Claimant::sound`] says which records are well-formed.
#[derive(Clone, Copy, Debug, Default, PartialEq, Eq, Hash)]
pub struct Claimant {
    /// Shared: 0 for no claim.
    pub session: u16,
    /// Shared: 1 while it chooses its token.
    pub choosing: u8,
    /// Shared: 0 for none.
    pub token: u32,
    /// Private: where it is, 0 to 12.
    pub place: u8,
    /// Private: the session it asked for.
    pub want: u16,
    /// Private: the row it looks at, or 0.
    pub other: u8,
    /// Private: the largest token read so far.
    pub seen: u32,
}

/// Why something was refused; the numbers are document 01's.
#[derive(Clone, Copy, Debug, PartialEq, Eq, Hash)]
#[repr(u8)]
pub enum Refusal {
    RowLength = 1,
    NoCeiling = 2,
    BrokenTable = 3,
    NoSuchClaimant = 4,
    NoSession = 5,
    NotAtRest = 6,
    NotInside = 7,
    NothingToStep = 8,
    BadEntry = 9,
    ShortRow = 10,
    LongText = 11,
    BadLine = 12,
    TooManyLines = 13,
}

impl Refusal {
    pub fn number(self) -> u8 {
        self as u8
    }
}

/// What a call answers.
#[derive(Clone, Copy, Debug, PartialEq, Eq, Hash)]
pub enum Answer {
    Reached(u8),
    TurnedAway,
    Refused(Refusal),
}

impl Answer {
    /// The answer as a byte: the place, 31, or 32 + the refusal's number.
    pub fn byte(self) -> u8 {
        match self {
            Answer::Reached(place) => place,
            Answer::TurnedAway => 31,
            Answer::Refused(refusal) => 32 + refusal.number(),
        }
    }
}

/// A shared register, of a row that is said beside it.
#[derive(Clone, Copy, Debug, PartialEq, Eq)]
pub enum Register {
    Choosing,
    Session,
    Token,
}

/// The kinds of content that document 01's table allows a field.
#[derive(Clone, Copy)]
enum Kind {
    /// Exactly 0.
    Zero,
    /// Exactly 1.
    One,
    /// At least 1.
    Some,
    /// The record's own want.
    Want,
    /// 1 to N.
    Row,
    /// 1 to the ceiling.
    Token,
    /// 0 to the ceiling.
    Seen,
}

/// What each field may hold at one place.
struct Allowed {
    session: Kind,
    want: Kind,
    choosing: Kind,
    token: Kind,
    other: Kind,
    seen: Kind,
}

/// A row of the table below, in the order session, want, choosing, token,
/// other, seen.
const fn allowed(kinds: [Kind; 6]) -> Allowed {
    let [session, want, choosing, token, other, seen] = kinds;
    Allowed {
        session,
        want,
        choosing,
        token,
        other,
        seen,
    }
}

/// What a record may hold at each place: one row for each of the thirteen.
#[rustfmt::skip]
const ALLOWED: [Allowed; 13] = {
    use Kind::*;
    [
        //       session want choosing token other seen
        allowed([Zero,   Zero, Zero,   Zero,  Zero, Zero]), // 0 rest
        allowed([Zero,   Some, Zero,   Zero,  Zero, Zero]), // 1 sign
        allowed([Want,   Some, Zero,   Zero,  Zero, Zero]), // 2 raise
        allowed([Want,   Some, One,    Zero,  Row,  Seen]), // 3 scan
        allowed([Want,   Some, One,    Zero,  Zero, Seen]), // 4 take
        allowed([Want,   Some, One,    Token, Zero, Zero]), // 5 lower
        allowed([Want,   Some, Zero,   Token, Row,  Zero]), // 6
        allowed([Want,   Some, Zero,   Token, Row,  Zero]), // 7
        allowed([Want,   Some, Zero,   Token, Row,  Zero]), // 8
        allowed([Want,   Some, Zero,   Token, Row,  Zero]), // 9
        allowed([Want,   Some, Zero,   Token, Zero, Zero]), // 10 inside
        allowed([Want,   Some, Zero,   Token, Zero, Zero]), // 11
        allowed([Want,   Some, Zero,   Zero,  Zero, Zero]), // 12
    ]
};

/// Two sessions conflict if both are nonzero and differ.
pub fn conflict(a: u16, b: u16) -> bool {
    a != 0 && b != 0 && a != b
}

/// Refusals 1 and 2, which every call meets first.
pub fn check_setting(n: usize, ceiling: u32) -> Result<(), Refusal> {
    if n == 0 || n > MOST_CLAIMANTS {
        Err(Refusal::RowLength)
    } else if ceiling == 0 {
        Err(Refusal::NoCeiling)
    } else {
        Ok(())
    }
}

impl Claimant {
    /// Whether this record is well-formed in a table of `n` under `ceiling`.
    pub fn sound(&self, n: usize, ceiling: u32) -> bool {
        let Some(allowed) = ALLOWED.get(self.place as usize) else {
            return false;
        };
        let fits = |kind: Kind, value: u32| match kind {
            Kind::Zero => value == 0,
            Kind::One => value == 1,
            Kind::Some => value >= 1,
            Kind::Want => value == self.want.into(),
            Kind::Row => 1 <= value && value as usize <= n,
            Kind::Token => 1 <= value && value <= ceiling,
            Kind::Seen => value <= ceiling,
        };
        fits(allowed.session, self.session.into())
            && fits(allowed.want, self.want.into())
            && fits(allowed.choosing, self.choosing.into())
            && fits(allowed.token, self.token)
            && fits(allowed.other, self.other.into())
            && fits(allowed.seen, self.seen)
    }

    /// The register that the next step reads, and of which row; none at a
    /// place that writes, at rest and inside.
    pub fn reads(&self) -> Option<(Register, u8)> {
        match self.place {
            SCAN | SEE_TOKEN => Some((Register::Token, self.other)),
            SEE_CHOOSING => Some((Register::Choosing, self.other)),
            SEE_CHOOSERS_SESSION | SEE_HOLDERS_SESSION => Some((Register::Session, self.other)),
            _ => None,
        }
    }

    /// The value of one of the three registers.
    pub fn register(&self, register: Register) -> u32 {
        match register {
            Register::Choosing => self.choosing.into(),
            Register::Session => self.session.into(),
            Register::Token => self.token,
        }
    }

    /// The rule of ask, for a record on its own.
    pub fn ask(&mut self, n: usize, ceiling: u32, number: u32, session: u16) -> Answer {
        match self.check(n, ceiling, number, None) {
            Ok(()) => self.asked(session),
            Err(refusal) => Answer::Refused(refusal),
        }
    }

    /// The rule of step, for a record on its own, given the value it reads.
    pub fn step(&mut self, n: usize, ceiling: u32, number: u32, value: u32) -> Answer {
        match self.check(n, ceiling, number, Some(value)) {
            Ok(()) => self.stepped(n, ceiling, number, value),
            Err(refusal) => Answer::Refused(refusal),
        }
    }

    /// The rule of leave, for a record on its own.
    pub fn leave(&mut self, n: usize, ceiling: u32, number: u32) -> Answer {
        match self.check(n, ceiling, number, None) {
            Ok(()) => self.left(),
            Err(refusal) => Answer::Refused(refusal),
        }
    }

    /// Refusals 1 to 4 for a record on its own. `value` is given for a step,
    /// and is judged only where the step reads.
    fn check(
        &self,
        n: usize,
        ceiling: u32,
        number: u32,
        value: Option<u32>,
    ) -> Result<(), Refusal> {
        check_setting(n, ceiling)?;
        let holdable = match (self.reads(), value) {
            (Some((Register::Choosing, _)), Some(value)) => value <= 1,
            (Some((Register::Session, _)), Some(value)) => value <= 65_535,
            (Some((Register::Token, _)), Some(value)) => value <= ceiling,
            _ => true,
        };
        if !self.sound(n, ceiling) || !holdable {
            Err(Refusal::BrokenTable)
        } else if number == 0 || number as usize > n {
            Err(Refusal::NoSuchClaimant)
        } else {
            Ok(())
        }
    }

    /// Ask, once refusals 1 to 4 are ruled out.
    pub fn asked(&mut self, session: u16) -> Answer {
        if session == 0 {
            return Answer::Refused(Refusal::NoSession);
        }
        if self.place != REST {
            return Answer::Refused(Refusal::NotAtRest);
        }
        self.want = session;
        self.reach(SIGN)
    }

    /// Leave, once refusals 1 to 4 are ruled out.
    pub fn left(&mut self) -> Answer {
        if self.place != INSIDE {
            return Answer::Refused(Refusal::NotInside);
        }
        self.reach(DROP_TOKEN)
    }

    /// Step, once refusals 1 to 4 are ruled out: one read or one write.
    pub fn stepped(&mut self, n: usize, ceiling: u32, number: u32, value: u32) -> Answer {
        match self.place {
            SIGN => {
                self.session = self.want;
                self.reach(RAISE)
            }
            RAISE => {
                self.choosing = 1;
                self.other = 1;
                self.seen = 0;
                self.reach(SCAN)
            }
            SCAN => {
                self.seen = self.seen.max(value);
                self.next_row(n, SCAN, TAKE)
            }
            TAKE if self.seen < ceiling => {
                self.token = self.seen + 1;
                self.seen = 0;
                self.reach(LOWER)
            }
            TAKE => {
                self.choosing = 0;
                self.seen = 0;
                self.place = CLEAR_SESSION;
                Answer::TurnedAway
            }
            LOWER => {
                self.choosing = 0;
                self.other = 1;
                self.reach(SEE_CHOOSING)
            }
            SEE_CHOOSING if value == 0 => self.reach(SEE_TOKEN),
            SEE_CHOOSING => self.reach(SEE_CHOOSERS_SESSION),
            SEE_CHOOSERS_SESSION if self.at_odds_with(value) => self.reach(SEE_CHOOSING),
            SEE_CHOOSERS_SESSION => self.reach(SEE_TOKEN),
            SEE_TOKEN if value == 0 || (self.token, number) < (value, self.other.into()) => {
                self.pass(n)
            }
            SEE_TOKEN => self.reach(SEE_HOLDERS_SESSION),
            SEE_HOLDERS_SESSION if self.at_odds_with(value) => self.reach(SEE_TOKEN),
            SEE_HOLDERS_SESSION => self.pass(n),
            DROP_TOKEN => {
                self.token = 0;
                self.reach(CLEAR_SESSION)
            }
            CLEAR_SESSION => {
                self.session = 0;
                self.want = 0;
                self.reach(REST)
            }
            // At rest and inside; a sound record is nowhere else.
            _ => Answer::Refused(Refusal::NothingToStep),
        }
    }

    /// Done with the row it waited at: on to the next one, or inside.
    pub fn pass(&mut self, n: usize) -> Answer {
        self.next_row(n, SEE_CHOOSING, INSIDE)
    }

    /// On to the next row and place `next`, or past the last to place `done`.
    fn next_row(&mut self, n: usize, next: u8, done: u8) -> Answer {
        if self.other as usize == n {
            self.other = 0;
            self.reach(done)
        } else {
            self.other += 1;
            self.reach(next)
        }
    }

    /// Whether a Session read conflicts with the session it wants.
    fn at_odds_with(&self, session: u32) -> bool {
        session != 0 && session != self.want.into()
    }

    fn reach(&mut self, place: u8) -> Answer {
        self.place = place;
        Answer::Reached(place)
    }
}

#[cfg(test)]
mod tests {
    use super::*;

    /// A record that is sound at `place` for N = 2 and ceiling 9.
    fn at(place: u8) -> Claimant {
        let held = |yes: bool, value: u32| if yes { value } else { 0 };
        Claimant {
            session: held(place >= 2, 7) as u16,
            choosing: held((3..=5).contains(&place), 1) as u8,
            token: held((5..=11).contains(&place), 4),
            place,
            want: held(place >= 1, 7) as u16,
            other: held(place == 3 || (6..=9).contains(&place), 2) as u8,
            seen: held(place == 3 || place == 4, 9),
        }
    }

    #[test]
    fn each_field_is_judged_at_each_place() {
        for place in 0..=12 {
            let good = at(place);
            assert!(good.sound(2, 9), "place {place}");
            let signed = place >= 2;
            let walks = place == 3 || (6..=9).contains(&place);
            let held = (5..=11).contains(&place);
            let scans = place == 3 || place == 4;
            for session in [0, 7, 8] {
                let fits = session == if signed { 7 } else { 0 };
                assert_eq!(
                    Claimant { session, ..good }.sound(2, 9),
                    fits,
                    "place {place}"
                );
            }
            for choosing in [0, 1, 2] {
                let fits = choosing == good.choosing;
                assert_eq!(
                    Claimant { choosing, ..good }.sound(2, 9),
                    fits,
                    "place {place}"
                );
            }
            for token in [0, 1, 9, 10] {
                let fits = if held {
                    (1..=9).contains(&token)
                } else {
                    token == 0
                };
                assert_eq!(
                    Claimant { token, ..good }.sound(2, 9),
                    fits,
                    "place {place}"
                );
            }
            for other in [0, 1, 2, 3] {
                let fits = if walks {
                    other == 1 || other == 2
                } else {
                    other == 0
                };
                assert_eq!(
                    Claimant { other, ..good }.sound(2, 9),
                    fits,
                    "place {place}"
                );
            }
            for seen in [0, 9, 10] {
                let fits = if scans { seen <= 9 } else { seen == 0 };
                assert_eq!(Claimant { seen, ..good }.sound(2, 9), fits, "place {place}");
            }
            let nothing_wanted = Claimant {
                session: 0,
                want: 0,
                ..good
            };
            assert_eq!(nothing_wanted.sound(2, 9), place == 0);
        }
        assert!(!Claimant {
            place: 13,
            ..Claimant::default()
        }
        .sound(2, 9));
    }

    #[test]
    fn a_rule_refuses_in_order_and_gives_the_record_back() {
        let broken = Claimant { other: 9, ..at(8) };
        let refused = |n, ceiling, number, value, record: Claimant| {
            let mut after = record;
            let answer = after.step(n, ceiling, number, value);
            assert_eq!(after, record);
            answer.byte()
        };
        assert_eq!(refused(0, 0, 0, 99, broken), 33);
        assert_eq!(refused(65, 0, 0, 99, broken), 33);
        assert_eq!(refused(2, 0, 0, 99, broken), 34);
        assert_eq!(refused(2, 9, 0, 1, broken), 35);
        assert_eq!(refused(2, 9, 0, 99, at(8)), 35);
        assert_eq!(refused(2, 9, 0, 1, at(8)), 36);
        assert_eq!(refused(2, 9, 3, 1, at(8)), 36);
        assert_eq!(refused(2, 9, 1, 99, at(10)), 40);
        assert_eq!(at(10).ask(2, 9, 3, 0).byte(), 36);
        assert_eq!(at(10).ask(2, 9, 2, 0).byte(), 37);
        assert_eq!(at(10).ask(2, 9, 2, 1).byte(), 38);
        assert_eq!(at(9).leave(2, 9, 2).byte(), 39);
    }

    #[test]
    fn a_value_no_register_holds_is_refused_only_where_it_is_read() {
        let worst = [1, 65_535, 9];
        for place in 0..=12 {
            let most = match at(place).reads() {
                Some((Register::Choosing, _)) => worst[0],
                Some((Register::Session, _)) => worst[1],
                Some((Register::Token, _)) => worst[2],
                None => u32::MAX,
            };
            assert_ne!(at(place).step(2, 9, 1, most).byte(), 35);
            if most < u32::MAX {
                assert_eq!(at(place).step(2, 9, 1, most + 1).byte(), 35);
            }
        }
    }
}
