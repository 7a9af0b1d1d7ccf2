//! Deliberate faults in the model, one at a time, of each kind that document 01
//! could be misread in. A comparison that doesn't find them finds nothing.

use model::casetext::{self, BadText, Case, MOST_BYTES, MOST_DO_LINES};
use model::claimant::{place::*, Answer, Claimant, Refusal};
use model::report::Parts;
use model::table::{self, Call};
use small::shortcuts::{perform, Memory, Shortcut};

macro_rules! faults {
    ($($name:ident: $what:expr,)*) => {
        #[derive(Clone, Copy, Debug, PartialEq, Eq)]
        pub enum Fault { Shortcut(Shortcut), $($name),* }

        /// Every fault with what is wrong, document 01's shortcuts first.
        pub fn all() -> Vec<(Fault, String)> {
            let mut all = Vec::new();
            for shortcut in Shortcut::ALL {
                all.push((Fault::Shortcut(shortcut), format!("the shortcut {}", shortcut.name())));
            }
            $(all.push((Fault::$name, String::from($what)));)*
            all
        }
    };
}

faults! {
    AskSigns: "ask writes Session",
    SignNotWritten: "1 writes nothing",
    RaiseBeforeSign: "1 raises and 2 signs",
    ScanKeepsLast: "3 keeps the last token, not the largest",
    ScanSkipsOwnRow: "3 steps over the own row",
    ScanOneRowShort: "3 ends a row early",
    TakeNotOneMore: "4 takes the largest token itself",
    CeilingOneLower: "4 turns away one below the ceiling",
    CeilingIgnored: "4 turns nobody away while a number is left",
    TurnedAwayIsTwelve: "a turned-away take answers 12",
    TurnedAwayStaysRaised: "a turned-away take leaves Choosing up",
    TurnedAwayRests: "a turned-away take goes to rest at once",
    LowerNotWritten: "5 leaves Choosing up",
    ChooserNotAwaited: "6 never looks at Choosing",
    SessionBeforeChoosing: "6 reads Session and 7 Choosing",
    HigherNumberFirst: "8 lets the higher number go first",
    HigherTokenFirst: "8 lets the higher token go first",
    OwnRowPassesAtEight: "8 passes the own row",
    PassGoesToEight: "a pass goes to 8 of the next row",
    SameSessionConflicts: "9 holds a session against itself",
    LeaveDropsToken: "leave writes Token",
    SessionClearedFirst: "11 clears Session and 12 drops the token",
    EndKeepsSession: "12 leaves Session",
    RefusedAskStays: "a refused ask moves the claimant",
    NotAtRestBeforeNoSession: "6 comes before 5",
    NoSessionBeforeNoClaimant: "5 comes before 4",
    StepInsideLeaves: "a step inside leaves",
    LeaveWhileWaiting: "leave is taken while waiting at 9",
    ClaimantZeroIsOne: "claimant 0 is claimant 1",
    ClaimantWraps: "a claimant above N wraps round",
    ZeroInFront: "a zero in front is read over",
    CarriageReturn: "CR LF ends a line",
    NoLastLineFeed: "the last LF may be missing",
    SpaceAtTheEnd: "a space at a line's end is read over",
    TwoSpaces: "two spaces are one",
    LengthOneLess: "32768 bytes are too many",
    LengthOneMore: "32769 bytes are not too many",
    LinesOneLess: "2048 do lines are too many",
    LinesOneMore: "2049 do lines are not too many",
    FullBeforeLayout: "13 is given for a bad line too",
    ClaimantRangeOneMore: "claimant 256 is read",
    SessionRangeOneMore: "session 65536 is read",
    NumberRangeOneMore: "4294967296 is read",
    LineFromZero: "lines are counted from 0",
    MissingLineTwoIsLineOne: "a missing line 2 is refused at line 1",
    OpeningBeforeText: "the opening is judged before the text",
    CeilingBeforeClaimants: "refusal 2 comes before 1",
    SixtyFiveClaimants: "64 claimants are too many",
    LongTextLineOne: "refusal 11 says line 1",
    NobodyShown: "a claimant that is none shows record 1",
    BeforeShown: "a refused call shows zeros",
    CountFromZero: "do lines are counted from 0",
    ChoosingShownAsToken: "Choosing and Token change places",
}

/// The model with one fault.
pub struct Faulty {
    pub fault: Fault,
    memory: [Memory; 64],
    /// The first record, for [`Fault::NobodyShown`].
    first: Claimant,
}

impl Faulty {
    pub fn new(fault: Fault) -> Faulty {
        Faulty {
            fault,
            memory: [None; 64],
            first: Claimant::default(),
        }
    }

    /// A step of claimant `who` at `at`, if the fault changes it.
    fn faulty_step(
        &self,
        rows: &mut [Claimant],
        ceiling: u32,
        who: u32,
        at: usize,
    ) -> Option<Answer> {
        let step = Step {
            fault: self.fault,
            n: rows.len(),
            ceiling,
            who,
            at,
        };
        match rows[at].place {
            SIGN..=SCAN => step.begins(rows),
            TAKE | LOWER => step.takes(rows),
            SEE_CHOOSING..=SEE_HOLDERS_SESSION => step.waits(rows),
            _ => step.ends(rows),
        }
    }

    /// Any call, if the fault changes it.
    fn faulty_call(
        &mut self,
        rows: &mut [Claimant],
        ceiling: u32,
        who: u32,
        call: Call,
    ) -> Option<Answer> {
        if let Fault::Shortcut(shortcut) = self.fault {
            return Some(perform(
                Some(shortcut),
                rows,
                &mut self.memory,
                ceiling,
                who,
                call,
            ));
        }
        let n = rows.len() as u32;
        match self.fault {
            Fault::ClaimantZeroIsOne if who == 0 => {
                return Some(table::perform(rows, ceiling, 1, call));
            }
            Fault::ClaimantWraps if who > n => {
                return Some(table::perform(rows, ceiling, (who - 1) % n + 1, call));
            }
            Fault::NoSessionBeforeNoClaimant if call == Call::Ask(0) => {
                return Some(Answer::Refused(Refusal::NoSession));
            }
            _ => {}
        }
        let at = table::index(rows, who)?;
        match (self.fault, call, rows[at].place) {
            (Fault::AskSigns, Call::Ask(session), REST) if session != 0 => {
                let answer = rows[at].asked(session);
                rows[at].session = session;
                Some(answer)
            }
            (Fault::RefusedAskStays, Call::Ask(0), REST) => {
                rows[at].place = SIGN;
                Some(Answer::Refused(Refusal::NoSession))
            }
            (Fault::NotAtRestBeforeNoSession, Call::Ask(_), place) if place != REST => {
                Some(Answer::Refused(Refusal::NotAtRest))
            }
            (Fault::LeaveDropsToken, Call::Leave, INSIDE) => {
                rows[at].token = 0;
                Some(rows[at].left())
            }
            (Fault::LeaveWhileWaiting, Call::Leave, SEE_HOLDERS_SESSION) => {
                rows[at].other = 0;
                rows[at].place = INSIDE;
                Some(rows[at].left())
            }
            (Fault::PassGoesToEight, Call::Step, SEE_TOKEN | SEE_HOLDERS_SESSION) => {
                let answer = table::perform(rows, ceiling, who, call);
                if answer == Answer::Reached(SEE_CHOOSING) {
                    rows[at].place = SEE_TOKEN;
                    return Some(Answer::Reached(SEE_TOKEN));
                }
                Some(answer)
            }
            (_, Call::Step, _) => self.faulty_step(rows, ceiling, who, at),
            _ => None,
        }
    }
}

/// A step that may go wrong: answers none where the fault leaves it alone.
struct Step {
    fault: Fault,
    n: usize,
    ceiling: u32,
    who: u32,
    at: usize,
}

impl Step {
    /// The right step, had it read `value`.
    fn had_it_read(&self, rows: &mut [Claimant], value: u32) -> Answer {
        rows[self.at].stepped(self.n, self.ceiling, self.who, value)
    }

    /// The right step of a place that writes, and then something else.
    fn and_then(&self, rows: &mut [Claimant], change: impl Fn(&mut Claimant)) -> Answer {
        let answer = self.had_it_read(rows, 0);
        change(&mut rows[self.at]);
        answer
    }

    /// Places 1 to 3.
    fn begins(&self, rows: &mut [Claimant]) -> Option<Answer> {
        let me = rows[self.at];
        let row = usize::from(me.other);
        Some(match (self.fault, me.place) {
            (Fault::SignNotWritten, SIGN) => self.and_then(rows, |me| me.session = 0),
            (Fault::RaiseBeforeSign, SIGN) => {
                self.and_then(rows, |me| (me.session, me.choosing) = (0, 1))
            }
            (Fault::RaiseBeforeSign, RAISE) => self.and_then(rows, |me| me.session = me.want),
            (Fault::ScanKeepsLast, SCAN) => {
                rows[self.at].seen = 0;
                self.had_it_read(rows, rows[row - 1].token)
            }
            (Fault::ScanSkipsOwnRow, SCAN) if row as u32 == self.who && row < self.n => {
                rows[self.at].other += 1;
                self.had_it_read(rows, rows[row].token)
            }
            (Fault::ScanOneRowShort, SCAN) if row + 1 == self.n => {
                rows[self.at].other += 1;
                self.had_it_read(rows, rows[row - 1].token)
            }
            _ => return None,
        })
    }

    /// Places 4 and 5.
    fn takes(&self, rows: &mut [Claimant]) -> Option<Answer> {
        let me = rows[self.at];
        let away = me.place == TAKE && me.seen == self.ceiling;
        let under = |ceiling: u32| Step { ceiling, ..*self };
        Some(match (self.fault, me.place) {
            (Fault::TakeNotOneMore, TAKE) if me.seen > 1 => {
                rows[self.at].seen -= 1;
                self.had_it_read(rows, 0)
            }
            (Fault::CeilingOneLower, TAKE) if self.ceiling > 1 => {
                under(self.ceiling - 1).had_it_read(rows, 0)
            }
            (Fault::CeilingIgnored, TAKE) => under(u32::MAX).had_it_read(rows, 0),
            (Fault::TurnedAwayIsTwelve, _) if away => {
                self.had_it_read(rows, 0);
                Answer::Reached(CLEAR_SESSION)
            }
            (Fault::TurnedAwayStaysRaised, _) if away => self.and_then(rows, |me| me.choosing = 1),
            (Fault::TurnedAwayRests, _) if away => {
                self.and_then(rows, |me| *me = Claimant::default())
            }
            (Fault::LowerNotWritten, LOWER) => self.and_then(rows, |me| me.choosing = 1),
            _ => return None,
        })
    }

    /// Places 6 to 9.
    fn waits(&self, rows: &mut [Claimant]) -> Option<Answer> {
        /// A session that conflicts with every other.
        const FOREIGN: u32 = 65_536;
        /// Tokens that let pass, and that don't unless one's own is 1.
        const NONE: u32 = 0;
        const LOWEST: u32 = 1;
        let me = rows[self.at];
        let row = rows[usize::from(me.other) - 1];
        let own_row = u32::from(me.other) == self.who;
        let friendly = row.session == 0 || row.session == me.want;
        let value = match (self.fault, me.place) {
            (Fault::ChooserNotAwaited, SEE_CHOOSING) => 0,
            (Fault::SessionBeforeChoosing, SEE_CHOOSING) => u32::from(!friendly),
            (Fault::SessionBeforeChoosing, SEE_CHOOSERS_SESSION) => {
                FOREIGN * u32::from(row.choosing)
            }
            (Fault::HigherNumberFirst, SEE_TOKEN) if row.token == me.token && !own_row => {
                let passes = u32::from(me.other) < self.who;
                if passes {
                    NONE
                } else {
                    LOWEST
                }
            }
            (Fault::HigherTokenFirst, SEE_TOKEN) if row.token != 0 && row.token != me.token => {
                let passes = row.token < me.token;
                if passes {
                    NONE
                } else {
                    LOWEST
                }
            }
            (Fault::OwnRowPassesAtEight, SEE_TOKEN) if own_row => NONE,
            (Fault::SameSessionConflicts, SEE_HOLDERS_SESSION)
                if !own_row && row.session == me.want =>
            {
                FOREIGN
            }
            _ => return None,
        };
        Some(self.had_it_read(rows, value))
    }

    /// Places 10 to 12.
    fn ends(&self, rows: &mut [Claimant]) -> Option<Answer> {
        let before = rows[self.at];
        Some(match (self.fault, before.place) {
            (Fault::StepInsideLeaves, INSIDE) => rows[self.at].left(),
            (Fault::SessionClearedFirst, DROP_TOKEN) => {
                self.and_then(rows, |me| (me.token, me.session) = (before.token, 0))
            }
            (Fault::SessionClearedFirst, CLEAR_SESSION) => self.and_then(rows, |me| me.token = 0),
            (Fault::EndKeepsSession, CLEAR_SESSION) => {
                self.and_then(rows, |me| me.session = before.session)
            }
            _ => return None,
        })
    }
}

impl Parts for Faulty {
    fn read(&mut self, text: &[u8], entries: &mut [u32; MOST_DO_LINES]) -> Result<Case, BadText> {
        self.memory = [None; 64];
        self.first = Claimant::default();
        let changed = misread(self.fault, text);
        let read = casetext::read_over(changed.as_deref().unwrap_or(text), entries);
        misjudge(self.fault, text, entries, read)
    }

    fn open(&mut self, rows: &mut [Claimant], ceiling: u32) -> Result<(), Refusal> {
        if self.fault == Fault::SixtyFiveClaimants && rows.len() == 64 {
            return Err(Refusal::RowLength);
        }
        if self.fault == Fault::CeilingBeforeClaimants && ceiling == 0 {
            return Err(Refusal::NoCeiling);
        }
        table::open(rows, ceiling)
    }

    fn apply(&mut self, rows: &mut [Claimant], ceiling: u32, entry: u32) -> Answer {
        let answer = match table::decode(entry) {
            Ok((who, call)) => self.faulty_call(rows, ceiling, who, call),
            Err(_) => None,
        };
        let answer = answer.unwrap_or_else(|| table::apply(rows, ceiling, entry));
        self.first = rows[0];
        answer
    }

    fn line(&mut self, out: &mut Vec<u8>, at: usize, who: u32, record: &Claimant, answer: u8) {
        let (mut at, mut record) = (at, *record);
        match self.fault {
            Fault::NobodyShown if answer == 36 => record = self.first,
            Fault::BeforeShown if answer > 32 => record = Claimant::default(),
            Fault::CountFromZero => at -= 1,
            Fault::ChoosingShownAsToken => {
                (record.token, record.choosing) = (record.choosing.into(), record.token as u8);
            }
            _ => {}
        }
        model::report::AsWritten.line(out, at, who, &record, answer);
    }
}

/// The text as a faulty reader takes it, if that is another.
fn misread(fault: Fault, text: &[u8]) -> Option<Vec<u8>> {
    let replaced = |from: &str, to: &str| {
        // Latin letters stand for bytes, one each.
        let letters: String = text.iter().map(|&byte| byte as char).collect();
        Some(
            letters
                .replace(from, to)
                .chars()
                .map(|letter| letter as u8)
                .collect(),
        )
    };
    match fault {
        Fault::ZeroInFront => {
            let digit = |at: usize| text.get(at).is_some_and(u8::is_ascii_digit);
            let kept =
                |at: &usize| text[*at] != b'0' || (*at > 0 && digit(at - 1)) || !digit(at + 1);
            Some((0..text.len()).filter(kept).map(|at| text[at]).collect())
        }
        Fault::CarriageReturn => replaced("\r\n", "\n"),
        Fault::NoLastLineFeed if text.last().is_some_and(|&byte| byte != b'\n') => {
            Some([text, b"\n"].concat())
        }
        Fault::SpaceAtTheEnd => replaced(" \n", "\n"),
        Fault::TwoSpaces => replaced("  ", " "),
        Fault::LengthOneMore if text.len() == MOST_BYTES + 1 => Some(text[..MOST_BYTES].to_vec()),
        Fault::ClaimantRangeOneMore => replaced(" 256\n", " 0\n"),
        Fault::SessionRangeOneMore => replaced(" 65536\n", " 0\n"),
        Fault::NumberRangeOneMore => replaced("=4294967296\n", "=0\n"),
        _ => None,
    }
}

/// What a faulty reader makes of a text that was read as document 01 says.
fn misjudge(
    fault: Fault,
    text: &[u8],
    entries: &mut [u32; MOST_DO_LINES],
    read: Result<Case, BadText>,
) -> Result<Case, BadText> {
    let bad_line = |line| BadText {
        refusal: Refusal::BadLine,
        line,
    };
    match (fault, read) {
        (Fault::LengthOneLess, Ok(_)) if text.len() == MOST_BYTES => Err(BadText {
            refusal: Refusal::LongText,
            line: 0,
        }),
        (Fault::LinesOneLess, Ok(case)) if case.entries == MOST_DO_LINES => Err(BadText {
            refusal: Refusal::TooManyLines,
            line: MOST_DO_LINES + 2,
        }),
        (Fault::LinesOneMore, Err(bad)) if bad.refusal == Refusal::TooManyLines => {
            let mut lines = text.split_inclusive(|&byte| byte == b'\n');
            let fewer: Vec<u8> = lines
                .by_ref()
                .take(MOST_DO_LINES + 2)
                .flatten()
                .copied()
                .collect();
            casetext::read_over(&fewer, entries)
        }
        (Fault::FullBeforeLayout, Err(bad)) if bad.line == MOST_DO_LINES + 3 => Err(BadText {
            refusal: Refusal::TooManyLines,
            line: bad.line,
        }),
        (Fault::LineFromZero, Err(bad)) if bad.line > 0 => Err(BadText {
            line: bad.line - 1,
            ..bad
        }),
        (Fault::MissingLineTwoIsLineOne, Err(bad)) if bad == bad_line(2) => Err(bad_line(1)),
        (Fault::LongTextLineOne, Err(bad)) if bad.refusal == Refusal::LongText => {
            Err(BadText { line: 1, ..bad })
        }
        (Fault::OpeningBeforeText, Err(bad)) if bad.line > 2 => {
            // The same text without the do lines says what the opening gets.
            let mut lines = text.split_inclusive(|&byte| byte == b'\n');
            let top: Vec<u8> = lines.by_ref().take(2).flatten().copied().collect();
            match casetext::read_over(&top, entries) {
                Ok(case) if case.claimants == 0 || case.claimants > 64 || case.ceiling == 0 => {
                    Ok(case)
                }
                _ => Err(bad),
            }
        }
        (_, read) => read,
    }
}
