//! Deliberately wrong readers and writers, one at a time, of each kind that the
//! documents could be misread in. A comparison that doesn't find them finds
//! nothing.

use super::drafts::{barred, fields};
use super::sides::{Draft, Model, Reading, Side, Writing};
use colliemist::{BadText, Head};
use model::casetext::{MOST_BYTES, MOST_DO_LINES};

macro_rules! faults {
    ($($name:ident: $what:expr,)*) => {
        #[derive(Clone, Copy, Debug, PartialEq, Eq)]
        pub enum Fault { $($name),* }

        /// Every fault with what is wrong.
        pub const ALL: &[(Fault, &str)] = &[$((Fault::$name, $what)),*];
    };
}

faults! {
    TooManyBeforeBarred: "the writer's 13 comes before 9",
    TooLongBeforeTooMany: "the writer's 11 comes before 13",
    TooLongBeforeBarred: "the writer's 11 comes before 9",
    BarredAmongFirst: "9 is given among the first 2048 entries alone",
    BarredKindFour: "kind 3 is written as a leave",
    BarredStepTaken: "a step's session is not looked at",
    BarredLeaveTaken: "a leave's session is not looked at",
    AskNeedsSession: "an ask with session 0 is refused 9",
    EntriesOneLess: "2048 entries are too many",
    EntriesOneMore: "2049 entries are not too many",
    BytesOneLess: "a text of 32768 bytes is not written",
    BytesOneMore: "a text of 32769 bytes is written",
    RowOneByteShort: "a row one byte too short is taken",
    RowOneByteMore: "a row of just the length is too short",
    NoClaimantsRefused: "0 claimants are refused",
    ManyClaimantsRefused: "65 claimants are refused",
    NoCeilingRefused: "ceiling 0 is refused",
    LastLineEndMissing: "the last line end is missing",
    CarriageReturns: "lines end in CR LF",
    NulAtTheEnd: "a NUL is put after the text if there is room",
    RestCleared: "the row past the text is cleared",
    WritesBeforeRefusing: "what fits is written before the refusal",
    LeaveSaysStep: "a leave is written with the word of a step",
    StepShowsSession: "a step is written with its session",
    AskSwapsFields: "an ask is written with session and claimant swapped",
    ZeroNotWritten: "a session 0 has no digit",
    CeilingSigned: "a large ceiling is written as a negative number",
    NumbersSwapped: "claimants and ceiling are swapped",
    ReaderTakesShortRow: "the reader takes a row of 2047 numbers",
    ReaderLongBeforeShort: "the reader's 11 comes before 10",
    ReaderRefusedEntries: "the reader leaves the entries of a refused text",
    ReaderRestCleared: "the reader clears the row past the entries",
    ReaderLastEntry: "the reader leaves out the last entry",
    ReaderNumbersSwapped: "the reader swaps the two numbers",
}

/// A side with one fault, or with none: then it is as good as the model.
pub struct Faulty(pub Option<Fault>);

impl Faulty {
    fn is(&self, fault: Fault) -> bool {
        self.0 == Some(fault)
    }

    /// One more or one less than what is right, or just that.
    fn about(&self, right: usize, less: Fault, more: Fault) -> usize {
        right - usize::from(self.is(less)) + usize::from(self.is(more))
    }

    fn barred(&self, at: usize, entry: u32) -> bool {
        let (kind, _, session) = fields(entry);
        match self.0 {
            Some(Fault::BarredAmongFirst) if at >= MOST_DO_LINES => false,
            Some(Fault::BarredKindFour) if kind == 3 => false,
            Some(Fault::BarredStepTaken) if kind == 0 => false,
            Some(Fault::BarredLeaveTaken) if kind == 2 => false,
            Some(Fault::AskNeedsSession) if kind == 1 && session == 0 => true,
            _ => barred(entry),
        }
    }

    /// The refusal that a draft meets whose text would have so many bytes.
    fn refusal(&self, draft: &Draft, bytes: usize) -> Option<u8> {
        let entries = draft.schedule.iter().enumerate();
        let nine = entries.clone().any(|(at, &entry)| self.barred(at, entry));
        let most = self.about(MOST_DO_LINES, Fault::EntriesOneLess, Fault::EntriesOneMore);
        let thirteen = draft.schedule.len() > most;
        let most = self.about(MOST_BYTES, Fault::BytesOneLess, Fault::BytesOneMore);
        let room = draft.room + usize::from(self.is(Fault::RowOneByteShort));
        let room = room.saturating_sub(usize::from(self.is(Fault::RowOneByteMore)));
        let eleven = bytes > most || bytes > room;
        let (nine, thirteen, eleven) = ((nine, 9), (thirteen, 13), (eleven, 11));
        let order = match self.0 {
            Some(Fault::TooManyBeforeBarred) => [thirteen, nine, eleven],
            Some(Fault::TooLongBeforeTooMany) => [nine, eleven, thirteen],
            Some(Fault::TooLongBeforeBarred) => [eleven, nine, thirteen],
            _ => [nine, thirteen, eleven],
        };
        let met = order.into_iter().find(|(met, _)| *met);
        met.map(|(_, refusal)| refusal).or(self.opening(draft))
    }

    /// What only an opening refuses.
    fn opening(&self, draft: &Draft) -> Option<u8> {
        match self.0 {
            Some(Fault::NoClaimantsRefused) if draft.claimants == 0 => Some(1),
            Some(Fault::ManyClaimantsRefused) if draft.claimants == 65 => Some(1),
            Some(Fault::NoCeilingRefused) if draft.ceiling == 0 => Some(2),
            _ => None,
        }
    }

    fn text(&self, draft: &Draft) -> Vec<u8> {
        let (mut first, mut second) = (i64::from(draft.claimants), i64::from(draft.ceiling));
        if self.is(Fault::CeilingSigned) {
            second = i64::from(draft.ceiling as i32);
        }
        if self.is(Fault::NumbersSwapped) {
            (first, second) = (second, first);
        }
        let mut text = format!("claimants={first}\nceiling={second}\n");
        for &entry in &draft.schedule {
            text += &self.line(entry);
        }
        if self.is(Fault::LastLineEndMissing) {
            text.pop();
        }
        if self.is(Fault::CarriageReturns) {
            text = text.replace('\n', "\r\n");
        }
        text.into_bytes()
    }

    /// A do line; a barred entry is let past only by a fault.
    fn line(&self, entry: u32) -> String {
        let (kind, who, session) = fields(entry);
        match (kind, self.0) {
            (0, Some(Fault::StepShowsSession)) => format!("do=step {who} {session}\n"),
            (0, _) => format!("do=step {who}\n"),
            (1, Some(Fault::AskSwapsFields)) => format!("do=ask {session} {who}\n"),
            (1, Some(Fault::ZeroNotWritten)) if session == 0 => format!("do=ask {who} \n"),
            (1, _) => format!("do=ask {who} {session}\n"),
            (_, Some(Fault::LeaveSaysStep)) => format!("do=step {who}\n"),
            _ => format!("do=leave {who}\n"),
        }
    }

    /// Puts the entries before the line that a text is refused at into the row.
    fn refused_entries(&self, text: &[u8], entries: &mut [u32], line: usize) {
        let mut lines = text.split_inclusive(|&byte| byte == b'\n');
        let lines = lines.by_ref().take(line.saturating_sub(1));
        // A text refused at lines 1 or 2 has no entry, and stays refused.
        let _ = Model.read(&lines.flatten().copied().collect::<Vec<u8>>(), entries);
    }
}

impl Side for Faulty {
    fn write(&self, draft: &Draft, out: &mut [u8]) -> Writing {
        let mut text = self.text(draft);
        if self.is(Fault::WritesBeforeRefusing) {
            let fits = text.len().min(out.len());
            out[..fits].copy_from_slice(&text[..fits]);
        }
        if let Some(refusal) = self.refusal(draft, text.len()) {
            return Err(refusal);
        }
        text.truncate(out.len());
        out[..text.len()].copy_from_slice(&text);
        match self.0 {
            Some(Fault::RestCleared) => out[text.len()..].fill(0),
            Some(Fault::NulAtTheEnd) => out[text.len()..]
                .iter_mut()
                .take(1)
                .for_each(|end| *end = 0),
            _ => {}
        }
        Ok(text.len())
    }

    fn read(&self, text: &[u8], entries: &mut [u32]) -> Reading {
        if self.is(Fault::ReaderLongBeforeShort) && text.len() > MOST_BYTES {
            let (refusal, line) = (11, 0);
            return Err(BadText { refusal, line });
        }
        if self.is(Fault::ReaderTakesShortRow) && entries.len() == MOST_DO_LINES - 1 {
            let mut row = [&entries[..], &[0]].concat();
            let read = Model.read(text, &mut row);
            entries.copy_from_slice(&row[..entries.len()]);
            return read;
        }
        let before = entries.to_vec();
        let read = Model.read(text, entries);
        match (self.0, read) {
            (Some(Fault::ReaderRefusedEntries), Err(bad)) => {
                self.refused_entries(text, entries, bad.line);
            }
            (Some(Fault::ReaderRestCleared), Ok(head)) => entries[head.entries..].fill(0),
            (Some(Fault::ReaderLastEntry), Ok(head)) if head.entries > 0 => {
                entries[head.entries - 1] = before[head.entries - 1];
            }
            (Some(Fault::ReaderNumbersSwapped), Ok(head)) => {
                return Ok(Head {
                    claimants: head.ceiling,
                    ceiling: head.claimants,
                    ..head
                });
            }
            _ => {}
        }
        read
    }
}
