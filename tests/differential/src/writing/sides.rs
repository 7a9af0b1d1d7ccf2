//! The two sides that read and write case texts, on the same input.

use crate::random::Random;
use colliemist::{BadText, Head};
use model::casetext::{self, MOST_DO_LINES};

/// What a text is written from, and how long the row is that takes it.
#[derive(Clone, Debug)]
pub struct Draft {
    pub claimants: u32,
    pub ceiling: u32,
    pub schedule: Vec<u32>,
    pub room: usize,
}

/// What is said of a text, beside the entries in the row.
pub type Reading = Result<Head, BadText>;
/// The bytes of a text, or the number of a refusal.
pub type Writing = Result<usize, u8>;

/// Reads and writes case texts. A test of the tests puts a faulty side in the
/// place of the model.
pub trait Side {
    fn read(&self, text: &[u8], entries: &mut [u32]) -> Reading;
    /// Writes a draft; `out` has the draft's room.
    fn write(&self, draft: &Draft, out: &mut [u8]) -> Writing;
}

pub struct Model;

impl Side for Model {
    fn read(&self, text: &[u8], entries: &mut [u32]) -> Reading {
        match casetext::read(text, entries) {
            Ok(case) => Ok(Head {
                claimants: case.claimants,
                ceiling: case.ceiling,
                entries: case.entries,
            }),
            Err(bad) => Err(BadText {
                refusal: bad.refusal.number(),
                line: bad.line,
            }),
        }
    }

    fn write(&self, draft: &Draft, out: &mut [u8]) -> Writing {
        casetext::write(draft.claimants, draft.ceiling, &draft.schedule, out)
            .map_err(|refusal| refusal.number())
    }
}

pub struct Library;

impl Side for Library {
    fn read(&self, text: &[u8], entries: &mut [u32]) -> Reading {
        colliemist::read_into(text, entries)
    }

    fn write(&self, draft: &Draft, out: &mut [u8]) -> Writing {
        colliemist::write_into(draft.claimants, draft.ceiling, &draft.schedule, out)
            .map(<[u8]>::len)
    }
}

/// A row for each side, filled alike before each call to see what is left alone.
struct Rows<T> {
    filler: T,
    model: Vec<T>,
    library: Vec<T>,
}

/// How many places of a row are not lent.
const MARGIN: usize = 64;

impl<T: Copy + PartialEq> Rows<T> {
    fn new(filler: T) -> Rows<T> {
        let (model, library) = (Vec::new(), Vec::new());
        Rows {
            filler,
            model,
            library,
        }
    }

    /// Fills the `room` places that will be lent, and some more.
    fn fill(&mut self, room: usize) {
        for row in [&mut self.model, &mut self.library] {
            row.clear();
            row.resize(room + MARGIN, self.filler);
        }
    }

    /// Whether the rows are alike, and past `count` places as they were filled.
    fn check(&self, count: usize) -> Result<(), String> {
        if self.model != self.library {
            let places = self.model.iter().zip(&self.library);
            let alike = places.take_while(|(ours, theirs)| ours == theirs).count();
            return Err(format!("the rows differ after {alike} places"));
        }
        let mut rest = self.model[count..].iter();
        if rest.any(|place| *place != self.filler) {
            return Err(format!("both rows are written to past {count} places"));
        }
        Ok(())
    }

    /// A row without the places at its end that are as they were filled.
    fn written(&self, row: &[T]) -> Vec<T> {
        let end = row.iter().rposition(|place| *place != self.filler);
        row[..end.map_or(0, |end| end + 1)].to_vec()
    }
}

/// The library, the model beside it, and what both are lent.
pub struct Both<S> {
    model: S,
    entries: Rows<u32>,
    bytes: Rows<u8>,
}

impl<S: Side> Both<S> {
    pub fn new(model: S) -> Both<S> {
        Both {
            model,
            entries: Rows::new(0xA5A5_A5A5),
            bytes: Rows::new(0xA5),
        }
    }

    /// Reads a text on both sides, into rows of `room` numbers; what they both
    /// say, or what differs.
    fn read(&mut self, text: &[u8], room: usize) -> Result<Reading, String> {
        self.entries.fill(room);
        let model = self.model.read(text, &mut self.entries.model[..room]);
        let library = Library.read(text, &mut self.entries.library[..room]);
        let answers = || format!("reading: model {model:?}, library {library:?}, room {room}");
        if model != library {
            return Err(answers());
        }
        let count = model.map_or(0, |head| head.entries);
        let left = self.entries.check(count);
        left.map_err(|what| format!("{}; {what}", answers()))?;
        Ok(model)
    }

    /// Writes a draft on both sides; what they both say, or what differs.
    fn write(&mut self, draft: &Draft) -> Result<Writing, String> {
        let room = draft.room;
        self.bytes.fill(room);
        let model = self.model.write(draft, &mut self.bytes.model[..room]);
        let library = Library.write(draft, &mut self.bytes.library[..room]);
        let answers = || format!("writing: model {model:?}, library {library:?}, room {room}");
        if model != library {
            return Err(answers());
        }
        let left = self.bytes.check(model.unwrap_or(0));
        left.map_err(|what| format!("{}; {what}", answers()))?;
        Ok(model)
    }

    /// Reads a text on both sides; if it is taken, it is written as it was. It
    /// may be read into a row that is too short first.
    pub fn read_then_write(
        &mut self,
        text: &[u8],
        (room, short): (usize, Option<usize>),
    ) -> Result<Reading, String> {
        self.bytes.fill(0);
        if let Some(short) = short {
            if self.read(text, short)?.is_ok() {
                return Err(format!("both readers take a row of {short} numbers"));
            }
        }
        let read = self.read(text, room)?;
        if let Ok(head) = read {
            let draft = Draft {
                claimants: head.claimants,
                ceiling: head.ceiling,
                schedule: self.entries.library[..head.entries].to_vec(),
                room: text.len(),
            };
            let written = self.write(&draft)?;
            if written != Ok(text.len()) || self.bytes.library[..text.len()] != *text {
                return Err(format!(
                    "what was read is not written as it was: {written:?}"
                ));
            }
        }
        Ok(read)
    }

    /// Writes a draft on both sides; if it is taken, both read the same back.
    pub fn write_then_read(&mut self, draft: &Draft) -> Result<Writing, String> {
        let written = self.write(draft)?;
        if let Ok(length) = written {
            let text = self.bytes.library[..length].to_vec();
            let read = self.read(&text, MOST_DO_LINES + length % MARGIN)?;
            let head = Head {
                claimants: draft.claimants,
                ceiling: draft.ceiling,
                entries: draft.schedule.len(),
            };
            if read != Ok(head) || self.entries.library[..head.entries] != draft.schedule {
                return Err(format!("what was written is not read as it was: {read:?}"));
            }
        }
        Ok(written)
    }

    /// What the model and the library have written, also where they should not.
    pub fn written(&self) -> (Vec<u8>, Vec<u8>) {
        let written = |row| self.bytes.written(row);
        (written(&self.bytes.model), written(&self.bytes.library))
    }
}

/// How many numbers the rows have that take the entries of a text: enough in
/// the first, and too few in another, if there is another.
pub fn some_rooms(random: &mut Random) -> (usize, Option<usize>) {
    let room = match random.below(2) {
        0 => MOST_DO_LINES,
        _ => MOST_DO_LINES + random.between(1, MARGIN),
    };
    let short = match random.below(4) {
        0 => Some(random.pick(&[0, 1])),
        1 => Some(MOST_DO_LINES - 1),
        2 => Some(random.below(MOST_DO_LINES)),
        _ => None,
    };
    (room, short)
}
