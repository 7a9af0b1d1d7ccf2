//! The reader and writer of case texts.

use crate::claimant::Refusal;
use crate::table::{decode, encode, Call};

/// The most bytes a case text has.
pub const MOST_BYTES: usize = 32_768;
/// The most do lines a case text has.
pub const MOST_DO_LINES: usize = 2_048;

/// What a case text says, beside its entries.
#[derive(Clone, Copy, Debug, PartialEq, Eq)]
pub struct Case {
    pub claimants: u32,
    pub ceiling: u32,
    /// How many entries there are.
    pub entries: usize,
}

/// Why a text was refused and at which line; the line is 0 where the refusal
/// names none.
#[derive(Clone, Copy, Debug, PartialEq, Eq)]
pub struct BadText {
    pub refusal: Refusal,
    pub line: usize,
}

/// Reads a case text; its entries go into the first places of `entries`, which
/// a refusal leaves as it was.
pub fn read(text: &[u8], entries: &mut [u32]) -> Result<Case, BadText> {
    if entries.len() < MOST_DO_LINES {
        return Err(BadText {
            refusal: Refusal::ShortRow,
            line: 0,
        });
    }
    let mut found = [0; MOST_DO_LINES];
    let case = read_over(text, &mut found)?;
    entries[..case.entries].copy_from_slice(&found[..case.entries]);
    Ok(case)
}

/// As [`read`], for a row whose content doesn't matter after a refusal.
pub fn read_over(text: &[u8], entries: &mut [u32; MOST_DO_LINES]) -> Result<Case, BadText> {
    if text.len() > MOST_BYTES {
        return Err(BadText {
            refusal: Refusal::LongText,
            line: 0,
        });
    }
    let bad_line = |line| BadText {
        refusal: Refusal::BadLine,
        line,
    };
    let mut lines = Lines { rest: text };
    let mut setting = |line, name: &[u8]| {
        let number = lines
            .next()
            .and_then(|text| number(text.strip_prefix(name)?, u32::MAX));
        number.ok_or(bad_line(line))
    };
    let claimants = setting(1, b"claimants=")?;
    let ceiling = setting(2, b"ceiling=")?;

    let mut count = 0;
    while !lines.rest.is_empty() {
        let line = count + 3;
        let entry = lines.next().and_then(do_line).ok_or(bad_line(line))?;
        if count == MOST_DO_LINES {
            return Err(BadText {
                refusal: Refusal::TooManyLines,
                line,
            });
        }
        entries[count] = entry;
        count += 1;
    }
    Ok(Case {
        claimants,
        ceiling,
        entries: count,
    })
}

/// The lines of a text, each without the LF that ends it.
struct Lines<'a> {
    rest: &'a [u8],
}

impl<'a> Lines<'a> {
    /// The next line; none if no LF is left to end one.
    fn next(&mut self) -> Option<&'a [u8]> {
        let end = self.rest.iter().position(|&byte| byte == b'\n')?;
        let line = &self.rest[..end];
        self.rest = &self.rest[end + 1..];
        Some(line)
    }
}

/// The entry that a do line says, if it keeps the layout.
fn do_line(line: &[u8]) -> Option<u32> {
    let call = line.strip_prefix(b"do=")?;
    if let Some(who) = call.strip_prefix(b"step ") {
        Some(encode(claimant(who)?, Call::Step))
    } else if let Some(who) = call.strip_prefix(b"leave ") {
        Some(encode(claimant(who)?, Call::Leave))
    } else {
        let rest = call.strip_prefix(b"ask ")?;
        let space = rest.iter().position(|&byte| byte == b' ')?;
        let session = number(&rest[space + 1..], 65_535)?;
        Some(encode(claimant(&rest[..space])?, Call::Ask(session as u16)))
    }
}

fn claimant(text: &[u8]) -> Option<u8> {
    number(text, 255).map(|number| number as u8)
}

/// A decimal number up to `most` with no leading zero, and nothing more.
fn number(text: &[u8], most: u32) -> Option<u32> {
    if text.is_empty() || text.len() > 10 || (text[0] == b'0' && text.len() > 1) {
        return None;
    }
    let mut value: u64 = 0;
    for &byte in text {
        let digit = byte.wrapping_sub(b'0');
        if digit > 9 {
            return None;
        }
        value = value * 10 + u64::from(digit);
    }
    (value <= u64::from(most)).then_some(value as u32)
}

/// Writes the case text of a schedule into the first bytes of `out` and gives
/// its length; the bytes after it stay, and a refusal leaves all as they were.
pub fn write(
    claimants: u32,
    ceiling: u32,
    schedule: &[u32],
    out: &mut [u8],
) -> Result<usize, Refusal> {
    let mut length = Length(0);
    lay_out(claimants, ceiling, schedule, &mut length)?;
    let Length(length) = length;
    if schedule.len() > MOST_DO_LINES {
        return Err(Refusal::TooManyLines);
    }
    if length > MOST_BYTES || length > out.len() {
        return Err(Refusal::LongText);
    }
    // Measuring has met every entry, so this refuses none.
    lay_out(claimants, ceiling, schedule, &mut Pen { out, at: 0 })?;
    Ok(length)
}

/// What takes the pieces of a text in order. The length that is found and the
/// bytes that are written come from one layout this way.
trait Sink {
    fn words(&mut self, words: &[u8]);
    fn number(&mut self, number: u32);
}

/// Gives a case text to `sink` piece by piece, up to the first bad entry.
fn lay_out(
    claimants: u32,
    ceiling: u32,
    schedule: &[u32],
    sink: &mut impl Sink,
) -> Result<(), Refusal> {
    sink.words(b"claimants=");
    sink.number(claimants);
    sink.words(b"\nceiling=");
    sink.number(ceiling);
    sink.words(b"\n");
    for &entry in schedule {
        let (number, call) = decode(entry)?;
        match call {
            Call::Step => sink.words(b"do=step "),
            Call::Ask(_) => sink.words(b"do=ask "),
            Call::Leave => sink.words(b"do=leave "),
        }
        sink.number(number);
        if let Call::Ask(session) = call {
            sink.words(b" ");
            sink.number(u32::from(session));
        }
        sink.words(b"\n");
    }
    Ok(())
}

/// The length of a text. It stops at the largest number there is, as a
/// schedule may be of any length when it is measured.
struct Length(usize);

impl Sink for Length {
    fn words(&mut self, words: &[u8]) {
        self.0 = self.0.saturating_add(words.len());
    }

    fn number(&mut self, number: u32) {
        self.0 = self.0.saturating_add(digits(number));
    }
}

/// Writes a text into a buffer that is known to hold it; `at` is where the
/// next piece goes.
struct Pen<'a> {
    out: &'a mut [u8],
    at: usize,
}

impl Pen<'_> {
    /// The next `length` bytes, to be written by the caller.
    fn next(&mut self, length: usize) -> &mut [u8] {
        let start = self.at;
        self.at += length;
        &mut self.out[start..self.at]
    }
}

impl Sink for Pen<'_> {
    fn words(&mut self, words: &[u8]) {
        self.next(words.len()).copy_from_slice(words);
    }

    fn number(&mut self, number: u32) {
        let mut rest = number;
        for byte in self.next(digits(number)).iter_mut().rev() {
            *byte = b'0' + (rest % 10) as u8;
            rest /= 10;
        }
    }
}

/// How many digits a number is written with; 0 itself has one.
fn digits(number: u32) -> usize {
    number.max(1).ilog10() as usize + 1
}

#[cfg(test)]
mod tests {
    use super::*;

    fn refused(text: &str) -> (u8, usize) {
        let mut row = [77; MOST_DO_LINES];
        let bad = read(text.as_bytes(), &mut row).expect_err("a bad text");
        assert_eq!(row, [77; MOST_DO_LINES]);
        (bad.refusal.number(), bad.line)
    }

    #[test]
    fn entries_go_into_the_first_places() {
        let mut row = [77; MOST_DO_LINES + 1];
        let text = b"claimants=4294967295\nceiling=0\ndo=ask 255 65535\ndo=step 0\ndo=leave 10\n";
        let case = read(text, &mut row).unwrap();
        assert_eq!(
            case,
            Case {
                claimants: u32::MAX,
                ceiling: 0,
                entries: 3
            }
        );
        assert_eq!(row[..4], [0x01FF_FFFF, 0, 0x020A_0000, 77]);
    }

    #[test]
    fn numbers_have_one_spelling_and_a_range() {
        for (text, most, value) in [
            ("0", 0, Some(0)),
            ("7", 7, Some(7)),
            ("8", 7, None),
            ("07", 7, None),
            ("00", 7, None),
            ("", 7, None),
            ("+7", 7, None),
            ("-0", 7, None),
            ("7 ", 7, None),
            ("4294967295", u32::MAX, Some(u32::MAX)),
            ("4294967296", u32::MAX, None),
            ("9999999999", u32::MAX, None),
            ("18446744073709551616", u32::MAX, None),
        ] {
            assert_eq!(number(text.as_bytes(), most), value, "{text:?}");
        }
    }

    #[test]
    fn the_first_bad_line_decides() {
        assert_eq!(refused(""), (12, 1));
        assert_eq!(refused("\n"), (12, 1));
        assert_eq!(refused("claimants=1"), (12, 1));
        assert_eq!(refused("claimants=1\n"), (12, 2));
        assert_eq!(refused("ceiling=1\nclaimants=1\n"), (12, 1));
        let head = "claimants=1\nceiling=1\n";
        for line in [
            "do=step 256\n",
            "do=step\n",
            "do=step \n",
            "do=step  1\n",
            "do=step 1 \n",
            "do=step 1\r\n",
            "do=step 01\n",
            "do=step 1 0\n",
            "do=step 1",
            "do=ask 1\n",
            "do=ask 1 65536\n",
            "do=ask 1 7 7\n",
            "do=ask 1  7\n",
            "do=leave 1 7\n",
            "do=lost 1\n",
            "Do=step 1\n",
            " do=step 1\n",
            "\n",
        ] {
            assert_eq!(
                refused(&format!("{head}{line}do=step 1\n")),
                (12, 3),
                "{line:?}"
            );
        }
        assert_eq!(
            refused(&format!("{head}do=step 1\ndo=leave 1\nx\ny\n")),
            (12, 5)
        );
    }

    #[test]
    fn the_limits() {
        let long =
            |lines: usize| format!("claimants=1\nceiling=1\n{}", "do=step 1\n".repeat(lines));
        let mut row = [0; MOST_DO_LINES];
        assert_eq!(
            read(long(2_048).as_bytes(), &mut row).unwrap().entries,
            2_048
        );
        assert_eq!(refused(&long(2_049)), (13, 2_051));
        assert_eq!(refused(&(long(2_048) + "do=step 1")), (12, 2_051));
        assert_eq!(refused(&(long(2_048) + "do=step 01\n")), (12, 2_051));
        assert_eq!(refused(&(long(2_049) + "x\n")), (13, 2_051));
        assert_eq!(refused(&"x".repeat(32_768)), (12, 1));
        assert_eq!(refused(&"x".repeat(32_769)), (11, 0));
        let short = read(b"", &mut [0; MOST_DO_LINES - 1]).unwrap_err();
        assert_eq!(
            short,
            BadText {
                refusal: Refusal::ShortRow,
                line: 0
            }
        );
    }

    /// The text that `write` gives, checked to be all that it writes and to
    /// fit a buffer of just its length.
    fn written(claimants: u32, ceiling: u32, schedule: &[u32]) -> String {
        let mut out = vec![b'#'; MOST_BYTES + 5];
        let length = write(claimants, ceiling, schedule, &mut out).expect("a good schedule");
        assert!(out[length..].iter().all(|&byte| byte == b'#'));
        out.truncate(length);
        let mut exact = vec![b'#'; length];
        assert_eq!(write(claimants, ceiling, schedule, &mut exact), Ok(length));
        assert_eq!(exact, out);
        String::from_utf8(out).expect("plain letters")
    }

    /// The number of the refusal that `write` gives with a buffer of `room`
    /// bytes, checked to leave the buffer as it was.
    fn unwritten(claimants: u32, ceiling: u32, schedule: &[u32], room: usize) -> u8 {
        let mut out = vec![b'#'; room];
        let refusal = write(claimants, ceiling, schedule, &mut out).expect_err("a refusal");
        assert!(out.iter().all(|&byte| byte == b'#'));
        refusal.number()
    }

    const ASK_10_65535: u32 = 0x010A_FFFF;

    #[test]
    fn each_kind_is_written_to_the_byte() {
        for (entry, line) in [
            (0x0000_0000, "do=step 0\n"),
            (0x0001_0000, "do=step 1\n"),
            (0x00FF_0000, "do=step 255\n"),
            (0x0100_0000, "do=ask 0 0\n"),
            (16_842_759, "do=ask 1 7\n"),
            (0x0163_270F, "do=ask 99 9999\n"),
            (0x0164_2710, "do=ask 100 10000\n"),
            (0x01FF_FFFF, "do=ask 255 65535\n"),
            (0x0200_0000, "do=leave 0\n"),
            (33_619_968, "do=leave 1\n"),
            (0x02FF_0000, "do=leave 255\n"),
        ] {
            let text = format!("claimants=2\nceiling=3\n{line}");
            assert_eq!(written(2, 3, &[entry]), text);
        }
        assert_eq!(
            written(3, 10, &[0x0102_0007, 0x0002_0000, 0x0202_0000]),
            "claimants=3\nceiling=10\ndo=ask 2 7\ndo=step 2\ndo=leave 2\n"
        );
    }

    #[test]
    fn the_two_numbers_are_written_as_they_are() {
        let mut numbers = vec![0, 64, 65, u32::MAX];
        for power in 0..10 {
            let ten = 10_u32.pow(power);
            numbers.extend([ten - 1, ten, ten + 1]);
        }
        for number in numbers {
            let text = format!("claimants={number}\nceiling=7\n");
            assert_eq!(written(number, 7, &[]), text);
            let text = format!("claimants=7\nceiling={number}\n");
            assert_eq!(written(7, number, &[]), text);
        }
        assert_eq!(written(0, 0, &[]), "claimants=0\nceiling=0\n");
    }

    #[test]
    fn reading_what_was_written_gives_the_same() {
        let every_kind: Vec<u32> = (0..2_048)
            .map(|i: u32| match i % 3 {
                1 => 0x0100_0000 + i % 256 * 0x1_0000 + i * 31 % 0x1_0000,
                kind => kind * 0x100_0000 + i % 256 * 0x1_0000,
            })
            .collect();
        for (claimants, ceiling, schedule) in [
            (0, 0, &[][..]),
            (65, u32::MAX, &[0][..]),
            (1, 1, &[16_842_759, 0x0001_0000, 33_619_968][..]),
            (u32::MAX, 1, &[0x01FF_FFFF, 0x02FF_0000, 0x00FF_0000][..]),
            (64, u32::MAX, &[ASK_10_65535; 2_046][..]),
            (64, 1_000, &every_kind[..]),
        ] {
            let text = written(claimants, ceiling, schedule);
            let mut row = [77; MOST_DO_LINES];
            let case = read(text.as_bytes(), &mut row).unwrap();
            assert_eq!((case.claimants, case.ceiling), (claimants, ceiling));
            assert_eq!(row[..case.entries], *schedule);
        }
    }

    #[test]
    fn writing_what_was_read_gives_the_same_bytes() {
        for text in [
            "claimants=0\nceiling=0\n",
            "claimants=65\nceiling=4294967295\n",
            "claimants=4294967295\nceiling=1\ndo=step 0\n",
            "claimants=1\nceiling=1\ndo=ask 1 7\ndo=step 1\ndo=leave 1\ndo=step 1\n",
            "claimants=3\nceiling=9\ndo=ask 255 65535\ndo=ask 0 0\ndo=leave 100\n",
            &format!("claimants=2\nceiling=10\n{}", "do=step 2\n".repeat(2_048)),
        ] {
            let mut row = [77; MOST_DO_LINES];
            let case = read(text.as_bytes(), &mut row).unwrap();
            let again = written(case.claimants, case.ceiling, &row[..case.entries]);
            assert_eq!(again, text);
        }
    }

    #[test]
    fn barred_entries_are_not_written() {
        for entry in [
            0x0000_0001,
            0x0001_FFFF,
            0x0200_0001,
            0x0201_FFFF,
            0x0300_0000,
            50_397_184,
            0x0301_0007,
            0xFF00_0000,
            0xFFFF_FFFF,
        ] {
            for schedule in [&[entry][..], &[0, 0x0100_0000, entry], &[entry, 0]] {
                assert_eq!(unwritten(1, 1, schedule, 99), 9, "{entry:#x}");
            }
        }
    }

    #[test]
    fn the_writers_refusals_come_in_their_order() {
        let barred = 0x0300_0000;
        let mut long = vec![0; 2_049];
        assert_eq!(unwritten(1, 1, &long, MOST_BYTES), 13);
        assert_eq!(unwritten(1, 1, &long, 0), 13);
        assert_eq!(unwritten(1, 1, &long[..2_048], 0), 11);
        // Past the 2,048th entry, and with all else in order up to there.
        long[2_048] = barred;
        assert_eq!(unwritten(1, 1, &long, MOST_BYTES), 9);
        assert_eq!(unwritten(1, 1, &long, 0), 9);
        assert_eq!(unwritten(1, 1, &[barred], 0), 9);
        let mut wide = vec![0x01FF_FFFF; 2_049];
        assert_eq!(unwritten(1, 1, &wide, MOST_BYTES), 13);
        assert_eq!(unwritten(1, 1, &wide[..2_048], 2 * MOST_BYTES), 11);
        wide.extend([0; 3_000]);
        wide.push(barred);
        assert_eq!(unwritten(1, 1, &wide, MOST_BYTES), 9);
    }

    #[test]
    fn the_longest_text_is_written_and_a_longer_one_is_not() {
        let schedule = [ASK_10_65535; 2_046];
        let text = written(64, u32::MAX, &schedule);
        assert_eq!(text.len(), MOST_BYTES);
        assert_eq!(unwritten(64, u32::MAX, &schedule, MOST_BYTES - 1), 11);
        assert_eq!(unwritten(100, u32::MAX, &schedule, MOST_BYTES), 11);
        assert_eq!(unwritten(100, u32::MAX, &schedule, MOST_BYTES + 1), 11);
        assert_eq!(unwritten(100, u32::MAX, &schedule, 2 * MOST_BYTES), 11);
    }

    #[test]
    fn the_buffer_holds_the_text_or_stays() {
        for (schedule, text) in [
            (&[][..], "claimants=1\nceiling=1\n"),
            (&[16_842_759], "claimants=1\nceiling=1\ndo=ask 1 7\n"),
        ] {
            for room in 0..text.len() {
                assert_eq!(unwritten(1, 1, schedule, room), 11);
            }
            for more in [0, 1, 2, 40] {
                let mut out = vec![b'#'; text.len() + more];
                assert_eq!(write(1, 1, schedule, &mut out), Ok(text.len()));
                assert_eq!(out, [text, &"#".repeat(more)].concat().as_bytes());
            }
        }
    }
}
