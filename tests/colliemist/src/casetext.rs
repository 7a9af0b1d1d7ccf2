//! Case texts, read and written.

use crate::c::{colliemist_read, colliemist_write};
use crate::{ENTRIES, TEXT_BYTES};

/// What a case text says.
#[derive(Clone, Debug, PartialEq, Eq)]
pub struct Case {
    pub claimants: u32,
    pub ceiling: u32,
    /// One number for each do line: kind × 16,777,216 + claimant × 65,536 +
    /// session; kind 0 is step, 1 ask, 2 leave.
    pub schedule: Vec<u32>,
}

/// What a case text says beside its schedule, and how many entries that has.
#[derive(Clone, Copy, Debug, Default, PartialEq, Eq)]
pub struct Head {
    pub claimants: u32,
    pub ceiling: u32,
    pub entries: usize,
}

/// The number of the refusal that a text met, and its line: 0 for 10 and 11,
/// which are of no line.
#[derive(Clone, Copy, Debug, PartialEq, Eq)]
pub struct BadText {
    pub refusal: u8,
    pub line: usize,
}

/// Reads a case text; any bytes at all are taken.
pub fn read(text: &[u8]) -> Result<Case, BadText> {
    let mut schedule = vec![0; ENTRIES];
    let head = read_into(text, &mut schedule)?;
    schedule.truncate(head.entries);
    Ok(Case {
        claimants: head.claimants,
        ceiling: head.ceiling,
        schedule,
    })
}

/// As [`read`], the schedule into the first places of `entries`, with no
/// allocation. Later places stay as they were, and a refusal leaves all of
/// them; one is that `entries` has fewer than [`ENTRIES`] places.
pub fn read_into(text: &[u8], entries: &mut [u32]) -> Result<Head, BadText> {
    let (mut head, mut line) = (Head::default(), 0);
    match read_onto(text, entries, &mut head, &mut line) {
        Ok(()) => Ok(head),
        Err(refusal) => Err(BadText { refusal, line }),
    }
}

/// The C function, over what is lent to it.
fn read_onto(
    text: &[u8],
    entries: &mut [u32],
    head: &mut Head,
    line: &mut usize,
) -> Result<(), u8> {
    // SAFETY: the library reads `text.len()` bytes of `text`, and writes at most
    // `entries.len()` numbers of `entries` and one to each of the other three;
    // all are lent for the call, and apart, since they are lent mutably.
    let answer = unsafe {
        colliemist_read(
            text.as_ptr(),
            text.len(),
            entries.as_mut_ptr(),
            entries.len(),
            &mut head.claimants,
            &mut head.ceiling,
            line,
        )
    };
    head.entries = counted(answer)?;
    Ok(())
}

/// The case text of a schedule, or the number of the refusal that it meets: 9,
/// 13 or 11.
pub fn write(claimants: u32, ceiling: u32, schedule: &[u32]) -> Result<Vec<u8>, u8> {
    let mut out = vec![0; TEXT_BYTES];
    let length = write_into(claimants, ceiling, schedule, &mut out)?.len();
    out.truncate(length);
    Ok(out)
}

/// As [`write`], into the first bytes of `out`, with no allocation; gives back
/// the text among them. Later bytes stay as they were, and a refusal leaves all
/// of them; 11 is also for a text that is longer than `out`.
pub fn write_into<'a>(
    claimants: u32,
    ceiling: u32,
    schedule: &[u32],
    out: &'a mut [u8],
) -> Result<&'a [u8], u8> {
    // SAFETY: the library reads `schedule.len()` numbers of `schedule` and
    // writes at most `out.len()` bytes of `out`; both are lent for the call.
    let answer = unsafe {
        colliemist_write(
            claimants,
            ceiling,
            schedule.as_ptr(),
            schedule.len(),
            out.as_mut_ptr(),
            out.len(),
        )
    };
    Ok(&out[..counted(answer)?])
}

/// An answer of the library: a count, or minus a refusal's number.
fn counted(answer: i64) -> Result<usize, u8> {
    match usize::try_from(answer) {
        Ok(count) => Ok(count),
        Err(_) => Err(u8::try_from(-answer).expect("refusals have small numbers")),
    }
}

#[cfg(test)]
mod tests {
    use super::*;

    const TEXT: &[u8] = b"claimants=65\nceiling=0\ndo=ask 255 65535\ndo=step 0\ndo=leave 10\n";
    const SCHEDULE: [u32; 3] = [0x01FF_FFFF, 0, 0x020A_0000];
    const HEAD: Head = Head {
        claimants: 65,
        ceiling: 0,
        entries: 3,
    };

    /// Fills rows, to see what the library leaves alone.
    const FILLER: u8 = 0xA5;
    const NUMBER: u32 = 0xA5A5_A5A5;

    /// 2,046 lines of 16 bytes: with a top of 32 bytes it is the longest text.
    const LONG: [u32; 2_046] = [0x010A_FFFF; 2_046];

    /// What reading gives; a refusal leaves all that is lent but the line.
    fn refused(text: &[u8], room: usize) -> (u8, usize) {
        let mut entries = vec![NUMBER; room];
        let before = Head {
            claimants: NUMBER,
            ceiling: NUMBER,
            entries: 77,
        };
        let (mut head, mut line) = (before, 77);
        let refusal =
            read_onto(text, &mut entries, &mut head, &mut line).expect_err("it is refused");
        assert_eq!(head, before);
        assert!(entries.iter().all(|&entry| entry == NUMBER));
        (refusal, line)
    }

    /// The refusal that writing meets; it leaves the row.
    fn unwritten(claimants: u32, schedule: &[u32], room: usize) -> u8 {
        let mut out = vec![FILLER; room];
        let refusal = write_into(claimants, u32::MAX, schedule, &mut out).expect_err("a refusal");
        assert!(out.iter().all(|&byte| byte == FILLER));
        refusal
    }

    #[test]
    fn a_text_is_read_and_written_again() {
        let case = read(TEXT).expect("a good text");
        assert_eq!((case.claimants, case.ceiling), (65, 0));
        assert_eq!(case.schedule, SCHEDULE);
        assert_eq!(write(65, 0, &SCHEDULE).as_deref(), Ok(TEXT));
        assert_eq!(
            write(0, 0, &[]).expect("a text"),
            b"claimants=0\nceiling=0\n"
        );
    }

    #[test]
    fn places_past_the_schedule_stay() {
        for room in [ENTRIES, ENTRIES + 1, 2 * ENTRIES] {
            let mut entries = vec![NUMBER; room];
            let (mut head, mut line) = (Head::default(), 77);
            assert_eq!(read_onto(TEXT, &mut entries, &mut head, &mut line), Ok(()));
            assert_eq!((head, line), (HEAD, 0));
            assert_eq!(read_into(TEXT, &mut entries), Ok(HEAD));
            assert_eq!(entries[..3], SCHEDULE);
            assert!(entries[3..].iter().all(|&entry| entry == NUMBER));
        }
    }

    #[test]
    fn a_refused_text_leaves_what_is_lent() {
        assert_eq!(refused(b"", ENTRIES), (12, 1));
        assert_eq!(refused(&TEXT[..TEXT.len() - 1], ENTRIES), (12, 5));
        assert_eq!(refused(&[TEXT, b"x\n"].concat(), ENTRIES + 1), (12, 6));
        let many = [
            &b"claimants=1\nceiling=1\n"[..],
            &b"do=step 1\n".repeat(2_049),
        ]
        .concat();
        assert_eq!(refused(&many, ENTRIES), (13, 2_051));
        assert_eq!(refused(&[b'x'; TEXT_BYTES], ENTRIES), (12, 1));
        assert_eq!(refused(&[b'x'; TEXT_BYTES + 1], ENTRIES), (11, 0));
        for room in [0, 1, 3, ENTRIES - 1] {
            assert_eq!(refused(TEXT, room), (10, 0));
            assert_eq!(refused(&[b'x'; TEXT_BYTES + 1], room), (10, 0));
        }
        assert_eq!(
            read(b"claimants=1\n"),
            Err(BadText {
                refusal: 12,
                line: 2
            })
        );
    }

    #[test]
    fn bytes_past_the_text_stay() {
        for room in [TEXT.len(), TEXT.len() + 1, TEXT_BYTES, 2 * TEXT_BYTES] {
            let mut out = vec![FILLER; room];
            assert_eq!(write_into(65, 0, &SCHEDULE, &mut out), Ok(TEXT));
            assert!(out[TEXT.len()..].iter().all(|&byte| byte == FILLER));
        }
    }

    #[test]
    fn a_schedule_that_is_not_written_leaves_the_row() {
        for room in [0, 1, 21, 22, 2 * TEXT_BYTES] {
            assert_eq!(unwritten(1, &[0, 1], room), 9);
            assert_eq!(unwritten(1, &[0x0201_0007], room), 9);
            assert_eq!(unwritten(1, &[0x0300_0000], room), 9);
            assert_eq!(unwritten(1, &[0; 2_049], room), 13);
            // An entry past the 2,048th is looked at too.
            assert_eq!(unwritten(1, &[&[0; 2_049][..], &[1]].concat(), room), 9);
        }
        // One byte too few is as bad as none.
        for room in [0, 1, 21, 40] {
            assert_eq!(unwritten(1, &[0], room), 11);
        }
    }

    #[test]
    fn the_longest_text_is_written_and_no_longer_one() {
        let mut out = vec![FILLER; TEXT_BYTES];
        let text = write_into(64, u32::MAX, &LONG, &mut out).expect("the longest text");
        assert_eq!(text.len(), TEXT_BYTES);
        assert_eq!(read(text).expect("a good text").schedule, LONG);
        assert_eq!(unwritten(64, &LONG, TEXT_BYTES - 1), 11);
        for room in [TEXT_BYTES, TEXT_BYTES + 1, 2 * TEXT_BYTES] {
            assert_eq!(unwritten(100, &LONG, room), 11);
        }
        assert_eq!(write(100, u32::MAX, &LONG), Err(11));
    }
}
