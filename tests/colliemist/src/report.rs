//! What `boardcase` prints for a case text.

use crate::c::colliemist_report;
use crate::REPORT_BYTES;

/// What `boardcase` prints for `text`; any bytes at all are taken.
pub fn report(text: &[u8]) -> Vec<u8> {
    let mut out = vec![0; REPORT_BYTES];
    let length = report_into(text, &mut out)
        .expect("the row is long enough")
        .len();
    out.truncate(length);
    out
}

/// As [`report`], into the first bytes of `out`, with no allocation; gives back
/// the report among them. Later bytes stay as they were. If `out` is shorter
/// than [`REPORT_BYTES`] it is not touched, and there is no report.
pub fn report_into<'a>(text: &[u8], out: &'a mut [u8]) -> Option<&'a [u8]> {
    // SAFETY: the library reads `text.len()` bytes of `text` and writes at most
    // `out.len()` bytes of `out`; both are lent for the call.
    let length =
        unsafe { colliemist_report(text.as_ptr(), text.len(), out.as_mut_ptr(), out.len()) };
    match usize::try_from(length) {
        Ok(0) => None,
        Ok(length) => Some(&out[..length]),
        Err(_) => unreachable!("a report is at most {REPORT_BYTES} bytes"),
    }
}

#[cfg(test)]
mod tests {
    use super::*;

    const TEXT: &[u8] = b"claimants=1\nceiling=1\ndo=ask 1 7\ndo=step 2\n";
    const REPORT: &[u8] = b"\
at=1 who=1 place=1 session=0 raised=0 token=0 answer=1
at=2 who=2 place=0 session=0 raised=0 token=0 answer=36
end=2
";

    #[test]
    fn a_report() {
        assert_eq!(report(TEXT), REPORT);
        assert_eq!(report(b""), b"refused=12 line=1\n");
        assert_eq!(report(&[b'x'; 32_769]), b"refused=11 line=0\n");
    }

    #[test]
    fn bytes_past_the_report_stay() {
        for length in [REPORT_BYTES, REPORT_BYTES + 1, 2 * REPORT_BYTES] {
            let mut out = vec![0xA5; length];
            assert_eq!(report_into(TEXT, &mut out), Some(REPORT));
            assert!(out[REPORT.len()..].iter().all(|&byte| byte == 0xA5));
        }
    }

    #[test]
    fn a_short_row_is_not_touched() {
        for length in [0, 1, REPORT.len(), REPORT_BYTES - 1] {
            let mut out = vec![0xA5; length];
            assert_eq!(report_into(TEXT, &mut out), None);
            assert!(out.iter().all(|&byte| byte == 0xA5));
        }
    }
}
