//! Colliemist for Rust, by the proved library: what `boardcase` prints for a
//! case text, and case texts read and written.
//!
//! ```
//! let text = b"claimants=1\nceiling=1\ndo=ask 1 7\n";
//! let report = b"at=1 who=1 place=1 session=0 raised=0 token=0 answer=1\nend=1\n";
//! assert_eq!(colliemist::report(text), report);
//!
//! let case = colliemist::read(text).expect("a good text");
//! assert_eq!((case.claimants, case.ceiling), (1, 1));
//! assert_eq!(case.schedule, [0x0101_0007]);
//! assert_eq!(colliemist::write(1, 1, &case.schedule).expect("a good schedule"), text);
//! ```

mod casetext;
mod report;

pub use casetext::{read, read_into, write, write_into, BadText, Case, Head};
pub use report::{report, report_into};

/// The bytes that a row must have to take any report.
pub const REPORT_BYTES: usize = 153_609;
/// The most bytes that a case text has.
pub const TEXT_BYTES: usize = 32_768;
/// The most entries that a case text's schedule has.
pub const ENTRIES: usize = 2_048;

/// See `include/colliemist.h`.
mod c {
    extern "C" {
        pub fn colliemist_report(
            text: *const u8,
            text_len: usize,
            out: *mut u8,
            out_len: usize,
        ) -> u64;

        pub fn colliemist_read(
            text: *const u8,
            text_len: usize,
            entries: *mut u32,
            room: usize,
            claimants: *mut u32,
            ceiling: *mut u32,
            line: *mut usize,
        ) -> i64;

        pub fn colliemist_write(
            claimants: u32,
            ceiling: u32,
            schedule: *const u32,
            entries: usize,
            out: *mut u8,
            room: usize,
        ) -> i64;
    }
}
