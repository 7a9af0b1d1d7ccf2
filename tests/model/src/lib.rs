//! Document 01 in plain Rust: the lock's rules, its table, schedules, case
//! texts and what `boardcase` prints for one.
//!
//! It is written from document 01 and request E1 of document 02 alone and
//! shares nothing with the proved crates, so that the two can be held against
//! each other. The modules follow document 01's order, each resting only on
//! those before it:
//!
//! - [`claimant`]: one claimant's record, what it may hold, and what ask, step
//!   and leave do to it;
//! - [`table`]: a row of records, calls on it, schedules, and the standing;
//! - [`casetext`]: the reader and writer of case texts;
//! - [`report`]: what the program prints.

pub mod casetext;
pub mod claimant;
pub mod report;
pub mod table;

#[cfg(test)]
mod situations;

pub use claimant::{Answer, Claimant, Refusal};
pub use report::report;
