//! An exhaustive search of every table that two and three claimants reach.
//!
//! - [`shortcuts`]: document 01's shortcuts that look harmless, each as a
//!   change of the model's stepping rules;
//! - [`state`]: a table with the little history that the promises speak of,
//!   packed into one number;
//! - [`search`]: the search, and the promises it checks in every state;
//! - [`casetexts`]: what it finds, as case texts;
//! - [`waiting`]: how many steps a claimant needs that nobody conflicts with;
//! - [`accounts`]: what is searched, and the account of what was found.

pub mod accounts;
pub mod casetexts;
pub mod search;
pub mod shortcuts;
pub mod state;
pub mod waiting;
