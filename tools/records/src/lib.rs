//! `pagemon`'s records as readable lines, and its answers in words.
//!
//! A script has one call a line: its name and its numbers, decimal or hexadecimal after `0x`. A `#` starts a comment, and lines that hold no call
//! are passed over. A record is what `pagemon` reads of a call (program 2 of docs/RULES.md). Words that the call does not use stand behind a bar,
//! up to the last that is not 0; without a bar all of them are 0. So lines and records say the same.
#![forbid(unsafe_code)]

mod answer;
mod record;
mod script;

pub use answer::explain;
pub use record::{decode, lines};
pub use script::parse;
