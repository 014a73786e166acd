//! The calls of the monitor as values: what tests, benchmarks and tools know of them, apart from their rules. A call is one row of the table in
//! table.rs; the crate `library` makes its declaration and its invocation from the same row.
#![forbid(unsafe_code)]

mod buffers;
mod call;
mod kind;
pub mod random;
mod record;
pub mod refusals;
mod table;

pub use buffers::{
    ledger_bytes, Access, PerBuffer, BLOCK, DFAR, DFSR, IFAR, IFSR, KINDS_AT, KINDS_BYTES, LEDGER_HEAD, LEDGER_RECORD,
    MARKED, NO_TABLE, PENDING, REGISTERS_BYTES,
};
pub use call::{Call, NUMBERS};
pub use kind::Kind;
pub use record::{records, MARK, RECORD_BYTES, RECORD_WORDS};
