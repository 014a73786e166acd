//! What `pagemon` has, reads and prints (RULES: program).
use crate::monitor::{ledger_bytes, Call, Given, Kind, Store, BLOCK, REGISTERS_BYTES};
use std::rc::Rc;
use Kind::*;

pub use calls::{records, RECORD_BYTES};

pub const BLOCKS: usize = 16;

/// What the program starts from (program 1). The fault registers may change on the way: no answer depends on what they hold.
pub fn store() -> Store {
    let (memory, ledger) = (Rc::new(vec![0; BLOCK * BLOCKS]), vec![0; ledger_bytes(BLOCKS)]);
    Store { memory, ledger, golden: Vec::new(), kinds: Vec::new(), registers: vec![0; REGISTERS_BYTES] }
}

/// The sample (program 7): calls, their arguments and their lines.
pub const SAMPLE: [(Kind, &[u32], &str); 11] = [
    (Begin, &[0], "1 0"),
    (CreateL1, &[0], "2 0"),
    (Switch, &[0], "11 0"),
    (CreateL2, &[4], "3 0"),
    (Link, &[0, 0, 4, 0], "8 0"),
    (MapL2, &[4, 5, 8, 3], "7 0"),
    (Write, &[0x5000, 65], "13 0"),
    (Read, &[0x5000], "12 0 65"),
    (Fetch, &[0x5000], "14 23"),
    (MapL2, &[4, 6, 8, 5], "7 11"),
    (FreeL2, &[4], "5 6"),
];

/// The line of a call that was obeyed.
pub fn line(call: Call, given: Given) -> String {
    let number = call.record()[2];
    match given.answer {
        0 if call.kind.gives_byte() => format!("{number} 0 {}", given.byte),
        answer => format!("{number} {answer}"),
    }
}

/// Whole records with a wrong mark or an unlisted call, and the place of the byte that is wrong.
pub fn spoilt_records() -> impl Iterator<Item = (usize, [u8; RECORD_BYTES])> {
    let marks = [(0, 0x00), (0, 0x54), (0, 0xD0), (1, 0x00), (1, 0x50), (1, 0xD4)];
    let unlisted = [(2, 0), (2, 17), (2, 129), (2, 255)];
    marks.into_iter().chain(unlisted).map(|(at, byte)| {
        let mut record = Call::new(Begin, &[0]).record();
        record[at] = byte;
        (at, record)
    })
}

/// Spoilt records, and good ones cut short to every length.
pub fn bad_records() -> Vec<Vec<u8>> {
    let good = Call::new(Begin, &[0]).record();
    let short = (1..RECORD_BYTES).map(|length| good[..length].to_vec());
    spoilt_records().map(|(_, record)| record.to_vec()).chain(short).collect()
}
