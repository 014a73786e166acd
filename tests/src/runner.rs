//! The export of libsteps.a. Every buffer is lent between canaries; canaries and const buffers are looked at after each call.
use crate::canaries::Guarded;
use crate::monitor::{own, Store};
use ::library::steps::pagemon_run;

/// Obeys a list of records, and says how many it obeyed.
pub fn run(store: &mut Store, records: &[u8], answers: &mut [u32], bytes: &mut [u8]) -> usize {
    let mut memory = Guarded::new(&store.memory, 1);
    let mut ledger = Guarded::new(&store.ledger, 2);
    let golden = Guarded::new(&store.golden, 3);
    let lent_records = Guarded::new(records, 4);
    let mut lent_answers = Guarded::new(answers, 1);
    let mut lent_bytes = Guarded::new(bytes, 5);
    // SAFETY: every pointer is to a copy of its own.
    let obeyed = unsafe {
        pagemon_run(
            memory.pointer_mut(),
            store.memory.len(),
            ledger.pointer_mut(),
            store.ledger.len(),
            golden.pointer(),
            store.golden.len(),
            lent_records.pointer(),
            records.len(),
            lent_answers.pointer_mut(),
            answers.len(),
            lent_bytes.pointer_mut(),
            bytes.len(),
        )
    };
    memory.give_back(own(&mut store.memory));
    ledger.give_back(&mut store.ledger);
    golden.must_equal(&store.golden);
    lent_records.must_equal(records);
    lent_answers.give_back(answers);
    lent_bytes.give_back(bytes);
    obeyed
}
