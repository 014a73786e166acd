//! The export of libsteps.a (include/steps.h).

#[link(name = "steps", kind = "static")]
extern "C" {
    pub fn pagemon_run(
        memory: *mut u8,
        memory_length: usize,
        ledger: *mut u8,
        ledger_length: usize,
        golden: *const u8,
        golden_length: usize,
        records: *const u8,
        records_length: usize,
        answers: *mut u32,
        answers_length: usize,
        bytes: *mut u8,
        bytes_length: usize,
    ) -> usize;
}
