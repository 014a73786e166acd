//! The processor on which a program runs. The functions are of the C library, which the standard library links.
use std::ffi::c_int;

/// A bit for each processor.
type Processors = [u64; 16];

extern "C" {
    fn sched_getcpu() -> c_int;
    fn sched_setaffinity(thread: c_int, size: usize, allowed: *const Processors) -> c_int;
}

/// Keeps this thread, and the programs that it starts from now on, on the processor on which it runs. If that cannot be, nothing changes.
pub fn stay() {
    // SAFETY: there is nothing to be valid.
    let number = unsafe { sched_getcpu() };
    let mut allowed: Processors = [0; 16];
    let Some(word) = usize::try_from(number).ok().and_then(|number| allowed.get_mut(number / 64)) else { return };
    *word = 1 << (number % 64);
    // SAFETY: it reads as many bytes as there are.
    unsafe { sched_setaffinity(0, size_of::<Processors>(), &allowed) };
}
