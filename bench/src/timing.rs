//! The two programs timed in turns on the same buffers, which are restored before each run.
use crate::program::{Buffers, Given, Monitor, Plain, Program};
use crate::workloads::{Batch, TABLE_BLOCKS};
use calls::BLOCK;
use std::hint::black_box;
use std::time::{Duration, Instant};

/// What a workload starts from: the bytes of the tables and the ledger, which its calls may change.
pub struct Start {
    tables: Vec<u8>,
    ledger: Vec<u8>,
}

impl Start {
    pub fn of(lent: &Buffers) -> Start {
        Start { tables: lent.memory[..BLOCK * TABLE_BLOCKS].to_vec(), ledger: lent.ledger.clone() }
    }

    pub fn restore(&self, lent: &mut Buffers) {
        lent.memory[..BLOCK * TABLE_BLOCKS].copy_from_slice(&self.tables);
        lent.ledger.copy_from_slice(&self.ledger);
    }
}

#[inline(never)]
pub fn run<P: Program>(batch: &Batch, lent: &mut Buffers) {
    let mut sum = 0u32;
    let note = |given: Given| sum = sum.wrapping_add(given.answer + given.byte as u32 + given.hashed);
    P::batch(batch.kind, &batch.words, lent, note);
    black_box(sum);
}

/// Nanoseconds a call of one run.
fn once<P: Program>(batch: &Batch, start: &Start, lent: &mut Buffers) -> f64 {
    start.restore(lent);
    let clock = Instant::now();
    run::<P>(batch, lent);
    clock.elapsed().as_nanos() as f64 / batch.words.len() as f64
}

fn median(mut times: Vec<f64>) -> f64 {
    times.sort_by(f64::total_cmp);
    times[times.len() / 2]
}

/// Nanoseconds a call.
pub struct Measured {
    pub monitor: f64,
    pub plain: f64,
}

const LEAST_ROUNDS: usize = 5;

/// Medians over as many rounds as fit into the time. In each round both run, the other one first in the next.
pub fn measure(batch: &Batch, lent: &mut Buffers, time: Duration) -> Measured {
    let start = Start::of(lent);
    once::<Monitor>(batch, &start, lent);
    once::<Plain>(batch, &start, lent);
    let (mut monitor, mut plain) = (Vec::new(), Vec::new());
    let end = Instant::now() + time;
    while monitor.len() < LEAST_ROUNDS || Instant::now() < end {
        if monitor.len() % 2 == 0 {
            monitor.push(once::<Monitor>(batch, &start, lent));
            plain.push(once::<Plain>(batch, &start, lent));
        } else {
            plain.push(once::<Plain>(batch, &start, lent));
            monitor.push(once::<Monitor>(batch, &start, lent));
        }
    }
    Measured { monitor: median(monitor), plain: median(plain) }
}
