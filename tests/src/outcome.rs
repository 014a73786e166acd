//! What a call answers and leaves, as a value; whatever gives that value is a monitor.
use crate::bytes::put_word;
use crate::monitor::{own, Call, Given, Monitor, Store};

/// The bytes that a call is lent.
#[derive(Clone, Copy)]
pub struct Lent<'a> {
    pub memory: &'a [u8],
    pub ledger: &'a [u8],
    pub golden: &'a [u8],
    pub kinds: &'a [u8],
    pub registers: &'a [u8],
}

impl<'a> From<&'a Store> for Lent<'a> {
    fn from(store: &'a Store) -> Lent<'a> {
        Lent {
            memory: &store.memory,
            ledger: &store.ledger,
            golden: &store.golden,
            kinds: &store.kinds,
            registers: &store.registers,
        }
    }
}

#[derive(Default, PartialEq, Eq)]
pub struct Outcome {
    pub answer: u32,
    /// The byte of a read, fetch or acknowledge, 0 for all others.
    pub byte: u8,
    /// The number of blocks that a create or map hashed, 0 for all others.
    pub hashed: u32,
    /// The bytes of memory that are stored, each with its place.
    pub memory: Vec<(usize, u8)>,
    /// The words of the ledger that are stored, each with the place of its first byte.
    pub ledger: Vec<(usize, u32)>,
    /// The bytes of the fault registers that are stored, each with its place.
    pub registers: Vec<(usize, u8)>,
}

impl Outcome {
    /// Stores what the call stores; nothing where a place lies outside of its buffer.
    pub fn apply(&self, store: &mut Store) -> Given {
        if !self.memory.is_empty() {
            put_bytes(own(&mut store.memory), &self.memory);
        }
        for (at, word) in &self.ledger {
            put_word(&mut store.ledger, *at, *word);
        }
        put_bytes(&mut store.registers, &self.registers);
        Given { answer: self.answer, byte: self.byte, hashed: self.hashed }
    }
}

fn put_bytes(buffer: &mut [u8], stored: &[(usize, u8)]) {
    for (at, byte) in stored {
        if let Some(place) = buffer.get_mut(*at) {
            *place = *byte;
        }
    }
}

pub trait Outcomes {
    fn outcome(&self, call: Call, lent: Lent) -> Outcome;
}

impl<T: Outcomes> Monitor for T {
    fn perform(&self, call: Call, store: &mut Store) -> Given {
        let outcome = self.outcome(call, Lent::from(&*store));
        outcome.apply(store)
    }
}
