//! The buffers that calls are lent.

pub const BLOCK: usize = 4096;
pub const LEDGER_HEAD: usize = 24;
pub const LEDGER_RECORD: usize = 20;
/// Where the ledger has its memory kinds, and their bytes: two for each of eight.
pub const KINDS_AT: usize = 8;
pub const KINDS_BYTES: usize = 16;
/// The fault registers: four words, and behind them the pending byte.
pub const REGISTERS_BYTES: usize = 17;
pub const DFSR: usize = 0;
pub const DFAR: usize = 4;
pub const IFSR: usize = 8;
pub const IFAR: usize = 12;
pub const PENDING: usize = 16;
/// The active word when no table is in use.
pub const NO_TABLE: u32 = 0xFFFF_FFFF;
/// The mark of a block that need not be hashed.
pub const MARKED: u32 = 1;

/// The ledger's length for a memory of so many blocks.
pub const fn ledger_bytes(blocks: usize) -> usize {
    LEDGER_HEAD + LEDGER_RECORD * blocks
}

/// What a call may do with a buffer.
#[derive(Clone, Copy, PartialEq, Eq, Debug)]
pub enum Access {
    NotLent,
    Reads,
    Writes,
}

/// A value for each buffer that there is.
#[derive(Clone, Copy, PartialEq, Eq, Debug)]
pub struct PerBuffer<T> {
    pub memory: T,
    pub ledger: T,
    pub golden: T,
    pub kinds: T,
    pub registers: T,
}

impl<T: Copy> PerBuffer<T> {
    pub fn all(value: T) -> PerBuffer<T> {
        PerBuffer { memory: value, ledger: value, golden: value, kinds: value, registers: value }
    }
}

impl<T> PerBuffer<T> {
    pub fn map<U>(self, mut f: impl FnMut(T) -> U) -> PerBuffer<U> {
        PerBuffer {
            memory: f(self.memory),
            ledger: f(self.ledger),
            golden: f(self.golden),
            kinds: f(self.kinds),
            registers: f(self.registers),
        }
    }

    pub fn as_mut(&mut self) -> PerBuffer<&mut T> {
        PerBuffer {
            memory: &mut self.memory,
            ledger: &mut self.ledger,
            golden: &mut self.golden,
            kinds: &mut self.kinds,
            registers: &mut self.registers,
        }
    }

    pub fn zip<U>(self, other: PerBuffer<U>) -> PerBuffer<(T, U)> {
        PerBuffer {
            memory: (self.memory, other.memory),
            ledger: (self.ledger, other.ledger),
            golden: (self.golden, other.golden),
            kinds: (self.kinds, other.kinds),
            registers: (self.registers, other.registers),
        }
    }
}
