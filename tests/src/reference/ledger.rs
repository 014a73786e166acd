//! RULES, ledger.
use super::entries::Entry;
use super::View;
use crate::bytes::word;
use crate::monitor::{Kind, KINDS_AT, KINDS_BYTES, LEDGER_HEAD, LEDGER_RECORD};

/// The words of a record (ledger 3).
pub const TYPE: usize = 0;
pub const W: usize = 1;
pub const X: usize = 2;
pub const L: usize = 3;
pub const MARK: usize = 4;

/// The types (ledger 4) of data and of an L2 block.
pub const D: u32 = 0;
pub const L2: u32 = 2;

/// ledger 8
pub const LIMIT: i64 = 1 << 22;

/// Where the head has the active word (ledger 2).
pub const ACTIVE: usize = 4;

/// What a call adds to a block's record: nothing to its type, then to w, x and l.
pub type Change = [i64; 4];

/// Where a word of a record stands.
pub fn record_word(position: usize, which: usize) -> usize {
    LEDGER_HEAD + LEDGER_RECORD * position + 4 * which
}

impl View<'_> {
    /// ledger 1, broken.
    pub fn ledger_wrong(&self) -> bool {
        self.ledger.len() != LEDGER_HEAD + LEDGER_RECORD * self.blocks() as usize
    }

    /// ledger 2
    pub fn active(&self) -> u32 {
        word(self.ledger, ACTIVE)
    }

    /// The bytes of the memory kinds (ledger 11), in begin those that it is given (begin 1).
    pub fn kinds(&self) -> &[u8] {
        let stored = self.ledger.get(KINDS_AT..KINDS_AT + KINDS_BYTES);
        if self.kind == Kind::BeginKinds {
            self.given_kinds
        } else {
            stored.unwrap_or(&[])
        }
    }

    /// The memory kind of a number (ledger 11), 0 if there is none.
    pub fn memory_kind(&self, number: usize) -> u32 {
        let bytes = self.kinds().chunks_exact(2).nth(number);
        bytes.map_or(0, |bytes| u32::from(bytes[0]) + 256 * u32::from(bytes[1]))
    }

    /// refusal 1, begin 1: the kinds are not eight, or one of them is not lawful (ledger 12).
    pub fn kinds_wrong(&self) -> bool {
        self.kinds().len() != KINDS_BYTES || (0..8).any(|number| self.memory_kind(number) > 127)
    }

    /// A word of the block's record, 0 for a block outside.
    pub fn record(&self, block: u64, which: usize) -> u32 {
        self.position(block).map_or(0, |position| word(self.ledger, record_word(position, which)))
    }

    /// ledger 4: the whole word counts.
    pub fn type_of(&self, block: u64) -> u32 {
        self.record(block, TYPE)
    }

    pub fn counter(&self, block: u64, which: usize) -> i64 {
        i64::from(self.record(block, which))
    }

    /// What these entries add to the counters (ledger 5 to 7), times a factor.
    fn counts(&self, entries: &[Entry], factor: i64) -> Vec<Change> {
        let region = self.first()..self.first() + self.blocks();
        let mut changes = vec![[0; 4]; self.blocks() as usize];
        for entry in entries {
            let gives = [false, entry.writable(), entry.executable(), entry.links()].map(i64::from);
            for block in entry.covers().filter(|block| region.contains(block)) {
                let change = &mut changes[(block - region.start) as usize];
                for counter in [W, X, L] {
                    change[counter] += factor * gives[counter];
                }
            }
        }
        changes
    }

    /// What the call would add to the counters.
    pub fn changes(&self) -> &[Change] {
        self.changes.get_or_init(|| match self.kind {
            Kind::CreateL1 | Kind::CreateL2 => self.counts(self.table_entries(), 1),
            Kind::FreeL1 | Kind::FreeL2 => self.counts(self.table_entries(), -1),
            Kind::MapL1Kind | Kind::MapL2Kind | Kind::MapLargeKind | Kind::Link => self.counts(&self.new_entries(), 1),
            Kind::UnmapL1 | Kind::UnmapL2 | Kind::UnmapLarge => self.counts(&self.indexed_entries(), -1),
            _ => Vec::new(),
        })
    }

    /// The counters that the call changes, with what they end with.
    pub fn changed_counters(&self) -> Vec<(usize, u32)> {
        let mut words = Vec::new();
        for (position, change) in self.changes().iter().enumerate() {
            for counter in [W, X, L].into_iter().filter(|counter| change[*counter] != 0) {
                let at = record_word(position, counter);
                words.push((at, (i64::from(word(self.ledger, at)) + change[counter]) as u32));
            }
        }
        words
    }
}
