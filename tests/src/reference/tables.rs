//! RULES, begin, create and free.
use super::entries::{Entry, Level, Place};
use super::ledger::{record_word, ACTIVE, D, L, L2, MARK, TYPE, W, X};
use super::refusals::{refusals, Refusal};
use super::View;
use crate::bytes::word;
use crate::monitor::{KINDS_AT, KINDS_BYTES, NO_TABLE};
use crate::outcome::Outcome;
use std::collections::BTreeSet;

impl View<'_> {
    /// begin 1
    pub fn begin_refusals(&self) -> Vec<Refusal<'_>> {
        refusals![1 => self.region_wrong()]
    }

    /// begin leaves
    pub fn begin_leaves(&self, outcome: &mut Outcome) {
        outcome.ledger.extend([(0, self.arguments[0]), (ACTIVE, NO_TABLE)]);
        outcome.ledger.extend((0..KINDS_BYTES).step_by(4).map(|at| (KINDS_AT + at, word(self.kinds(), at))));
        for position in 0..self.blocks() as usize {
            outcome.ledger.extend([TYPE, W, X, L, MARK].map(|which| (record_word(position, which), 0)));
        }
    }

    /// create list
    pub fn create_refusals(&self) -> Vec<Refusal<'_>> {
        refusals![
            1 => self.region_wrong() || self.golden_wrong(),
            2 => self.table_outside(),
            3 => self.table_unaligned(),
            5 => self.table_not(D),
            6 => self.table_counted(),
            8 => self.table_entries().contains(&Entry::Unaccepted),
            10 => self.table_entries().iter().any(|entry| self.unfit(*entry)),
            11 => self.table_mixes_rights(),
            12 => self.table_executes_unsigned(),
            13 => self.counters_leave_range(),
        ]
    }

    /// create 6
    fn table_counted(&self) -> bool {
        self.table_blocks().any(|block| [W, X, L].into_iter().any(|counter| self.counter(block, counter) > 0))
    }

    /// The entries of the table that the call names.
    pub fn table_entries(&self) -> &[Entry] {
        self.entries.get_or_init(|| {
            let indices = 0..self.level().entries();
            indices.map(|index| self.entry(self.level(), self.block(), index)).collect()
        })
    }

    /// create 10, of one entry
    fn unfit(&self, entry: Entry) -> bool {
        self.outside(entry)
            || matches!(entry, Entry::Link { block, .. } if self.type_of(block) != L2)
            || entry.writable() && entry.covers().any(|block| self.unwritable(block))
    }

    fn unwritable(&self, block: u64) -> bool {
        self.type_of(block) != D || self.table_blocks().contains(&block)
    }

    /// create 11
    fn table_mixes_rights(&self) -> bool {
        self.changes().iter().zip(self.first()..).any(|(new, block)| {
            let (w, x) = (self.counter(block, W) + new[W], self.counter(block, X) + new[X]);
            (new[W] > 0 || new[X] > 0) && w > 0 && x > 0
        })
    }

    /// create 12
    fn table_executes_unsigned(&self) -> bool {
        let executable = self.table_entries().iter().filter(|entry| entry.executable());
        let places: BTreeSet<Place> = executable.filter_map(|entry| entry.covered()).collect();
        places.into_iter().any(|place| place.blocks().any(|block| !self.known(block)))
    }

    /// create leaves
    pub fn create_leaves(&self, outcome: &mut Outcome) {
        self.retype(self.level().code(), outcome);
        self.mark_executed(outcome);
    }

    /// The blocks get this type, and the counters change.
    fn retype(&self, code: u32, outcome: &mut Outcome) {
        let positions = self.table_blocks().filter_map(|block| self.position(block));
        outcome.ledger.extend(positions.map(|position| (record_word(position, TYPE), code)));
        outcome.ledger.extend(self.changed_counters());
    }

    /// free list
    pub fn free_refusals(&self) -> Vec<Refusal<'_>> {
        refusals![
            1 => self.region_wrong(),
            2 => self.table_outside(),
            3 => self.table_unaligned(),
            5 => self.table_not(self.level().code()),
            6 => self.table_in_use(),
            8 => self.table_entries().contains(&Entry::Unaccepted),
            10 => self.table_entries().iter().any(|entry| self.outside(*entry)),
            13 => self.counters_leave_range(),
        ]
    }

    /// free 6
    fn table_in_use(&self) -> bool {
        match self.level() {
            Level::L1 => u64::from(self.active()) == self.block(),
            Level::L2 => self.counter(self.block(), L) > 0,
        }
    }

    /// free leaves
    pub fn free_leaves(&self, outcome: &mut Outcome) {
        self.retype(D, outcome);
    }
}
