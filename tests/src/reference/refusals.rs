//! RULES, refusal: the tests that calls have in common. Every test can be asked whatever the earlier ones say.
use super::entries::{decode, Entry, Level, Place};
use super::ledger::{L, LIMIT, W, X};
use super::View;
use crate::bytes::word;

/// A number and its test.
pub type Refusal<'a> = (u32, Box<dyn Fn() -> bool + 'a>);

/// A call's list.
macro_rules! refusals {
    ($($number:literal => $test:expr),* $(,)?) => {
        vec![$(($number, Box::new(move || $test) as Box<dyn Fn() -> bool + '_>)),*]
    };
}
pub(super) use refusals;

impl View<'_> {
    /// refusal 1, but for the golden image
    pub fn region_wrong(&self) -> bool {
        self.memory_wrong() || self.ledger_wrong() || self.first_wrong() || self.kinds_wrong()
    }

    /// The blocks of the table that the call names.
    pub fn table_blocks(&self) -> std::ops::Range<u64> {
        self.block()..self.block() + self.level().blocks()
    }

    /// refusal 2
    pub fn table_outside(&self) -> bool {
        !self.inside(self.block(), self.level().blocks())
    }

    /// refusal 3
    pub fn table_unaligned(&self) -> bool {
        self.level() == Level::L1 && self.block() % 4 != 0
    }

    /// refusal 4
    pub fn index_large(&self) -> bool {
        self.index() >= self.level().entries()
    }

    /// refusal 5
    pub fn table_not(&self, code: u32) -> bool {
        self.table_blocks().any(|block| self.type_of(block) != code)
    }

    /// entries 3
    pub fn holder(&self) -> u64 {
        self.block() + u64::from(self.index() / 1024)
    }

    /// refusal 7
    pub fn holder_executable(&self) -> bool {
        self.counter(self.holder(), X) > 0
    }

    /// refusal 13
    pub fn counters_leave_range(&self) -> bool {
        self.changes().iter().zip(self.first()..).any(|(change, block)| {
            [W, X, L].into_iter().any(|c| change[c] != 0 && leaves_range(self.counter(block, c), change[c]))
        })
    }

    /// The word of a table at an index.
    pub fn word_at(&self, table: u64, index: u32) -> u32 {
        word(self.memory, self.offset(table) + 4 * index as usize)
    }

    /// The entry of a table at an index.
    pub fn entry(&self, level: Level, table: u64, index: u32) -> Entry {
        decode(level, |index| self.word_at(table, index), index)
    }

    /// Does a part of the place lie outside the region?
    pub fn place_outside(&self, place: Place) -> bool {
        !self.inside(place.first, place.count)
    }

    /// The same for an entry's place, if it has one.
    pub fn outside(&self, entry: Entry) -> bool {
        entry.place().is_some_and(|place| self.place_outside(place))
    }
}

fn leaves_range(old: i64, change: i64) -> bool {
    let end = old + change;
    let (below, above) = (end < 0, end > LIMIT);
    below || above
}
