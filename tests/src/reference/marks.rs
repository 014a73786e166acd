//! RULES, the marks: ledger 9 and 10, calls 8, and forget.
use super::ledger::{record_word, MARK, X};
use super::refusals::{refusals, Refusal};
use super::View;
use crate::outcome::Outcome;

impl View<'_> {
    pub fn mark(&self, block: u64) -> u32 {
        self.record(block, MARK)
    }

    /// ledger 9: the whole word counts.
    pub fn marked(&self, block: u64) -> bool {
        self.mark(block) == 1
    }

    /// Can the block be executed, as far as its contents matter (create 12, map 12)?
    pub fn known(&self, block: u64) -> bool {
        self.marked(block) || self.signed(block)
    }

    /// The blocks to which the call's new entries give execute.
    fn executed(&self) -> impl Iterator<Item = u64> + '_ {
        let blocks = self.changes().iter().zip(self.first()..);
        blocks.filter(|(change, _)| change[X] > 0).map(|(_, block)| block)
    }

    /// create leaves, map leaves: they are marked. Those that were not are counted (calls 8).
    pub fn mark_executed(&self, outcome: &mut Outcome) {
        outcome.hashed = self.executed().filter(|block| !self.marked(*block)).count() as u32;
        self.executed().for_each(|block| self.put_mark(block, 1, outcome));
    }

    /// ledger 10
    pub fn unmark(&self, block: u64, outcome: &mut Outcome) {
        self.put_mark(block, 0, outcome);
    }

    pub fn put_mark(&self, block: u64, mark: u32, outcome: &mut Outcome) {
        let place = self.position(block).map(|position| record_word(position, MARK));
        outcome.ledger.extend(place.map(|place| (place, mark)));
    }

    /// forget list
    pub fn forget_refusals(&self) -> Vec<Refusal<'_>> {
        refusals![
            1 => self.region_wrong(),
            2 => self.forgotten_outside(),
        ]
    }

    /// How many blocks are to be forgotten.
    fn count(&self) -> u64 {
        u64::from(self.arguments[1])
    }

    /// forget 2
    fn forgotten_outside(&self) -> bool {
        self.count() > 0 && !self.inside(self.block(), self.count())
    }

    /// forget leaves
    pub fn forget_leaves(&self, outcome: &mut Outcome) {
        let forgotten = self.block()..self.block() + self.count();
        let region = self.first()..self.first() + self.blocks();
        region.filter(|block| forgotten.contains(block)).for_each(|block| self.unmark(block, outcome));
    }
}
