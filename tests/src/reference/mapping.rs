//! RULES, map, link and unmap.
use super::entries::{asked, link_word, mapping_word, run, Entry, Mapping, Place, Rights};
use super::ledger::{D, L2, W, X};
use super::refusals::{refusals, Refusal};
use super::View;
use crate::monitor::Kind;
use crate::outcome::Outcome;
use std::ops::{Range, RangeInclusive};

impl View<'_> {
    fn asked(&self) -> Rights {
        asked(self.arguments[3])
    }

    /// map target
    fn target_place(&self) -> Place {
        let count = match self.kind {
            Kind::MapL1Kind => 256,
            Kind::MapLargeKind => 16,
            _ => 1,
        };
        Place { first: self.target(), count }
    }

    fn target_blocks(&self) -> Range<u64> {
        self.target_place().blocks()
    }

    /// map list
    pub fn map_refusals(&self) -> Vec<Refusal<'_>> {
        refusals![
            1 => self.region_wrong() || self.golden_wrong(),
            2 => self.table_outside(),
            3 => self.table_unaligned() || self.index_unaligned() || self.target_unaligned(),
            4 => self.index_large() || self.kind_number_large(),
            5 => self.table_not(self.level().code()),
            7 => self.holder_executable(),
            8 => self.entry_taken(),
            9 => self.rights_wrong(),
            10 => self.target_unfit(),
            11 => self.target_mixes_rights(),
            12 => self.target_unsigned(),
            13 => self.counters_leave_range(),
        ]
    }

    /// map 3
    fn target_unaligned(&self) -> bool {
        self.target() % self.target_place().count != 0
    }

    /// map 4
    fn kind_number_large(&self) -> bool {
        self.kind_number() > 7
    }

    fn kind_number(&self) -> u32 {
        self.arguments[4]
    }

    /// Is the call about a large page?
    pub fn about_large(&self) -> bool {
        matches!(self.kind, Kind::MapLargeKind | Kind::UnmapLarge)
    }

    /// map 3, unmap 3
    fn index_unaligned(&self) -> bool {
        self.about_large() && self.index() % 16 != 0
    }

    /// The index, or the sixteen from it on.
    fn indices(&self) -> RangeInclusive<u32> {
        if self.about_large() {
            run(self.index())
        } else {
            self.index()..=self.index()
        }
    }

    /// The entries at these.
    pub fn indexed_entries(&self) -> Vec<Entry> {
        self.indices().map(|index| self.entry(self.level(), self.block(), index)).collect()
    }

    /// map 8
    fn entry_taken(&self) -> bool {
        self.indexed_entries().iter().any(|entry| *entry != Entry::Fault)
    }

    /// map 9
    fn rights_wrong(&self) -> bool {
        let Rights { read, write, execute } = self.asked();
        self.arguments[3] > 7 || (write || execute) && !read
    }

    /// map 10
    fn target_unfit(&self) -> bool {
        let Rights { write, execute, .. } = self.asked();
        self.place_outside(self.target_place())
            || write && self.target_blocks().any(|block| self.type_of(block) != D)
            || execute && self.target_blocks().contains(&self.holder())
    }

    /// map 11
    fn target_mixes_rights(&self) -> bool {
        let Rights { write, execute, .. } = self.asked();
        let clashes = write && self.target_counted(X) || execute && self.target_counted(W);
        write && execute || clashes
    }

    fn target_counted(&self, counter: usize) -> bool {
        self.target_blocks().any(|block| self.counter(block, counter) > 0)
    }

    /// map 12
    fn target_unsigned(&self) -> bool {
        self.asked().execute && self.target_blocks().any(|block| !self.known(block))
    }

    /// The entries that a map or link adds.
    pub fn new_entries(&self) -> Vec<Entry> {
        let mapping = Mapping { first: self.target(), rights: self.asked() };
        match self.kind {
            Kind::MapL1Kind => vec![Entry::Section(mapping)],
            Kind::MapL2Kind => vec![Entry::Page(mapping)],
            Kind::MapLargeKind => (0..16).map(|position| Entry::Large(mapping, position)).collect(),
            _ => vec![Entry::Link { block: self.target(), table: self.arguments[3] }],
        }
    }

    /// map leaves
    pub fn map_leaves(&self, outcome: &mut Outcome) {
        let [_, _, target, rights, _] = self.arguments;
        let kind = self.memory_kind(self.kind_number() as usize);
        self.rewrite(mapping_word(self.kind, target, rights, kind), outcome);
        self.mark_executed(outcome);
    }

    /// This word comes to the index, or to all sixteen, the counters change, and the holder is written.
    fn rewrite(&self, word: u32, outcome: &mut Outcome) {
        for index in self.indices() {
            let at = self.offset(self.block()) + 4 * index as usize;
            outcome.memory.extend((at..).zip(word.to_le_bytes()));
        }
        outcome.ledger.extend(self.changed_counters());
        self.unmark(self.holder(), outcome);
    }

    /// link list
    pub fn link_refusals(&self) -> Vec<Refusal<'_>> {
        refusals![
            1 => self.region_wrong(),
            2 => self.table_outside(),
            3 => self.table_unaligned(),
            4 => self.index_large() || self.link_table_large(),
            5 => self.table_not(self.level().code()),
            7 => self.holder_executable(),
            8 => self.entry_taken(),
            10 => self.link_target_unfit(),
            13 => self.counters_leave_range(),
        ]
    }

    /// link 4
    fn link_table_large(&self) -> bool {
        self.arguments[3] > 3
    }

    /// link 10
    fn link_target_unfit(&self) -> bool {
        !self.inside(self.target(), 1) || self.type_of(self.target()) != L2
    }

    /// link leaves
    pub fn link_leaves(&self, outcome: &mut Outcome) {
        let [_, _, target, table, _] = self.arguments;
        self.rewrite(link_word(target, table), outcome);
    }

    /// unmap list
    pub fn unmap_refusals(&self) -> Vec<Refusal<'_>> {
        refusals![
            1 => self.region_wrong(),
            2 => self.table_outside(),
            3 => self.table_unaligned() || self.index_unaligned(),
            4 => self.index_large(),
            5 => self.table_not(self.level().code()),
            7 => self.holder_executable(),
            8 => self.indexed_entries().iter().any(|entry| self.stays(*entry)),
            10 => self.indexed_entries().iter().any(|entry| self.outside(*entry)),
            13 => self.counters_leave_range(),
        ]
    }

    /// unmap 8: an entry that is not accepted, one of a large page in another call than unmap large, and every other in that one.
    fn stays(&self, entry: Entry) -> bool {
        entry == Entry::Unaccepted || entry.is_large() != self.about_large()
    }

    /// unmap leaves
    pub fn unmap_leaves(&self, outcome: &mut Outcome) {
        self.rewrite(0, outcome);
    }
}
