//! RULES, switch and guest.
use super::entries::{bits, Entry, Level, Rights};
use super::ledger::ACTIVE;
use super::refusals::{refusals, Refusal};
use super::View;
use crate::monitor::{Kind, BLOCK};
use crate::outcome::Outcome;

/// Where a walk ends: a byte of memory, and the rights of the last entry.
pub struct End {
    pub at: usize,
    pub rights: Rights,
}

impl View<'_> {
    /// switch list
    pub fn switch_refusals(&self) -> Vec<Refusal<'_>> {
        refusals![
            1 => self.region_wrong(),
            2 => self.table_outside(),
            3 => self.table_unaligned(),
            5 => self.table_not(self.level().code()),
        ]
    }

    /// switch leaves
    pub fn switch_leaves(&self, outcome: &mut Outcome) {
        outcome.ledger.push((ACTIVE, self.arguments[0]));
    }

    /// guest list; a walk has one of the last three at most
    pub fn guest_refusals(&self) -> Vec<Refusal<'_>> {
        refusals![
            1 => self.region_wrong() || self.registers_wrong(),
            21 => self.no_active_table(),
            22 => self.access() == Err(22),
            23 => self.access() == Err(23),
            24 => self.access() == Err(24),
        ]
    }

    /// guest 21
    fn no_active_table(&self) -> bool {
        let active = u64::from(self.active());
        active % 4 != 0 || !self.inside(active, 4)
    }

    pub fn address(&self) -> u32 {
        self.arguments[0]
    }

    /// The entry at which the walk starts.
    fn first_entry(&self) -> Entry {
        self.entry(Level::L1, u64::from(self.active()), bits(self.address(), 31, 20))
    }

    /// registers 2: the level of the entry at which a walk stops or ends that meets no other refusal than 22 and 23.
    pub fn reached_level(&self) -> Level {
        if self.first_entry().links() {
            Level::L2
        } else {
            Level::L1
        }
    }

    /// guest walk; a walk that is refused gives the number
    pub fn walk(&self) -> Result<End, u32> {
        match self.met(self.first_entry())? {
            Entry::Link { block, table } => self.walk_on(block, table),
            section => Ok(self.end(section, bits(self.address(), 19, 12))),
        }
    }

    fn walk_on(&self, block: u64, table: u32) -> Result<End, u32> {
        let entry = self.entry(Level::L2, block, 256 * table + bits(self.address(), 19, 12));
        Ok(self.end(self.met(entry)?, 0))
    }

    fn met(&self, entry: Entry) -> Result<Entry, u32> {
        // guest 24
        if entry == Entry::Unaccepted || self.outside(entry) {
            return Err(24);
        }
        // guest 22
        if entry == Entry::Fault {
            return Err(22);
        }
        Ok(entry)
    }

    /// guest end, in this one of the blocks that the entry covers
    fn end(&self, entry: Entry, number: u32) -> End {
        let (Entry::Section(mapping) | Entry::Page(mapping) | Entry::Large(mapping, _)) = entry else {
            unreachable!("a walk ends at a mapping")
        };
        let block = entry.covers().start + u64::from(number);
        End { at: self.offset(block) + self.address() as usize % BLOCK, rights: mapping.rights }
    }

    /// The walk, and the right at its end (guest 23).
    fn access(&self) -> Result<(), u32> {
        let rights = self.walk()?.rights;
        let allowed = match self.kind {
            Kind::Write => rights.write,
            Kind::Fetch => rights.execute,
            _ => rights.read,
        };
        if allowed {
            Ok(())
        } else {
            Err(23)
        }
    }

    /// guest byte
    pub fn guest_byte(&self, outcome: &mut Outcome) {
        if let Ok(End { at, .. }) = self.walk() {
            outcome.byte = self.memory.get(at).map_or(0, |byte| *byte);
        }
    }

    /// guest leaves
    pub fn guest_leaves(&self, outcome: &mut Outcome) {
        if let Ok(End { at, .. }) = self.walk() {
            outcome.memory.push((at, self.arguments[1] as u8));
            self.unmark(self.block_of(at), outcome);
        }
    }
}
