//! The monitor, written for tests from documents 01 and 02 and their readings: slow, plain, and total on all buffers and arguments. It shares no
//! code and no definition with the proved crates; when its large pages were written, the definitions of entries had been seen. It follows docs/RULES.md
//! section by section and cites its clauses.
pub mod entries;
mod guest;
mod ledger;
mod mapping;
mod marks;
mod refusals;
mod region;
mod registers;
mod tables;

use crate::monitor::{Call, Kind, Store, NUMBERS};
use crate::outcome::{Lent, Outcome, Outcomes};
use entries::{Entry, Level};
use ledger::Change;
use refusals::Refusal;
use std::cell::OnceCell;
use Kind::*;

#[derive(Default)]
pub struct Reference;

impl Reference {
    pub fn new() -> Reference {
        Reference
    }

    /// All refusal numbers that apply, not only the lowest.
    pub fn reasons(&self, call: Call, store: &Store) -> Vec<u32> {
        let view = View::new(call, store.into());
        let refusals = view.refusals();
        refusals.iter().filter(|(_, test)| test()).map(|(number, _)| *number).collect()
    }
}

impl Outcomes for Reference {
    fn outcome(&self, call: Call, lent: Lent) -> Outcome {
        let view = View::new(call, lent);
        let refusals = view.refusals();
        view.settle(answer(&refusals))
    }
}

/// calls 2
pub fn answer(refusals: &[Refusal]) -> u32 {
    refusals.iter().find(|(_, test)| test()).map_or(0, |(number, _)| *number)
}

/// begin kinds, map kind: a call that names no kinds, or no kind, as the one that does.
fn naming_memory_kind(call: Call) -> Call {
    let Some(kind) = crate::monitor::naming_memory_kind(call.kind) else { return call };
    let [block, index, target, rights, _] = call.arguments;
    Call { kind, arguments: [block, index, target, rights, 0] }
}

/// begin kinds: those that are lent, or those of a begin that names none.
fn given_kinds(call: Kind, lent: &[u8]) -> &[u8] {
    match call {
        Begin => &[3, 0, 3, 0, 3, 0, 3, 0, 3, 0, 3, 0, 3, 0, 3, 0],
        _ => lent,
    }
}

/// A call, as one that names kinds or a kind if it is a begin or a map, with the bytes that it is lent.
pub struct View<'a> {
    kind: Kind,
    arguments: [u32; NUMBERS],
    memory: &'a [u8],
    ledger: &'a [u8],
    golden: &'a [u8],
    given_kinds: &'a [u8],
    registers: &'a [u8],
    /// The entries of the table that the call names, once they have been read.
    entries: OnceCell<Vec<Entry>>,
    /// What the call adds to the counter of each block, once it has been counted.
    changes: OnceCell<Vec<Change>>,
}

impl<'a> View<'a> {
    pub fn new(call: Call, lent: Lent<'a>) -> View<'a> {
        let Call { kind, arguments } = naming_memory_kind(call);
        let Lent { memory, ledger, golden, kinds, registers } = lent;
        let given_kinds = given_kinds(call.kind, kinds);
        let (entries, changes) = (OnceCell::new(), OnceCell::new());
        View { kind, arguments, memory, ledger, golden, given_kinds, registers, entries, changes }
    }

    /// What the call gives and leaves with this answer.
    pub fn settle(&self, answer: u32) -> Outcome {
        let mut outcome = Outcome { answer, ..Outcome::default() };
        // calls 3, 5 and 8
        if answer == 0 {
            self.leave(&mut outcome);
        }
        self.tell_fault(&mut outcome);
        outcome
    }

    /// A begin or map that names no kind is met neither here nor in `leave`: `new` has made it the one that does.
    pub fn refusals(&self) -> Vec<Refusal<'_>> {
        match self.kind {
            Begin | BeginKinds => self.begin_refusals(),
            CreateL1 | CreateL2 => self.create_refusals(),
            FreeL1 | FreeL2 => self.free_refusals(),
            MapL1 | MapL2 | MapLarge | MapL1Kind | MapL2Kind | MapLargeKind => self.map_refusals(),
            Link => self.link_refusals(),
            UnmapL1 | UnmapL2 | UnmapLarge => self.unmap_refusals(),
            Switch => self.switch_refusals(),
            Read | Write | Fetch => self.guest_refusals(),
            Forget => self.forget_refusals(),
            Acknowledge => self.acknowledge_refusals(),
        }
    }

    /// calls 4
    fn leave(&self, outcome: &mut Outcome) {
        match self.kind {
            Begin | BeginKinds => self.begin_leaves(outcome),
            CreateL1 | CreateL2 => self.create_leaves(outcome),
            FreeL1 | FreeL2 => self.free_leaves(outcome),
            MapL1 | MapL2 | MapLarge | MapL1Kind | MapL2Kind | MapLargeKind => self.map_leaves(outcome),
            Link => self.link_leaves(outcome),
            UnmapL1 | UnmapL2 | UnmapLarge => self.unmap_leaves(outcome),
            Switch => self.switch_leaves(outcome),
            Read | Fetch => self.guest_byte(outcome),
            Write => self.guest_leaves(outcome),
            Forget => self.forget_leaves(outcome),
            Acknowledge => self.acknowledge_leaves(outcome),
        }
    }

    /// The level of the table that the call names.
    fn level(&self) -> Level {
        match self.kind {
            CreateL2 | FreeL2 | MapL2Kind | UnmapL2 | MapLargeKind | UnmapLarge => Level::L2,
            _ => Level::L1,
        }
    }

    fn block(&self) -> u64 {
        u64::from(self.arguments[0])
    }

    fn index(&self) -> u32 {
        self.arguments[1]
    }

    fn target(&self) -> u64 {
        u64::from(self.arguments[2])
    }
}
