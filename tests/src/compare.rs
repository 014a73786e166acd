//! Candidate and reference side by side: the answer, the byte and the number given, and every byte of memory, ledger and fault registers.
use crate::cases::Case;
use crate::faults::{Fault, Seeded};
use crate::monitor::{naming_memory_kind, Call, Given, Kind, Monitor, Store, BLOCK};
use crate::outcome::Outcomes;
use crate::reference::Reference;
use std::collections::{BTreeMap, BTreeSet};
use std::fmt;
use std::panic::{catch_unwind, AssertUnwindSafe};
use std::rc::Rc;

/// What was compared for one call.
#[derive(Default)]
pub struct Tally {
    pub cases: usize,
    pub accepted: usize,
    /// The answers given.
    pub answers: BTreeSet<u32>,
    /// Pairs of refusals that applied together, the first of them being the answer.
    pub pairs: BTreeSet<(u32, u32)>,
}

/// The first difference found.
pub struct Difference {
    pub case: String,
    pub call: Call,
    pub what: String,
}

impl fmt::Display for Difference {
    fn fmt(&self, f: &mut fmt::Formatter) -> fmt::Result {
        write!(f, "{} ({}): {}", self.call, self.case, self.what)
    }
}

pub type Outcome<T = ()> = Result<T, Difference>;

pub struct Comparer<'a> {
    candidate: &'a dyn Monitor,
    reference: &'a dyn Monitor,
    /// Says all refusals that apply, not only the answer.
    reasons: Option<&'a Reference>,
    /// Faults that no case has shown yet.
    pub unfound: Vec<Fault>,
    pub tallies: BTreeMap<Kind, Tally>,
    /// Every call that names no kinds, or no kind, is made as the one that does, with each number in turn.
    naming_memory_kinds: bool,
}

impl<'a> Comparer<'a> {
    pub fn new(candidate: &'a dyn Monitor, reference: &'a dyn Monitor) -> Self {
        let (unfound, tallies) = (Vec::new(), BTreeMap::new());
        Comparer { candidate, reference, reasons: None, unfound, tallies, naming_memory_kinds: false }
    }

    /// Looks for these faults. The reference is the copy into which they are seeded, without a fault.
    pub fn with_faults(candidate: &'a dyn Monitor, faults: Vec<Fault>) -> Self {
        Comparer { unfound: faults, ..Comparer::new(candidate, &Seeded { fault: None }) }
    }

    /// Notes pairs of refusals too.
    pub fn with_pairs(candidate: &'a dyn Monitor, reference: &'a Reference) -> Self {
        Comparer { reasons: Some(reference), ..Comparer::new(candidate, reference) }
    }

    /// Runs cases of calls that name no kinds, or no kind, with those that do.
    pub fn naming_memory_kinds(&mut self, cases: impl FnOnce(&mut Self) -> Outcome) -> Outcome {
        self.naming_memory_kinds = true;
        let outcome = cases(self);
        self.naming_memory_kinds = false;
        outcome
    }

    /// Are pairs of refusals noted?
    pub fn notes_pairs(&self) -> bool {
        self.reasons.is_some()
    }

    /// How many calls were compared.
    pub fn count(&self) -> usize {
        self.tallies.values().map(|tally| tally.cases).sum()
    }

    fn named(&self, call: Call) -> Call {
        let Some(kind) = naming_memory_kind(call.kind).filter(|_| self.naming_memory_kinds) else { return call };
        let number = self.tallies.get(&kind).map_or(0, |tally| tally.cases % 8);
        let [block, index, target, rights, _] = call.arguments;
        Call { kind, arguments: [block, index, target, rights, number as u32] }
    }

    /// Runs one case on both and compares; the case's own expectation is held against the candidate.
    pub fn check(&mut self, case: Case) -> Outcome {
        let Case { name, call, mut store, expected, hashed } = case;
        let given = self.step(&name, call, &mut store)?;
        let (answer, number) = (expected.unwrap_or(given.answer), hashed.unwrap_or(given.hashed));
        if answer != given.answer {
            return Err(difference(&name, call, format!("answer {}, expected {answer}", given.answer)));
        }
        if number != given.hashed {
            return Err(difference(&name, call, format!("{} blocks hashed, expected {number}", given.hashed)));
        }
        Ok(())
    }

    /// Runs a call on both and compares. The store is then what the candidate left.
    pub fn step(&mut self, name: &str, call: Call, store: &mut Store) -> Outcome<Given> {
        let call = self.named(call);
        let reasons = self.reasons.map_or(Vec::new(), |reference| reference.reasons(call, store));
        let before = (!self.unfound.is_empty()).then(|| store.clone());
        let mut other = store.clone();
        let expected = self.reference.perform(call, &mut other);
        let given = caught(|| self.candidate.perform(call, store)).map_err(|panic| difference(name, call, panic))?;
        let tally = self.tallies.entry(call.kind).or_default();
        tally.cases += 1;
        tally.accepted += usize::from(given.answer == 0);
        tally.answers.insert(given.answer);
        tally.pairs.extend(reasons.iter().skip(1).map(|other| (reasons[0], *other)));
        if let Some(what) = compared(given, expected, store, &other) {
            return Err(difference(name, call, what));
        }
        if let Some(before) = before {
            self.drop_found(call, given, &before, store);
        }
        Ok(given)
    }

    /// Drops the faults with which the call would have left something else.
    fn drop_found(&mut self, call: Call, given: Given, before: &Store, left: &Store) {
        let right = Seeded { fault: None }.outcome(call, before.into());
        self.unfound.retain(|fault| {
            let outcome = Seeded { fault: Some(*fault) }.outcome(call, before.into());
            outcome == right || {
                let mut other = before.clone();
                compared(given, outcome.apply(&mut other), left, &other).is_none()
            }
        });
    }
}

/// What a function gives, or the words of its panic.
pub fn caught<T>(given: impl FnOnce() -> T) -> Result<T, String> {
    catch_unwind(AssertUnwindSafe(given)).map_err(|panic| match panic.downcast::<String>() {
        Ok(words) => *words,
        Err(panic) => panic.downcast::<&str>().map_or_else(|_| "a panic".to_string(), |words| words.to_string()),
    })
}

pub fn difference(case: &str, call: Call, what: String) -> Difference {
    Difference { case: case.to_string(), call, what }
}

fn compared(given: Given, expected: Given, store: &Store, other: &Store) -> Option<String> {
    if given.answer != expected.answer {
        return Some(format!("answer {}, reference {}", given.answer, expected.answer));
    }
    if given.byte != expected.byte {
        return Some(format!("byte {:#x}, reference {:#x}", given.byte, expected.byte));
    }
    if given.hashed != expected.hashed {
        return Some(format!("{} blocks hashed, reference {}", given.hashed, expected.hashed));
    }
    let shared = Rc::ptr_eq(&store.memory, &other.memory);
    let memory = if shared { None } else { differing("memory", BLOCK, &store.memory, &other.memory) };
    memory
        .or_else(|| differing("ledger", store.ledger.len(), &store.ledger, &other.ledger))
        .or_else(|| differing("registers", 4, &store.registers, &other.registers))
}

/// The first byte that differs, by the part of so many bytes in which it lies.
pub fn differing(what: &str, unit: usize, given: &[u8], expected: &[u8]) -> Option<String> {
    if given == expected {
        return None;
    }
    let at = given.iter().zip(expected).position(|(a, b)| a != b)?;
    let (unit, mine, theirs) = (unit.max(1), given[at], expected[at]);
    Some(format!("{what} byte {at} (part {}, byte {}) is {mine:#x}, reference {theirs:#x}", at / unit, at % unit))
}
