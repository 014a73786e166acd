//! The seeded faults. Each concerns one call, and a comparison of that call must find it. They stand in a copy of the reference that is made when the
//! tests are built (tests/build/faults.rs); the reference itself has none.
use crate::monitor::{Call, Kind, Kind::*};
use crate::outcome::{Lent, Outcome, Outcomes};
use std::cell::Cell;
use std::fmt;
use std::ops::Range;

include!(concat!(env!("OUT_DIR"), "/seeded.rs"));
include!(concat!(env!("OUT_DIR"), "/fault_list.rs"));

#[derive(Clone, Copy, PartialEq, Eq, Debug)]
pub struct Fault {
    pub call: Kind,
    pub change: Change,
}

#[derive(Clone, Copy, PartialEq, Eq, Debug)]
pub enum Change {
    /// A refusal's test is missing.
    Dropped(u32),
    /// Two neighbouring refusals stand in the wrong order.
    Swapped(u32, u32),
    /// A fault of tests/faults, by its number from 1 on.
    Edited(usize),
}

impl Change {
    /// Drops or swaps refusals of a call's list.
    fn disturb<T>(self, refusals: &mut Vec<(u32, T)>) {
        let place = |wanted, list: &[(u32, T)]| list.iter().position(|(number, _)| *number == wanted);
        match self {
            Change::Dropped(number) => refusals.retain(|(other, _)| *other != number),
            Change::Swapped(low, high) => {
                if let (Some(a), Some(b)) = (place(low, refusals), place(high, refusals)) {
                    refusals.swap(a, b);
                }
            }
            Change::Edited(_) => {}
        }
    }
}

impl fmt::Display for Fault {
    fn fmt(&self, f: &mut fmt::Formatter) -> fmt::Result {
        write!(f, "{}: ", self.call.name())?;
        match self.change {
            Change::Dropped(number) => write!(f, "{number} is not tested"),
            Change::Swapped(low, high) => write!(f, "{high} is tested before {low}"),
            Change::Edited(number) => write!(f, "{}", EDITED[number - 1].0),
        }
    }
}

/// All faults: dropped and swapped refusals, then those of tests/faults.
pub fn all() -> Vec<Fault> {
    let mut faults = Vec::new();
    for call in Kind::ALL {
        let numbers = call.refusals();
        faults.extend(numbers.iter().map(|number| Fault { call, change: Change::Dropped(*number) }));
        faults
            .extend(neighbours(call).into_iter().map(|(low, high)| Fault { call, change: Change::Swapped(low, high) }));
    }
    for (number, (_, calls)) in (1..).zip(EDITED) {
        faults.extend(calls.iter().map(|call| Fault { call: *call, change: Change::Edited(number) }));
    }
    faults
}

/// The fault that is displayed so.
pub fn named(name: &str) -> Option<Fault> {
    all().into_iter().find(|fault| fault.to_string() == name)
}

/// Neighbouring refusals that can apply together. A block outside has no type, an unaccepted entry no place, a page outside no counter, and a walk
/// has one end.
pub fn neighbours(call: Kind) -> Vec<(u32, u32)> {
    let apart: &[(u32, u32)] = match call {
        CreateL2 => &[(2, 5)],
        UnmapL1 => &[(8, 10)],
        UnmapL2 => &[(8, 10), (10, 13)],
        Read | Write | Fetch => &[(22, 23), (23, 24)],
        _ => &[],
    };
    call.refusals().windows(2).map(|pair| (pair[0], pair[1])).filter(|pair| !apart.contains(pair)).collect()
}

thread_local! {
    static CURRENT: Cell<usize> = const { Cell::new(0) };
}

/// The number of the edit in force, or 0.
fn current() -> usize {
    CURRENT.get()
}

/// The copy of the reference, with one fault or none.
pub struct Seeded {
    pub fault: Option<Fault>,
}

impl Outcomes for Seeded {
    fn outcome(&self, call: Call, lent: Lent) -> Outcome {
        let change = self.fault.filter(|fault| fault.call == call.kind).map(|fault| fault.change);
        CURRENT.set(if let Some(Change::Edited(number)) = change { number } else { 0 });
        let view = seeded::View::new(call, lent);
        let mut refusals = view.refusals();
        if let Some(change) = change {
            change.disturb(&mut refusals);
        }
        view.settle(seeded::answer(&refusals))
    }
}

/// Of some blocks, the first.
fn first_of(blocks: Range<u64>) -> Range<u64> {
    blocks.start..blocks.end.min(blocks.start + 1)
}

/// Of several blocks, all but the last; of one, this one.
fn but_last_of(blocks: Range<u64>) -> Range<u64> {
    blocks.start..blocks.end - u64::from(blocks.end - blocks.start > 1)
}
