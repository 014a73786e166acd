//! Lists 7 to 12 and 14 to 16 find unsafe monitors by themselves: each monitor here is compared with nothing.
use std::collections::BTreeSet;
use tests::faults::{self, Seeded};
use tests::lists::{self, List};
use tests::reference::Reference;

/// Faults, each with the clauses that it breaks in the first list without kinds in which it breaks any. Every clause but lists 15 and 16 is broken alone
/// by one of them.
const UNSAFE: [(&str, &[u32]); 105] = [
    ("create_l2: 11 is not tested", &[7, 11]),
    ("create_l2: 11 compares new entries with the old counters only", &[7, 11]),
    ("map_l2: write onto x above 0 is taken", &[7]),
    ("map_l2: execute onto w above 0 is taken", &[7]),
    ("map_l2: the holder may be executed", &[8, 14]),
    ("map_l2: 12 is not tested", &[8, 11, 14]),
    ("create_l2: 12 is not tested", &[8, 14]),
    ("map_l2: 7 is not tested", &[8]),
    ("begin: begin keeps w", &[9]),
    ("begin: begin keeps x", &[9]),
    ("begin: begin keeps l", &[9]),
    ("map_l2: 11 is not tested", &[9]),
    ("unmap_l2: no counter is changed", &[9]),
    ("free_l2: no counter is changed", &[9]),
    ("create_l2: no counter is changed", &[8, 9, 10, 11, 12]),
    ("map_l2: no counter is changed", &[8, 9, 10, 11, 12]),
    ("map_l1: a section counts on its first block", &[9]),
    ("link: l is not changed", &[9, 11, 12]),
    ("map_l2: a writable target may have any type", &[10, 12]),
    ("write: write needs read only", &[8]),
    ("fetch: the byte given is 0", &[11]),
    ("fetch: fetch needs read only", &[11]),
    ("fetch: the walk takes the wrong L2 index", &[11]),
    ("begin: begin keeps the active word", &[11]),
    ("switch: a switch from another table stores nothing", &[11]),
    ("free_l1: 6 is not tested", &[11]),
    ("create_l1: a counter of 2 is refused", &[12]),
    ("create_l2: a counter of 2 is refused", &[12]),
    ("free_l1: a counter that ends at 0 is refused", &[12]),
    ("free_l2: a counter that ends at 0 is refused", &[12]),
    ("map_l1: a counter of 2 is refused", &[12]),
    ("map_l2: a counter of 2 is refused", &[12]),
    ("link: a counter of 2 is refused", &[12]),
    ("unmap_l1: a counter that ends at 0 is refused", &[12]),
    ("unmap_l2: a counter that ends at 0 is refused", &[12]),
    ("read: a fault on the walk gives 24", &[12]),
    ("write: a fault on the walk gives 24", &[12]),
    ("fetch: a fault on the walk gives 24", &[12]),
    ("map_large: 11 looks at the first of several blocks", &[7]),
    ("map_large: 12 looks at the first of several blocks", &[8, 14]),
    ("map_large: the first of several blocks alone must be D", &[10]),
    ("map_large: 7 is not tested", &[8]),
    ("map_large: the first of sixteen counters is changed", &[7, 9, 10, 11, 12]),
    ("unmap_large: the first of sixteen counters is changed", &[9]),
    ("create_l2: each entry of a large page counts on its first block", &[7, 9]),
    ("map_large: one of sixteen words is written", &[12]),
    ("unmap_large: one of sixteen words is written", &[12]),
    ("map_large: 8 looks at the first of the sixteen entries", &[9]),
    ("map_l2: an entry of a large page can be mapped over", &[12]),
    ("unmap_l2: unmap L2 takes away an entry of a large page", &[12]),
    ("create_l2: a run is a fault", &[7, 9]),
    ("create_l2: a lone entry is accepted", &[12]),
    ("create_l2: a run's last entry is not compared", &[9]),
    ("create_l2: 11 passes over blocks that only a large page executes", &[7]),
    ("fetch: each entry of a large page counts on its first block", &[11]),
    ("fetch: XN of a large page is ignored", &[11]),
    ("fetch: the position in a large page is counted from its end", &[11]),
    ("write: bits 15..12 of the address are added to a large page's own block", &[10]),
    ("write: each entry of a large page counts on the next one's block", &[10]),
    ("read: a run is not accepted", &[12]),
    ("write: a run is not accepted", &[12]),
    ("fetch: a run is not accepted", &[12]),
    ("map_large: a counter of 2 is refused", &[12]),
    ("unmap_large: a counter that ends at 0 is refused", &[12]),
    ("free_l2: the first entry of a large page alone counts", &[9]),
    ("begin: begin keeps the marks", &[8, 11, 14]),
    ("begin: begin keeps the last mark", &[8, 11, 14]),
    ("begin: begin marks all blocks", &[8, 11, 14]),
    ("create_l2: the table is marked", &[14]),
    ("map_l2: the mark of the next block is believed", &[8, 14]),
    ("map_l2: the mark of the block before is believed", &[8, 14]),
    ("map_l2: a map to read marks the target", &[14]),
    ("map_large: a map to read marks the target", &[8, 14]),
    ("map_large: one marked block is enough for all", &[8, 11, 14]),
    ("map_l1: a map to read marks the target", &[14]),
    ("map_l2: the holder keeps its mark", &[14]),
    ("map_large: the holder keeps its mark", &[8, 14]),
    ("unmap_large: the holder keeps its mark", &[8, 14]),
    ("link: the holder keeps its mark", &[8, 14]),
    ("link: the table's first block is unmarked", &[8, 14]),
    ("map_l2: the holder is marked", &[14]),
    ("link: the holder is marked", &[8, 14]),
    ("unmap_l2: the holder is marked", &[14]),
    ("unmap_l1: the holder is marked", &[14]),
    ("unmap_large: the holder is marked", &[14]),
    ("map_l2: the block after the holder is unmarked", &[14]),
    ("map_l2: the target is unmarked in place of the holder", &[14]),
    ("write: a write keeps the mark", &[8, 11, 14]),
    ("write: a write clears the mark of the next block", &[8, 11, 14]),
    ("write: a write clears the mark of the L1 table", &[8, 11, 14]),
    ("write: a write of the first byte clears the mark of the block before", &[8, 11, 14]),
    ("forget: forget marks", &[14]),
    ("map_l2: a signature in the next place is enough", &[8, 14]),
    ("map_l2: a signature at the region's start is enough", &[8, 14]),
    ("map_l2: a signature in the region before is enough", &[8, 14]),
    ("map_l2: the lowest bit of the number does not count", &[8, 14]),
    ("map_l2: of the number only the bits above the low eight count", &[8, 14]),
    ("map_l2: the number is counted from B", &[8, 14]),
    ("map_l2: the number is counted in its section", &[8, 14]),
    ("map_l2: the number of the next block is hashed", &[8, 11, 14]),
    ("map_l2: the number of the region's first block is hashed", &[8, 14]),
    ("map_l2: the number is 0 in every place", &[8, 14]),
    ("map_large: a signature in the region before is enough", &[8, 14]),
    ("map_large: the number is counted from B", &[8, 14]),
    ("map_large: the number is counted in its section", &[8, 14]),
];

/// Faults about kinds and of calls that name them, with the clauses that each breaks in the first list with kinds in which it breaks any.
const UNSAFE_WITH_KINDS: [(&str, &[u32]); 62] = [
    ("begin: begin leaves the kinds", &[15]),
    ("begin: begin without kinds stores 0", &[15]),
    ("begin: begin without kinds stores 7", &[15]),
    ("begin: begin without kinds stores another kind 7", &[15]),
    ("begin_kinds: begin leaves the kinds", &[15]),
    ("begin_kinds: begin stores the first four kinds", &[15]),
    ("begin_kinds: begin stores the kinds in another order", &[15]),
    ("begin_kinds: begin exchanges the kinds of each two", &[15]),
    ("begin_kinds: begin stores each kind under the next number", &[15]),
    ("begin_kinds: begin with kinds stores B and C eight times", &[15]),
    ("begin_kinds: begin stores kinds without S and nG", &[15]),
    ("begin_kinds: 15 bytes of kinds are taken", &[15]),
    ("begin_kinds: 17 bytes of kinds are taken", &[15]),
    ("begin_kinds: begin keeps the marks", &[14]),
    ("begin_kinds: begin keeps w", &[9]),
    ("begin_kinds: begin keeps the active word", &[11]),
    ("create_l1: a create or free writes the first kinds", &[15]),
    ("create_l2: a create or free writes the first kinds", &[15]),
    ("free_l2: a create or free writes the first kinds", &[15]),
    ("map_l1: a map writes the first kinds", &[15]),
    ("map_l2: a map writes the first kinds", &[15]),
    ("map_l2_kind: a map writes the last kinds", &[15]),
    ("map_l2_kind: a map makes its kind the first", &[15]),
    ("map_large_kind: a map writes the first kinds", &[15]),
    ("link: a link writes the first kinds", &[15]),
    ("unmap_l1: an unmap writes the first kinds", &[15]),
    ("unmap_l2: an unmap writes the first kinds", &[15]),
    ("unmap_large: an unmap writes the first kinds", &[15]),
    ("switch: a switch writes the first kinds", &[15]),
    ("switch: a switch writes the block behind the active word too", &[15]),
    ("write: a write of the guest writes the last kinds", &[15]),
    ("forget: forget writes the last kinds", &[15]),
    ("forget: forget clears the kinds", &[15]),
    ("map_l2_kind: 11 is not tested", &[7]),
    ("map_l2_kind: 12 is not tested", &[8, 14]),
    ("map_l2_kind: 7 is not tested", &[8]),
    ("map_l2_kind: no counter is changed", &[9, 12]),
    ("map_l2_kind: write onto x above 0 is taken", &[7]),
    ("map_l2_kind: execute onto w above 0 is taken", &[7]),
    ("map_l2_kind: the holder may be executed", &[8, 11, 14]),
    ("map_l2_kind: a writable target may have any type", &[10]),
    ("map_l2_kind: a counter of 2 is refused", &[12]),
    ("map_l2_kind: the holder keeps its mark", &[8, 14]),
    ("map_l1_kind: a section counts on its first block", &[9]),
    ("map_l1_kind: a map to read marks the target", &[14]),
    ("map_large_kind: 11 looks at the first of several blocks", &[7]),
    ("map_large_kind: 12 looks at the first of several blocks", &[8, 14]),
    ("map_large_kind: one of sixteen words is written", &[12]),
    ("map_large_kind: a kind stands in the first of sixteen words only", &[12]),
    ("map_large_kind: the first of sixteen counters is changed", &[7, 9, 12]),
    ("map_l1_kind: a section has TEX where a page has it", &[9]),
    ("map_large_kind: a large page has TEX where a page has it", &[12]),
    ("map_l1_kind: a section has S and nG where a page has them", &[9]),
    ("map_l2_kind: a page has TEX where a section has it", &[9]),
    ("map_l2: a page has S and nG where a section has them", &[9]),
    ("map_l2_kind: the bits of a kind stand one place too low", &[9]),
    ("map_l2_kind: memory that is not cached is mapped to be read only", &[9]),
    ("map_l2_kind: device memory is mapped without execute", &[9]),
    ("map_l2_kind: a signature in the region before is enough", &[8, 11, 14]),
    ("map_l2_kind: the number is counted from B", &[8, 11, 14]),
    ("map_l2_kind: the number is counted in its section", &[8, 11, 14]),
    ("map_l2_kind: the number is 0 in every place", &[8, 11, 14]),
];

/// Faults of acknowledge, with the clauses that each breaks in the first list with drawn fault registers in which it breaks any.
const UNSAFE_WITH_REGISTERS: [(&str, &[u32]); 6] = [
    ("acknowledge: acknowledge takes the active table away", &[16]),
    ("acknowledge: acknowledge clears the first block's mark", &[16]),
    ("acknowledge: acknowledge marks the first block", &[14, 16]),
    ("acknowledge: acknowledge counts in the ledger", &[9, 16]),
    ("acknowledge: acknowledge writes the last kinds", &[15, 16]),
    ("acknowledge: acknowledge clears the first byte of the memory", &[16]),
];

fn monitor(fault: &str) -> Seeded {
    Seeded { fault: Some(faults::named(fault).unwrap_or_else(|| panic!("no fault '{fault}'"))) }
}

/// In the first of these lists in which the fault breaks any clause, it breaks these.
fn must_break(fault: &str, clauses: &[u32], lists: impl Iterator<Item = List>) {
    let monitor = monitor(fault);
    let broken = lists::broken_by(&monitor, lists).find(|broken| !broken.is_empty()).unwrap_or_default();
    assert_eq!(broken, BTreeSet::from_iter(clauses.iter().copied()), "{fault}");
}

#[test]
fn unsafe_monitors_are_found() {
    for (fault, clauses) in UNSAFE {
        must_break(fault, clauses, lists::lists_without_kinds());
    }
    let clauses = (7..=12).chain([14]);
    assert!(clauses.into_iter().all(|clause| UNSAFE.iter().any(|(_, clauses)| *clauses == [clause])));
}

#[test]
fn unsafe_monitors_with_kinds_are_found() {
    for (fault, clauses) in UNSAFE_WITH_KINDS {
        must_break(fault, clauses, lists::lists_with_kinds());
    }
    assert!(UNSAFE_WITH_KINDS.iter().any(|(_, clauses)| *clauses == [15]));
}

#[test]
fn unsafe_monitors_with_registers_are_found() {
    for (fault, clauses) in UNSAFE_WITH_REGISTERS {
        must_break(fault, clauses, lists::lists_with_registers());
    }
    assert!(UNSAFE_WITH_REGISTERS.iter().any(|(_, clauses)| *clauses == [16]));
}

/// Faults that no list shows by anything but an answer of 13 or 24.
#[test]
fn answers_alone_are_found() {
    for fault in [
        "map_l2: a counter of 2 is refused",
        "unmap_l2: a counter that ends at 0 is refused",
        "read: a fault on the walk gives 24",
        "fetch: a fault on the walk gives 24",
    ] {
        assert_eq!(
            lists::broken_by(&monitor(fault), lists::lists()).flatten().collect::<BTreeSet<u32>>(),
            BTreeSet::from([12]),
            "{fault}"
        );
    }
}

#[test]
fn the_plain_reference_keeps_the_demand() {
    assert!(lists::broken_by(&Reference::new(), lists::lists()).all(|broken| broken.is_empty()));
}
