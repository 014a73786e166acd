//! The box, where the guest's processor writes without a call (RULES: box): what the hypervisor's forgets are for. No monitor here is compared with
//! another.
use std::collections::BTreeSet;
use std::convert::Infallible;
use tests::cases::scene::{Scene, MARK, PAGE_WRITE};
use tests::demand::Told;
use tests::faults::{self, Seeded};
use tests::hypervisor::{broken_by, take, Duty};
use tests::library::Library;
use tests::monitor::{Call, Given, Kind, Monitor, Store, MARKED};
use tests::random::Random;
use Kind::*;

#[test]
fn with_the_duty_lists_keep_the_demand() {
    for duty in [Duty::Blocks, Duty::Region] {
        assert!(broken_by(&Library::default(), duty).all(|broken| broken.is_empty()), "{duty:?}");
    }
}

/// Marked blocks are not signed then, they are executed, and their bytes are fetched. No other clause is broken.
#[test]
fn without_the_duty_lists_break_it() {
    let broken: Vec<BTreeSet<u32>> = broken_by(&Library::default(), Duty::Neglected).collect();
    assert_eq!(broken.iter().flatten().copied().collect::<BTreeSet<u32>>(), BTreeSet::from([8, 11, 14]));
    assert!(broken.contains(&BTreeSet::from([14])), "no list breaks lists 14 alone");
}

/// Forgets that do too little are as good as none.
#[test]
fn forgets_that_do_too_little_are_found() {
    for (fault, duty) in [
        ("forget: forget clears nothing", Duty::Blocks),
        ("forget: forget clears nothing", Duty::Region),
        ("forget: forget clears the first of several blocks", Duty::Region),
        ("forget: forget leaves the last of several blocks", Duty::Region),
        ("forget: forget clears the next blocks", Duty::Blocks),
        ("forget: forget leaves the marks of blocks that can be written", Duty::Blocks),
    ] {
        let fault = faults::named(fault).unwrap_or_else(|| panic!("no fault '{fault}'"));
        let monitor = Seeded { fault: Some(fault) };
        let is_found = broken_by(&monitor, duty).any(|broken| broken == BTreeSet::from([8, 11, 14]));
        assert!(is_found, "{fault}");
    }
}

/// A region of 16 blocks on the box. Block 8 is signed code, the L2 block 4 serves the first addresses of the active table 0.
struct Box16 {
    store: Store,
    told: Told,
    duty: Duty,
}

impl Box16 {
    fn new(duty: Duty) -> Box16 {
        let mut scene = Scene::new(0, 16);
        scene.fill(8, &mut Random::new(70));
        scene.put_byte(8, 0, 65);
        scene.sign(8);
        let mut on_box = Box16 { store: scene.store, told: Told::new(0, 16), duty };
        on_box.accepted(&[(Begin, &[0]), (CreateL1, &[0]), (CreateL2, &[4]), (Link, &[0, 0, 4, 0]), (Switch, &[0])]);
        on_box
    }

    /// What a step on the box gives, by the library, and the clauses that it breaks.
    fn step(&mut self, kind: Kind, arguments: &[u32]) -> (Given, Vec<u32>) {
        let library = Library::default();
        let perform = |call, store: &mut Store| Ok::<Given, Infallible>(library.perform(call, store));
        let call = Call::new(kind, arguments);
        let Ok((given, breaches)) = take(self.duty, call, &mut self.store, &mut self.told, perform);
        (given, breaches.iter().map(|breach| breach.clause).collect())
    }

    fn accepted(&mut self, steps: &[(Kind, &[u32])]) {
        for (kind, arguments) in steps {
            let (given, broken) = self.step(*kind, arguments);
            assert_eq!((given.answer, &broken[..]), (0, &[][..]), "{kind:?} {arguments:?}");
        }
    }

    fn mark(&self, position: usize) -> u32 {
        Scene { first: 0, store: self.store.clone() }.record(position, MARK)
    }
}

const EXECUTE: (Kind, &[u32]) = (MapL2, &[4, 5, 8, 5]);
const WRITE: (Kind, &[u32]) = (MapL2, &[4, 5, 8, 3]);
const REMOVE: (Kind, &[u32]) = (UnmapL2, &[4, 5]);

/// Executed, unmapped, mapped to be written, altered by the processor, unmapped, executed again: bytes that nobody signed are fetched.
#[test]
fn the_hole_without_forget() {
    let mut on_box = Box16::new(Duty::Neglected);
    assert_eq!(on_box.step(EXECUTE.0, EXECUTE.1), (Given { hashed: 1, ..Given::default() }, vec![]));
    on_box.accepted(&[(Fetch, &[0x5000]), REMOVE, WRITE]);
    assert_eq!(on_box.step(Write, &[0x5000, 66]), (Given::default(), vec![14]));
    assert_eq!(on_box.mark(8), MARKED);
    assert_eq!(on_box.step(REMOVE.0, REMOVE.1), (Given::default(), vec![14]));
    assert_eq!(on_box.step(EXECUTE.0, EXECUTE.1), (Given::default(), vec![8, 14]));
    assert_eq!(on_box.step(Fetch, &[0x5000]), (Given { byte: 66, ..Given::default() }, vec![11, 8, 14]));
}

/// The same list where the hypervisor forgets: the block is hashed again, and refused.
#[test]
fn the_hole_is_shut_by_forget() {
    for duty in [Duty::Blocks, Duty::Region] {
        let mut on_box = Box16::new(duty);
        on_box.accepted(&[EXECUTE, (Fetch, &[0x5000]), REMOVE]);
        assert_eq!(on_box.mark(8), MARKED);
        on_box.accepted(&[WRITE]);
        assert_eq!(on_box.mark(8), 0);
        on_box.accepted(&[(Write, &[0x5000, 66]), REMOVE]);
        assert_eq!(on_box.step(EXECUTE.0, EXECUTE.1), (Given { answer: 12, ..Given::default() }, vec![]));
    }
}

/// Where the processor has written back what stood there, the block is executed again, after a hash.
#[test]
fn signed_bytes_are_hashed_again() {
    let mut on_box = Box16::new(Duty::Blocks);
    on_box.accepted(&[EXECUTE, REMOVE, WRITE, (Write, &[0x5000, 66]), (Write, &[0x5000, 65]), REMOVE]);
    assert_eq!(on_box.step(EXECUTE.0, EXECUTE.1), (Given { hashed: 1, ..Given::default() }, vec![]));
}

/// The same hole by a new table with an entry that gives write.
#[test]
fn a_create_that_grants_write() {
    for (duty, answer, broken) in [(Duty::Blocks, 12, vec![]), (Duty::Neglected, 0, vec![8, 14])] {
        let mut on_box = Box16::new(duty);
        let mut scene = Scene { first: 0, store: on_box.store.clone() };
        scene.put(5, 0, scene.mapping(8, PAGE_WRITE));
        on_box.store = scene.store;
        on_box.accepted(&[EXECUTE, REMOVE, (CreateL2, &[5]), (Link, &[0, 1, 5, 0])]);
        on_box.step(Write, &[0x10_0000, 66]);
        on_box.step(UnmapL2, &[5, 0]);
        let given = on_box.step(EXECUTE.0, EXECUTE.1);
        assert_eq!(given, (Given { answer, ..Given::default() }, broken));
    }
}
