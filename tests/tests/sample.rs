//! The sample list of calls (program 7), on what `pagemon` has.
use tests::library::Library;
use tests::monitor::{Call, Kind, Monitor, Store};
use tests::program::{self, line, SAMPLE};
use Kind::*;

fn answer(call: Call, store: &mut Store) -> String {
    line(call, Library::default().perform(call, store))
}

#[test]
fn sample() {
    let mut store = program::store();
    for (kind, arguments, expected) in SAMPLE {
        assert_eq!(answer(Call::new(kind, arguments), &mut store), expected);
    }
}

/// Before begin, the calls run on the ledger of zeros: B 0, table 0 active, all blocks D.
#[test]
fn before_begin() {
    let mut store = program::store();
    assert_eq!(answer(Call::new(Read, &[0]), &mut store), "12 22");
    assert_eq!(answer(Call::new(Switch, &[0]), &mut store), "11 5");
    assert_eq!(answer(Call::new(CreateL1, &[4]), &mut store), "2 0");
}
