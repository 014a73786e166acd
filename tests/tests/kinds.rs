//! Lists in which maps and begins name kinds, beside the same lists in which they name none, by the library.
use tests::library::Library;
use tests::lists::{lists, Lister};
use tests::monitor::{naming_memory_kind, plain_call, Call, Monitor};

/// With kinds of B and C and the number 0, a call that names them is the one that names none: the same answer, byte and number, and the same bytes.
#[test]
fn calls_that_name_kinds_are_those_that_name_none() {
    let library = Library::default();
    for (seed, blocks, steps) in lists().step_by(2) {
        let mut lister = Lister::new(seed, blocks);
        for step in 0..=steps {
            let Call { kind, arguments } = lister.next();
            let plain = Call { kind: plain_call(kind).unwrap_or(kind), arguments };
            let [block, index, target, rights, _] = arguments;
            let naming = naming_memory_kind(plain.kind)
                .map_or(plain, |kind| Call { kind, arguments: [block, index, target, rights, 0] });
            lister.scene.store.kinds = [3, 0].repeat(8);
            let mut other = lister.scene.store.clone();
            let given = library.perform(plain, &mut lister.scene.store);
            assert_eq!(library.perform(naming, &mut other), given, "list {seed}, step {step}: {plain}, {naming}");
            assert!(other == lister.scene.store, "list {seed}, step {step}: {plain}, {naming}");
            lister.told.note(plain, given, &[]);
        }
    }
}
