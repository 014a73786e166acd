//! The scripts of the gallery, by the reference and by the library, on what `pagemon` has.
use records::parse;
use std::fs;
use std::path::{Path, PathBuf};
use tests::monitor::{Call, Monitor, Store};
use tests::program::{self, line};
use tests::reference::Reference;

fn scripts() -> Vec<PathBuf> {
    let folder = Path::new(concat!(env!("CARGO_MANIFEST_DIR"), "/../gallery"));
    let mut paths: Vec<PathBuf> = fs::read_dir(folder).unwrap().map(|entry| entry.unwrap().path()).collect();
    paths.retain(|path| path.extension().is_some_and(|extension| extension == "txt"));
    paths.sort();
    paths
}

/// The line that `pagemon` prints for a call.
fn answer(monitor: &dyn Monitor, call: Call, store: &mut Store) -> String {
    line(call, monitor.perform(call, store)) + "\n"
}

fn answers_are_as_expected(monitor: &dyn Monitor) {
    assert!(!scripts().is_empty());
    for path in scripts() {
        let calls = parse(&fs::read(&path).unwrap()).unwrap();
        let mut store = program::store();
        let output: String = calls.into_iter().map(|call| answer(monitor, call, &mut store)).collect();
        let expected = fs::read_to_string(path.with_extension("expected")).unwrap();
        assert_eq!(output, expected, "{}", path.display());
    }
}

#[test]
fn by_the_reference() {
    answers_are_as_expected(&Reference::new());
}

#[test]
fn by_the_library() {
    answers_are_as_expected(&tests::library::Library::default());
}
