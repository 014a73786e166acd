//! Links the archives that `rt lib` writes, in target/staticlib.
use std::path::Path;

const ARCHIVES: &str = concat!(env!("CARGO_MANIFEST_DIR"), "/../target/staticlib");

fn main() {
    println!("cargo::rustc-link-search=native={ARCHIVES}");
    let names = ["signature", "monitor", "steps"];
    for name in names {
        println!("cargo::rerun-if-changed={ARCHIVES}/lib{name}.a");
    }
    let missing = names.iter().filter(|name| !Path::new(&format!("{ARCHIVES}/lib{name}.a")).exists());
    let lacking: Vec<String> = missing.map(|name| format!("lib{name}.a")).collect();
    if !lacking.is_empty() {
        println!("cargo::error=target/staticlib lacks {}: tests/run builds the archives", lacking.join(", "));
    }
}
