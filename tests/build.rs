// Seeds the faults of tests/faults into a copy of the reference.
#[path = "build/faults.rs"]
mod faults;

fn main() {
    faults::generate();
}
