//! The exported calls beside a program in plain Rust that does the same work: equality first, then one table of times and ratios.
//!
//!     bench                                   everything
//!     bench --quick                           the same with few rounds: the figures mean little
//!     bench --count CALL N PROGRAM BLOCKS     one workload N times on one program (monitor, plain), for an instruction count
mod baseline;
mod check;
mod digest;
mod program;
mod timing;
mod workloads;

use program::{Monitor, Plain};
use std::process::ExitCode;
use std::time::Duration;
use timing::{measure, run, Start};
use workloads::{Scene, Workload, CALLS, HASHING_CALLS, HOSTILE_TABLES};

const REGIONS: [usize; 3] = [64, 512, 4096];

/// Every line of the table.
fn workloads() -> impl Iterator<Item = &'static Workload> {
    CALLS.iter().chain(&HASHING_CALLS).chain(&HOSTILE_TABLES)
}

/// How much is done: random calls to compare, and time for one line of the table.
struct Effort {
    random_calls: usize,
    time: Duration,
}

const WHOLE: Effort = Effort { random_calls: 48_000, time: Duration::from_millis(300) };
const QUICK: Effort = Effort { random_calls: 6_000, time: Duration::from_millis(3) };

fn check(random_calls: usize) {
    for workload in workloads() {
        for blocks in REGIONS.into_iter().filter(|blocks| *blocks >= workload.least) {
            let mut scene = Scene::new(blocks);
            let batch = (workload.make)(&mut scene);
            check::check_workload(workload.name, &batch, &scene.lent);
        }
    }
    let pairs = check::check_random(random_calls);
    println!("Equal answers and bytes: every workload, and {random_calls} random calls, {pairs} pairs of a call and an answer among them.\n");
}

fn print_line(workload: &Workload, blocks: usize, time: Duration) {
    let mut scene = Scene::new(blocks);
    let batch = (workload.make)(&mut scene);
    let measured = measure(&batch, &mut scene.lent, time);
    let ratio = measured.monitor / measured.plain;
    let (name, monitor, plain) = (workload.name, measured.monitor, measured.plain);
    println!("| {name:<41} | {blocks:>5} | {monitor:>10.1} | {plain:>10.1} | {ratio:>6.2} |");
}

fn print_table(time: Duration) {
    println!("| {:<41} | {:>5} | {:>10} | {:>10} | {:>6} |", "call", "n", "monitor ns", "plain ns", "ratio");
    println!("|{:-<43}|{:->7}|{:->12}|{:->12}|{:->8}|", "", ":", ":", ":", ":");
    for workload in workloads() {
        for blocks in REGIONS.into_iter().filter(|blocks| *blocks >= workload.least) {
            print_line(workload, blocks, time);
        }
    }
}

fn compare(effort: Effort) {
    check(effort.random_calls);
    print_table(effort.time);
}

/// What is counted: all else, such as restoring the buffers, is outside of this function.
#[no_mangle]
#[inline(never)]
pub fn counted_run(run: &mut dyn FnMut()) {
    run();
}

fn count(name: &str, times: usize, program: &str, blocks: usize) -> Result<(), String> {
    let names: Vec<_> = workloads().map(|workload| workload.name).collect();
    let workload = workloads().find(|workload| workload.name == name);
    let workload = workload.ok_or(format!("no call {name:?}; there are\n{}", names.join("\n")))?;
    if blocks < workload.least {
        return Err(format!("{name:?} needs {} blocks", workload.least));
    }
    let mut scene = Scene::new(blocks);
    let batch = (workload.make)(&mut scene);
    let start = Start::of(&scene.lent);
    let run = match program {
        "monitor" => run::<Monitor>,
        "plain" => run::<Plain>,
        _ => return Err(format!("no program {program:?}")),
    };
    for _ in 0..times {
        start.restore(&mut scene.lent);
        counted_run(&mut || run(&batch, &mut scene.lent));
    }
    println!("{}", times * batch.words.len());
    Ok(())
}

fn main() -> ExitCode {
    let arguments: Vec<String> = std::env::args().skip(1).collect();
    let arguments: Vec<&str> = arguments.iter().map(String::as_str).collect();
    let done = match arguments[..] {
        [] => {
            compare(WHOLE);
            Ok(())
        }
        ["--quick"] => {
            compare(QUICK);
            Ok(())
        }
        ["--count", name, times, program, blocks] => match (times.parse(), blocks.parse()) {
            (Ok(times), Ok(blocks)) => count(name, times, program, blocks),
            _ => Err("N and BLOCKS are numbers".to_string()),
        },
        _ => Err("bench [--quick | --count CALL N PROGRAM BLOCKS]".to_string()),
    };
    match done {
        Ok(()) => ExitCode::SUCCESS,
        Err(what) => {
            eprintln!("bench: {what}");
            ExitCode::FAILURE
        }
    }
}
