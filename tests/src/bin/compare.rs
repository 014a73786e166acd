//! Compares the library with the reference, call by call.
//!
//!   compare [--calls begin,switch,...] [--fault K | --faults | --list-faults | --emulator COMMAND]
//!
//! Without `--calls`, all calls are compared. Without a fault, the two must agree, and every number that a call can answer must have been reached. With
//! `--fault K` the library is compared with a copy of the reference that has the K-th seeded fault, and the two must differ: the status is then 1.
//! `--faults` runs every fault of the calls and fails if one is not found, or if the copy without a fault differs from the library.
//!
//! With `--emulator` the archives behind a command, such as `qemu-arm target/tests/armv7/serve`, are compared with the library: the program is tests/c/serve.c,
//! linked with them. Without `--calls`, lists of records, by the runner and call by call, and the exports of libsignature.a are compared too.
use std::process::ExitCode;
use std::time::Instant;
use tests::compare::Comparer;
use tests::emulated::Emulated;
use tests::faults::{self, Fault, Seeded};
use tests::library::Library;
use tests::monitor::{Kind, BLOCK};
use tests::reference::Reference;
use tests::{cases, digests, hypervisor, replay};

struct Options {
    calls: Vec<Kind>,
    fault: Option<usize>,
    all_faults: bool,
    list: bool,
    emulator: Option<String>,
}

fn options() -> Result<Options, String> {
    let calls = Kind::ALL.into_iter().collect();
    let mut options = Options { calls, fault: None, all_faults: false, list: false, emulator: None };
    let mut arguments = std::env::args().skip(1);
    while let Some(argument) = arguments.next() {
        let mut value = || arguments.next().ok_or(format!("{argument} needs a value"));
        match argument.as_str() {
            "--calls" => options.calls = named(&value()?)?,
            "--fault" => options.fault = Some(value()?.parse().map_err(|_| "no number of a fault")?),
            "--faults" => options.all_faults = true,
            "--list-faults" => options.list = true,
            "--emulator" => options.emulator = Some(value()?),
            other => return Err(format!("unknown argument {other}")),
        }
    }
    Ok(options)
}

fn named(names: &str) -> Result<Vec<Kind>, String> {
    names.split(',').map(|name| Kind::named(name).ok_or(format!("unknown call {name}"))).collect()
}

fn main() -> ExitCode {
    match options().and_then(passes) {
        Ok(true) => ExitCode::SUCCESS,
        Ok(false) => ExitCode::FAILURE,
        Err(message) => {
            eprintln!("compare: {message}");
            ExitCode::from(2)
        }
    }
}

/// Does what the options say. Did it pass, or why can it not be done?
fn passes(options: Options) -> Result<bool, String> {
    let faults = faults::all();
    match (options.fault, options.emulator) {
        _ if options.list => {
            list(&faults, &options.calls);
            Ok(true)
        }
        (Some(number), _) if number == 0 || number > faults.len() => {
            Err(format!("faults are numbered from 1 to {}", faults.len()))
        }
        (Some(number), _) => Ok(differs_not(faults[number - 1])),
        _ if options.all_faults => Ok(find_all(&faults, &options.calls)),
        (None, Some(command)) => emulated(&command, &options.calls),
        (None, None) => Ok(agree(&options.calls)),
    }
}

fn list(faults: &[Fault], calls: &[Kind]) {
    for (number, fault) in (1..).zip(faults).filter(|(_, fault)| calls.contains(&fault.call)) {
        println!("{number} {fault}");
    }
}

/// One fault: its call's cases, with the first difference printed.
fn differs_not(fault: Fault) -> bool {
    match cases::run(fault.call, &mut Comparer::new(&Library::default(), &Seeded { fault: Some(fault) })) {
        Ok(()) => {
            println!("{fault}: no difference");
            true
        }
        Err(difference) => {
            println!("{fault}: {difference}");
            false
        }
    }
}

/// Runs every call's cases once, and looks in each of them for all faults of the call.
fn find_all(faults: &[Fault], calls: &[Kind]) -> bool {
    let start = Instant::now();
    let candidate = Library::default();
    let (mut run, mut missed) = (0, 0);
    for call in calls {
        let own: Vec<Fault> = faults.iter().copied().filter(|fault| fault.call == *call).collect();
        run += own.len();
        let mut comparer = Comparer::with_faults(&candidate, own);
        if let Err(difference) = cases::run(*call, &mut comparer) {
            println!("compare: without a fault: {difference}");
            return false;
        }
        missed += comparer.unfound.len();
        for (number, fault) in (1..).zip(faults).filter(|(_, fault)| comparer.unfound.contains(fault)) {
            println!("fault {number} is not found: {fault}");
        }
    }
    println!("compare: {run} faults, {missed} not found, {:.1} s", start.elapsed().as_secs_f32());
    missed == 0
}

fn agree(calls: &[Kind]) -> bool {
    let (candidate, reference) = (Library::default(), Reference::new());
    let passed = each_call(calls, &mut Comparer::with_pairs(&candidate, &reference));
    passed && (calls.len() < Kind::ALL.len() || lists(&mut Comparer::new(&candidate, &reference)))
}

/// The most blocks of a region on which calls are made twice beside a server. On larger ones they may hash a section, which takes long by an emulator.
const REPEATED_BLOCKS: usize = 255;

/// The archives of a server beside the linked ones. What takes the least time comes first.
fn emulated(command: &str, calls: &[Kind]) -> Result<bool, String> {
    let candidate = Emulated::start(command)?.repeating_up_to(BLOCK * REPEATED_BLOCKS);
    let reference = Library::default().repeating_up_to(BLOCK * REPEATED_BLOCKS);
    let are_all = calls.len() == Kind::ALL.len();
    let beside = if are_all { others(&candidate, &reference) } else { Some([0, 0]) };
    let Some([messages, records]) = beside else { return Ok(false) };
    let (mut by_cases, mut by_lists) = (Comparer::new(&candidate, &reference), Comparer::new(&candidate, &reference));
    let passed = each_call(calls, &mut by_cases) && (!are_all || lists(&mut by_lists));
    if passed {
        let calls = by_cases.count() + by_lists.count();
        println!("compare: {calls} calls, {records} records and {messages} messages by {command} and by the library, 0 differ");
    }
    Ok(passed)
}

/// What no case is about: how many messages to digest and records to obey there were, if none differs.
fn others(candidate: &Emulated, reference: &Library) -> Option<[usize; 2]> {
    let messages = count("messages", || digests::run(candidate, reference))?;
    let records = count("records", || replay::run(candidate, reference))?;
    Some([messages, records])
}

/// Runs a comparison that says how much it has compared.
fn count(what: &str, compare: impl FnOnce() -> Result<usize, String>) -> Option<usize> {
    let start = Instant::now();
    let compared = compare().map_err(|difference| println!("compare: {difference}")).ok()?;
    println!("{what:14} {compared:6}, {:4.1} s", start.elapsed().as_secs_f32());
    Some(compared)
}

/// Runs the cases of these calls. Do the two agree, and was everything reached?
fn each_call(calls: &[Kind], comparer: &mut Comparer) -> bool {
    let mut passed = true;
    for kind in calls {
        let start = Instant::now();
        if let Err(difference) = cases::run(*kind, comparer) {
            println!("compare: {difference}");
            return false;
        }
        passed &= summary(*kind, comparer, start);
    }
    passed
}

/// Lists of steps need every call.
fn lists(comparer: &mut Comparer) -> bool {
    let start = Instant::now();
    if let Err(difference) = tests::lists::run(comparer).and_then(|()| hypervisor::run(comparer)) {
        println!("compare: {difference}");
        return false;
    }
    println!("lists          {:6} steps, {:4.1} s", comparer.count(), start.elapsed().as_secs_f32());
    for (kind, tally) in &comparer.tallies {
        let numbers: Vec<String> = tally.answers.iter().map(u32::to_string).collect();
        println!(
            "  {:14} {:6} steps, {:5} accepted, answers {}",
            kind.name(),
            tally.cases,
            tally.accepted,
            numbers.join(" ")
        );
    }
    let idle =
        Kind::ALL.iter().filter(|kind| comparer.tallies.get(kind).is_none_or(|tally| tally.accepted == 0)).count();
    idle == 0
}

/// Prints what a call's cases reached. Was it everything?
fn summary(kind: Kind, comparer: &Comparer, start: Instant) -> bool {
    let tally = &comparer.tallies[&kind];
    let numbers: Vec<String> = tally.answers.iter().map(u32::to_string).collect();
    let pairs = comparer.notes_pairs().then(|| format!(" {:3} pairs of reasons,", tally.pairs.len()));
    println!(
        "{:14} {:6} cases,{} {:4.1} s, answers {}",
        kind.name(),
        tally.cases,
        pairs.unwrap_or_default(),
        start.elapsed().as_secs_f32(),
        numbers.join(" ")
    );
    let missing: Vec<u32> =
        [0].iter().chain(kind.refusals()).copied().filter(|number| !tally.answers.contains(number)).collect();
    if !missing.is_empty() {
        println!("compare: {} never answered {missing:?}", kind.name());
    }
    let mut apart = if comparer.notes_pairs() { faults::neighbours(kind) } else { Vec::new() };
    apart.retain(|pair| !tally.pairs.contains(pair));
    if !apart.is_empty() {
        println!("compare: {} never had these reasons together: {apart:?}", kind.name());
    }
    missing.is_empty() && apart.is_empty()
}
