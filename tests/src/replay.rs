//! Lists of records by two libraries, and by the single calls of one: how many are obeyed, every answer and byte, and all of memory and ledger. What is lent
//! is not only what the monitor leaves: any ledgers, memories, lengths and records.
use crate::bytes::put_word;
use crate::cases::scene::*;
use crate::compare::{caught, differing};
use crate::lender::{Exports, Lender};
use crate::library::Library;
use crate::lists::{List, Lister};
use crate::monitor::{Call, Kind, Monitor, Store, BLOCK, NO_TABLE, REGISTERS_BYTES};
use crate::program::{bad_records, records, RECORD_BYTES};
use crate::random::Random;
use std::rc::Rc;

/// What stands in the outputs beforehand.
const OLD_ANSWER: u32 = 0xA7A7_A7A7;
const OLD_BYTE: u8 = 0x58;

const PARTS: usize = 8;

/// What both are lent: a region, records, and room for so many answers and bytes.
#[derive(Clone)]
struct Replay {
    scene: Scene,
    records: Vec<u8>,
    answers: usize,
    bytes: usize,
}

/// What one of them makes of it.
struct Obeyed {
    count: usize,
    answers: Vec<u32>,
    bytes: Vec<u8>,
    store: Store,
}

/// Replays all lists, each in parts, and each part as it was drawn and with every change. Says how many records were obeyed, or the first difference.
pub fn run<E: Exports>(candidate: &Lender<E>, reference: &Library) -> Result<usize, String> {
    let mut count = 0;
    for (seed, blocks, steps) in lists() {
        let (mut lister, mut random) = (Lister::new(seed, blocks), Random::new(4000 + seed));
        for part in 0..PARTS {
            let drawn = Replay::drawn(&mut lister, reference, steps);
            for (change, make) in CHANGES {
                let mut replay = drawn.clone();
                make(&mut replay, &mut random);
                let what = |difference| format!("list {seed} of {blocks} blocks, part {part}, {change}: {difference}");
                count += replay.compared(candidate, reference).map_err(what)?;
            }
        }
    }
    Ok(count)
}

/// Seed, blocks, and steps of a part. Seeds are below those with which begins and maps name kinds, as no record can.
fn lists() -> impl Iterator<Item = List> {
    let small = (220..244).map(|seed| (seed, 8 + Random::new(seed).below(20), 40));
    let larger = (250..262).map(|seed| (seed, [48, 64, 67, 80][seed as usize % 4], 40));
    small.chain(larger).chain([(270, 260, 20), (271, 512, 20), (272, 520, 20), (273, 1024, 10), (274, 4096, 5)])
}

impl Replay {
    /// The next steps of a list, with the region on which they were drawn and room for just as many answers and bytes.
    fn drawn(lister: &mut Lister, reference: &Library, steps: usize) -> Replay {
        let scene = Scene { first: lister.told.first as u32, store: lister.scene.store.clone() };
        let calls: Vec<Call> = lister.obeyed_by(reference, steps).into_iter().map(|(call, _)| call).collect();
        Replay { scene, records: records(&calls), answers: steps, bytes: steps }
    }

    fn by<E: Exports>(&self, library: &Lender<E>) -> Obeyed {
        let mut store = self.scene.store.clone();
        let (mut answers, mut bytes) = (vec![OLD_ANSWER; self.answers], vec![OLD_BYTE; self.bytes]);
        let count = library.run(&mut store, &self.records, &mut answers, &mut bytes);
        Obeyed { count, answers, bytes, store }
    }

    /// The same by a single call for each record, with fault registers of zeros for each.
    fn one_by_one(&self, monitor: &dyn Monitor) -> Obeyed {
        let mut store = self.scene.store.clone();
        let (mut answers, mut bytes, mut count) = (vec![OLD_ANSWER; self.answers], vec![OLD_BYTE; self.bytes], 0);
        let calls = self.records.chunks(RECORD_BYTES).map_while(|record| Call::of_record(record).ok());
        for call in calls.take(self.answers.min(self.bytes)) {
            store.registers = vec![0; REGISTERS_BYTES];
            let given = monitor.perform(call, &mut store);
            (answers[count], bytes[count]) = (given.answer, given.byte);
            count += 1;
        }
        Obeyed { count, answers, bytes, store }
    }

    /// How many records both obeyed, or what differs, in the candidate's run or in its single calls.
    fn compared<E: Exports>(&self, candidate: &Lender<E>, reference: &Library) -> Result<usize, String> {
        let (run, calls) = (caught(|| self.by(candidate))?, caught(|| self.one_by_one(candidate))?);
        let expected = self.by(reference);
        match run
            .difference(&expected)
            .or_else(|| calls.difference(&expected).map(|what| format!("call by call: {what}")))
        {
            Some(what) => Err(what),
            None => Ok(expected.count),
        }
    }

    /// Room for so many records that were added.
    fn extend(&mut self, added: usize) {
        self.answers += added;
        self.bytes += added;
    }
}

impl Obeyed {
    fn words(&self) -> Vec<u8> {
        self.answers.iter().flat_map(|word| word.to_le_bytes()).collect()
    }

    fn difference(&self, expected: &Obeyed) -> Option<String> {
        let (store, other) = (&self.store, &expected.store);
        (self.count != expected.count)
            .then(|| format!("{} records obeyed, reference {}", self.count, expected.count))
            .or_else(|| differing("answers", 4, &self.words(), &expected.words()))
            .or_else(|| differing("bytes", 1, &self.bytes, &expected.bytes))
            .or_else(|| differing("memory", BLOCK, &store.memory, &other.memory))
            .or_else(|| differing("ledger", store.ledger.len(), &store.ledger, &other.ledger))
    }
}

/// What makes it another than the monitor would leave.
type Change = fn(&mut Replay, &mut Random);

const CHANGES: [(&str, Change); 9] = [
    ("as drawn", |_, _| {}),
    ("a ledger of random bytes, and after the steps a begin and the same steps", any_ledger),
    ("any types, counters and marks", any_records),
    ("a spoilt ledger", spoilt_ledger),
    ("spoilt tables", spoilt_tables),
    ("a wrong length", wrong_length),
    ("a bad record", bad_record),
    ("a spoilt byte in the records", spoilt_record),
    ("little room", little_room),
];

fn any_ledger(replay: &mut Replay, random: &mut Random) {
    replay.scene.store.ledger = random.bytes(replay.scene.store.ledger.len());
    let begin = Call::new(Kind::Begin, &[replay.scene.first]).record();
    replay.records = [&replay.records[..], &begin, &replay.records].concat();
    replay.extend(replay.answers + 1);
}

/// A lawful head, and behind it anything.
fn any_records(replay: &mut Replay, random: &mut Random) {
    let scene = &mut replay.scene;
    let table = scene.block(4 * random.below(scene.blocks().min(16) / 4));
    put_word(&mut scene.store.ledger, 0, scene.first);
    scene.set_active(random.one_of(&[NO_TABLE, table, table]));
    scene.set_kinds(&random_kinds(random));
    for position in 0..scene.blocks() {
        scene.set_record(position, TYPE, random.one_of(&[0, 0, 0, 1, 1, 2, 2, 3, u32::MAX]));
        for which in [W, X, L, MARK] {
            scene.set_record(position, which, any_word(random));
        }
    }
}

/// Mostly 0 or 1, seldom about the limit of a counter.
fn any_word(random: &mut Random) -> u32 {
    match random.below(40) {
        0 => random.next() as u32,
        1 => random.one_of(&[2, 5, (1 << 22) - 1, 1 << 22, (1 << 22) + 1, u32::MAX]),
        2..8 => 1,
        _ => 0,
    }
}

fn spoilt_ledger(replay: &mut Replay, random: &mut Random) {
    let ledger = &mut replay.scene.store.ledger;
    for _ in 0..1 + random.below(8) {
        let at = random.below(ledger.len()) / 4 * 4;
        put_word(ledger, at, any_word(random));
    }
}

fn spoilt_tables(replay: &mut Replay, random: &mut Random) {
    let scene = &mut replay.scene;
    for _ in 0..1 + random.below(30) {
        let low = random.one_of(&[PAGE_WRITE, PAGE_EXECUTE, PAGE_ALL, LARGE_READ, LARGE_ALL, SECTION_ALL, 0, 1, 0x401]);
        let (target, bit) = (random.below(scene.blocks() + 1), random.below(128));
        let word = scene.mapping(target, low) ^ 1u32.checked_shl(bit as u32).unwrap_or(0);
        scene.put(random.below(scene.blocks().min(40)), random.below(6), word);
    }
}

fn wrong_length(replay: &mut Replay, random: &mut Random) {
    let store = &mut replay.scene.store;
    let (memory, ledger) = (store.memory.len(), store.ledger.len());
    let (memory, ledger) = random.one_of(&[
        (memory, ledger - 1),
        (memory, ledger + 1),
        (memory, 0),
        (memory - 1, ledger),
        (memory + 1, ledger),
        (memory - BLOCK, ledger),
        (0, ledger),
        (0, 0),
    ]);
    Rc::make_mut(&mut store.memory).resize(memory, 0);
    store.ledger.resize(ledger, 0);
}

fn bad_record(replay: &mut Replay, random: &mut Random) {
    let (bad, at) = (bad_records(), RECORD_BYTES * random.below(replay.answers + 1));
    replay.records.splice(at..at, bad[random.below(bad.len())].iter().copied());
    replay.extend(1);
}

fn spoilt_record(replay: &mut Replay, random: &mut Random) {
    let at = random.below(replay.records.len());
    replay.records[at] ^= 1 << random.below(8);
}

fn little_room(replay: &mut Replay, random: &mut Random) {
    replay.answers = random.below(replay.answers + 3);
    replay.bytes = random.below(replay.bytes + 3);
}
