//! What the program is sent, and what it prints of that.
use tests::cases::scene::Scene;
use tests::lists::Lister;
use tests::monitor::{Call, Given, Kind, Monitor};
use tests::program::{line, records, store, RECORD_BYTES, SAMPLE};
use tests::random::Random;
use tests::reference::Reference;
use Kind::*;

/// The most records that the program obeys at a time.
pub const BATCH: usize = 2048;

/// Of longer random lists little is accepted: what was written until then fits no new table.
pub const RANDOM_STEPS: usize = 250;

const LONG: usize = 8000;

/// Calls on what the program has, with the lines that the reference expects.
#[derive(Default)]
pub struct List {
    pub calls: Vec<Call>,
    pub lines: String,
}

impl List {
    /// The last are random, and all before them begin.
    pub fn new(seed: u64, length: usize) -> List {
        let random_steps = length.min(RANDOM_STEPS);
        let begins = length - random_steps;
        let scene = Scene { first: 0, store: store() };
        let obeyed = Lister::over(scene, Random::new(seed)).obeyed_by(&Reference::new(), random_steps);
        let mut list = List { calls: vec![Call::new(Begin, &[0]); begins], lines: "1 0\n".repeat(begins) };
        obeyed.into_iter().for_each(|(call, given)| list.push(call, given));
        list
    }

    /// The sample, and then thousands of calls of which many are accepted: what a read gives tells of the writes before it.
    pub fn long() -> List {
        let (mut list, mut store, mut random) = (List::default(), store(), Random::new(19));
        let sample = SAMPLE.map(|(kind, arguments, _)| Call::new(kind, arguments));
        let drawn = (0..LONG).map(|_| draw_after_sample(&mut random));
        for call in sample.into_iter().chain(drawn) {
            list.push(call, Reference::new().perform(call, &mut store));
        }
        list
    }

    fn push(&mut self, call: Call, given: Given) {
        self.calls.push(call);
        self.lines += &line(call, given);
        self.lines += "\n";
    }

    pub fn records(&self) -> Vec<u8> {
        records(&self.calls)
    }

    /// Each record with its number from 0 and its line.
    pub fn turns(&self) -> impl Iterator<Item = (usize, [u8; RECORD_BYTES], &str)> {
        let lines = self.lines.split_inclusive('\n').enumerate();
        self.calls.iter().zip(lines).map(|(call, (number, line))| (number, call.record(), line))
    }

    /// The records with a bad one after them, and what is printed of that.
    pub fn then_bad(&self, bad: &[u8]) -> (Vec<u8>, String) {
        ([&self.records(), bad].concat(), format!("{}bad {}\n", self.lines, self.calls.len()))
    }
}

/// A call on the page that the sample writes, on a page, a large page and a table that come and go, or one that is refused.
fn draw_after_sample(random: &mut Random) -> Call {
    let (place, byte) = (random.below(4) as u32, random.below(256) as u32);
    let choices: [(Kind, &[u32]); 16] = [
        (Write, &[0x5000 + place, byte]),
        (Read, &[0x5000 + place]),
        (Fetch, &[0x5000 + place]),
        (Read, &[0x7000 + place]),
        (MapL2, &[4, 7, 9, 5]),
        (MapL2, &[4, 6, 8, 3]),
        (Write, &[0x6000 + place, byte]),
        (UnmapL2, &[4, 6]),
        (MapLarge, &[4, 16, 0, 1]),
        (Read, &[0x18000 + place]),
        (UnmapLarge, &[4, 16]),
        (UnmapL2, &[4, 16 + place]),
        (CreateL2, &[12]),
        (FreeL2, &[12]),
        (Switch, &[1]),
        (Begin, &[1]),
    ];
    let (kind, arguments) = random.one_of(&choices);
    Call::new(kind, arguments)
}
