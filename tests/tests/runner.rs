//! The runner of lists of records beside the reference: the records obeyed, every answer and byte, and all of memory and ledger.
use std::rc::Rc;
use tests::cases::scene::{kind_bytes, Scene};
use tests::lists::Lister;
use tests::monitor::{ledger_bytes, Call, Given, Kind, Monitor, Store, BLOCK, NUMBERS, REGISTERS_BYTES};
use tests::program::{bad_records, records, RECORD_BYTES};
use tests::random::Random;
use tests::reference::Reference;
use tests::runner::run;

/// What stands in the outputs beforehand.
const OLD_ANSWER: u32 = 0xA7A7_A7A7;
const OLD_BYTE: u8 = 0x58;

/// Some steps of a list as the reference obeys them: the store before, the steps, and the store after.
struct Part {
    before: Store,
    steps: Vec<(Call, Given)>,
    after: Store,
}

impl Part {
    fn next(lister: &mut Lister, steps: usize) -> Part {
        let before = lister.scene.store.clone();
        let steps = lister.obeyed_by(&Reference::new(), steps);
        Part { before, steps, after: lister.scene.store.clone() }
    }

    /// The first steps of a list.
    fn first(seed: u64, blocks: usize, steps: usize) -> Part {
        Part::next(&mut Lister::new(seed, blocks), steps)
    }

    fn records(&self) -> Vec<u8> {
        records(&self.steps.iter().map(|(call, _)| *call).collect::<Vec<Call>>())
    }

    /// Runs these records with room for so many answers and bytes: this part's steps are what must come of them.
    fn must_come_of(&self, records: &[u8], answers: usize, bytes: usize, what: &str) {
        let mut store = self.before.clone();
        let (mut answers, mut bytes) = (vec![OLD_ANSWER; answers], vec![OLD_BYTE; bytes]);
        let obeyed = run(&mut store, records, &mut answers, &mut bytes);
        assert_eq!(obeyed, self.steps.len(), "{what}: records obeyed");
        for (place, (call, given)) in self.steps.iter().enumerate() {
            let (answer, byte) = (answers[place], bytes[place]);
            assert_eq!((answer, byte), (given.answer, given.byte), "{what}: record {place}, {call}");
        }
        assert!(answers[obeyed..].iter().all(|answer| *answer == OLD_ANSWER), "{what}: an answer too many");
        assert!(bytes[obeyed..].iter().all(|byte| *byte == OLD_BYTE), "{what}: a byte too many");
        assert!(store.memory == self.after.memory, "{what}: memory");
        assert!(store.ledger == self.after.ledger, "{what}: ledger");
    }

    /// Runs this part's own records, with room for just as many answers and bytes.
    fn must_come_of_its_records(&self, what: &str) {
        self.must_come_of(&self.records(), self.steps.len(), self.steps.len(), what);
    }
}

/// A list in parts of these lengths, each lent what the one before it left.
fn list_in_parts(seed: u64, blocks: usize, lengths: &[usize]) {
    let mut lister = Lister::new(seed, blocks);
    for (number, length) in lengths.iter().enumerate() {
        let what = format!("list {seed} of {blocks} blocks, part {number}");
        Part::next(&mut lister, *length).must_come_of_its_records(&what);
    }
}

#[test]
fn lists_in_small_regions() {
    for seed in 0..30 {
        let mut random = Random::new(seed);
        let blocks = 8 + random.below(20);
        list_in_parts(seed, blocks, &[300]);
        let lengths: Vec<usize> = (0..20).map(|_| random.below(30)).collect();
        list_in_parts(seed, blocks, &lengths);
    }
}

#[test]
fn lists_in_large_regions() {
    for (seed, blocks) in [(100, 260), (101, 512), (102, 520), (103, 1024)] {
        list_in_parts(seed, blocks, &[80, 0, 1, 40]);
    }
    list_in_parts(104, 4096, &[30]);
}

/// Outputs that are shorter or longer than the list, each by itself: no more is obeyed than there is room for.
#[test]
fn room_for_answers_and_bytes() {
    let input = Part::first(1, 16, 40).records();
    let rooms =
        [(0, 0), (0, 40), (40, 0), (1, 40), (40, 1), (17, 23), (23, 17), (39, 40), (40, 39), (41, 40), (60, 50)];
    for (answers, bytes) in rooms {
        let room = answers.min(bytes).min(40);
        let what = format!("room for {answers} answers and {bytes} bytes");
        Part::first(1, 16, room).must_come_of(&input, answers, bytes, &what);
    }
}

#[test]
fn no_records() {
    Part::first(2, 16, 0).must_come_of(&[], 0, 0, "no records and no room");
    Part::first(2, 16, 0).must_come_of(&[], 8, 8, "no records");
}

/// A bad record, also a short one at the end, ends the list, and what follows it is not obeyed.
#[test]
fn bad_records_end_the_list() {
    let rest = Part::first(3, 16, 9).records();
    for earlier in [0, 1, 40] {
        let part = Part::first(3, 16, earlier);
        for bad in bad_records() {
            let what = format!("{earlier} records, then {bad:02x?}");
            let mut input = [part.records(), bad.clone()].concat();
            part.must_come_of(&input, 60, 60, &what);
            part.must_come_of(&input, earlier, earlier, &what);
            if bad.len() == RECORD_BYTES {
                input.extend(&rest);
                part.must_come_of(&input, 60, 60, &what);
            }
        }
    }
}

/// Buffers that break the rules are refused by every call, whatever its arguments.
#[test]
fn unlawful_buffers() {
    let mut random = Random::new(4);
    let calls = Kind::recorded().map(|kind| Call { kind, arguments: [(); NUMBERS].map(|()| random.below(16) as u32) });
    let refused: Vec<_> = calls.map(|call| (call, Given { answer: 1, ..Given::default() })).collect();
    let right = ledger_bytes(8);
    let lengths = [(0, 0), (7 * BLOCK, ledger_bytes(7)), (8 * BLOCK - 1, right), (8 * BLOCK, right + 1)];
    for (memory, ledger) in lengths {
        let (memory_bytes, ledger_bytes) = (Rc::new(random.bytes(memory)), random.bytes(ledger));
        let (golden, kinds, registers) = (random.bytes(32), Vec::new(), vec![0; REGISTERS_BYTES]);
        let store = Store { memory: memory_bytes, ledger: ledger_bytes, golden, kinds, registers };
        let part = Part { before: store.clone(), steps: refused.clone(), after: store };
        part.must_come_of_its_records(&format!("{memory} bytes of memory, {ledger} of ledger"));
    }
}

/// A region that a direct call has begun with kinds: the maps of the records take kind 0, and a begin among them stores its own kinds.
#[test]
fn a_region_with_kinds() {
    let mut scene = Scene::new(0x100, 32);
    scene.store.kinds = kind_bytes(&[0x47, 0x03, 0x7F, 0x00, 0x15, 0x2A, 0x5B, 0x31]);
    let begun = Reference::new().perform(Call::new(Kind::BeginKinds, &[0x100]), &mut scene.store);
    assert_eq!(begun.answer, 0);
    let set_up: [(Kind, &[u32]); 4] = [
        (Kind::CreateL2, &[0x104]),
        (Kind::MapL2, &[0x104, 5, 0x108, 3]),
        (Kind::MapLarge, &[0x104, 16, 0x110, 1]),
        (Kind::Begin, &[0x100]),
    ];
    let mut after = scene.store.clone();
    let steps = set_up.map(|(kind, arguments)| {
        let call = Call::new(kind, arguments);
        (call, Reference::new().perform(call, &mut after))
    });
    assert!(steps.iter().all(|(_, given)| given.answer == 0));
    let part = Part { before: scene.store, steps: steps.to_vec(), after };
    part.must_come_of_its_records("a region with kinds");
    let left = Scene { first: 0x100, store: part.after };
    assert_eq!(left.word(4, 5), 0x0010_8000 + 0x033 + 0x84C);
    assert_eq!(left.word(4, 31), 0x0011_0000 + 0x8021 + 0x180C);
    assert_eq!(left.store.ledger[8..24], [3, 0].repeat(8));
}

/// A ledger with a kind that is not lawful: every step is refused until a begin is accepted.
#[test]
fn unlawful_kinds() {
    for number in 0..8 {
        let mut scene = Scene::new(0x100, 16);
        scene.set_kind(number, 0x80);
        let mut after = scene.store.clone();
        let mut steps = Vec::new();
        for kind in Kind::recorded().filter(|kind| *kind != Kind::Begin).chain([Kind::Begin, Kind::CreateL1]) {
            let call = Call::new(kind, &[0x100]);
            steps.push((call, Reference::new().perform(call, &mut after)));
        }
        assert_eq!(steps.iter().filter(|(_, given)| given.answer == 1).count(), 15);
        let part = Part { before: scene.store, steps, after };
        part.must_come_of_its_records(&format!("an unlawful kind {number}"));
    }
}
