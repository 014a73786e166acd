//! Memory kinds: which are lawful, stored and given, which of them a map takes, and the whole word that it writes.
use super::hostile;
use super::reasons::*;
use super::regions::valid;
use super::scene::*;
use super::Case;
use crate::compare::{difference, Comparer, Outcome};
use crate::monitor::{plain_call, Call, Kind, Store, KINDS_AT, LEDGER_HEAD, MARKED};
use crate::random::Random;
use Kind::*;

/// A kind with B and C, eight times.
const WRITE_BACK: [u16; 8] = [3; 8];

const LAWFUL: [u16; 9] = [0x00, 0x01, 0x02, 0x03, 0x1C, 0x20, 0x40, 0x7E, 0x7F];
const UNLAWFUL: [u16; 12] = [0x80, 0x83, 0xC7, 0xFF, 0x100, 0x103, 0x17F, 0x180, 0x0300, 0x4000, 0x8000, 0xFFFF];

/// Numbers of kinds that there are not.
const NO_NUMBERS: [u32; 10] = [8, 9, 12, 15, 16, 256, 0x1_0000, 0x8000_0000, 0x8000_0003, u32::MAX];

pub fn run(kind: Kind, comparer: &mut Comparer) -> Outcome {
    stored_kinds(kind, comparer)?;
    match kind {
        Begin | BeginKinds => begin(kind, comparer)?,
        MapL1 | MapL2 | MapLarge | MapL1Kind | MapL2Kind | MapLargeKind => {
            numbers(kind, comparer)?;
            words(kind, comparer)?;
        }
        _ => {}
    }
    if plain_call(kind).is_some() {
        alike(kind, comparer)?;
    }
    Ok(())
}

fn is_begin(kind: Kind) -> bool {
    matches!(kind, Begin | BeginKinds)
}

/// Each kind at each place in the ledger, over a call that is otherwise accepted.
fn stored_kinds(kind: Kind, comparer: &mut Comparer) -> Outcome {
    let Case { call, store, .. } = valid(kind, 0x100, 272);
    let judged = LAWFUL.map(|stored| (stored, 0)).into_iter().chain(UNLAWFUL.map(|stored| (stored, 1)));
    for (stored, answer) in judged {
        for number in 0..8 {
            let mut scene = Scene { first: 0x100, store: store.clone() };
            scene.set_kind(number, stored);
            let name = format!("the stored kind {number} is {stored:#x}");
            if is_begin(kind) || answer == 0 {
                comparer.check(scene.expect(&name, kind, &call.arguments, 0))?;
            } else {
                refused(comparer, &name, call, &scene.store, 1)?;
            }
        }
    }
    Ok(())
}

/// A call that answers so and leaves every byte.
fn refused(comparer: &mut Comparer, name: &str, call: Call, store: &Store, answer: u32) -> Outcome {
    let mut left = store.clone();
    let given = comparer.step(name, call, &mut left)?;
    if given.answer != answer {
        return Err(difference(name, call, format!("answer {}, expected {answer}", given.answer)));
    }
    if left != *store {
        return Err(difference(name, call, "a refused call changed a byte".to_string()));
    }
    Ok(())
}

/// Begin, which leaves these kinds.
fn begins(comparer: &mut Comparer, name: &str, kind: Kind, scene: &Scene, kinds: &[u16]) -> Outcome {
    let call = Call::new(kind, &[scene.first]);
    let mut store = scene.store.clone();
    let given = comparer.step(name, call, &mut store)?;
    let left = &store.ledger[KINDS_AT..LEDGER_HEAD];
    if given.answer != 0 || left != kind_bytes(kinds) {
        return Err(difference(name, call, format!("answer {}, kinds {left:02x?}", given.answer)));
    }
    Ok(())
}

fn begin(kind: Kind, comparer: &mut Comparer) -> Outcome {
    let mut random = Random::new(80);
    for round in 0..60 {
        let mut scene = Scene::new(0x100 * random.below(3) as u32, 8 + random.below(20));
        scene.store.ledger = match round {
            0 => vec![0; scene.store.ledger.len()],
            1 => vec![0xFF; scene.store.ledger.len()],
            _ => random.bytes(scene.store.ledger.len()),
        };
        let given = random_kinds(&mut random);
        scene.store.kinds = kind_bytes(&given);
        let left = if kind == Begin { WRITE_BACK } else { given };
        begins(comparer, "any ledger", kind, &scene, &left)?;
    }
    match kind {
        BeginKinds => given_kinds(comparer),
        _ => unused_kinds(comparer),
    }
}

/// Each kind at each place of those that are given, and numbers of bytes that are not 16.
fn given_kinds(comparer: &mut Comparer) -> Outcome {
    let mut scene = Scene::new(0x200, 9);
    for number in 0..8 {
        for lawful in LAWFUL {
            let mut kinds = NEW_KINDS;
            kinds[number] = lawful;
            scene.store.kinds = kind_bytes(&kinds);
            begins(comparer, &format!("the given kind {number} is {lawful:#x}"), BeginKinds, &scene, &kinds)?;
        }
        for unlawful in UNLAWFUL {
            let mut kinds = NEW_KINDS;
            kinds[number] = unlawful;
            scene.store.kinds = kind_bytes(&kinds);
            let name = format!("the given kind {number} is {unlawful:#x}");
            refused(comparer, &name, Call::new(BeginKinds, &[0x200]), &scene.store, 1)?;
        }
    }
    begins_of_one_kind(comparer)?;
    for length in [0, 1, 2, 8, 12, 14, 15, 17, 18, 24, 32, 272] {
        scene.store.kinds = vec![0; length];
        let name = format!("kinds of {length} bytes");
        refused(comparer, &name, Call::new(BeginKinds, &[0x200]), &scene.store, 1)?;
    }
    for (kinds, first, answer) in [([0x7F; 8], 0x200, 0), ([0x80; 8], 0x200, 1), ([0x7F; 8], 1, 1), ([0x80; 8], 1, 1)] {
        scene.store.kinds = kind_bytes(&kinds);
        comparer.check(scene.expect("kinds and B", BeginKinds, &[first], answer))?;
    }
    Ok(())
}

/// All 128 kinds, eight times each.
fn begins_of_one_kind(comparer: &mut Comparer) -> Outcome {
    let mut scene = Scene::new(0x200, 8);
    for kind in 0..128 {
        scene.store.kinds = kind_bytes(&[kind; 8]);
        begins(comparer, "one kind eight times", BeginKinds, &scene, &[kind; 8])?;
    }
    Ok(())
}

/// Begin without kinds, whatever kinds lie beside.
fn unused_kinds(comparer: &mut Comparer) -> Outcome {
    let mut scene = Scene::new(0x200, 9);
    for kinds in [Vec::new(), vec![0; 15], vec![0xFF; 16], vec![0; 17]] {
        scene.store.kinds = kinds;
        begins(comparer, "kinds that are not lent", Begin, &scene, &WRITE_BACK)?;
    }
    Ok(())
}

/// How many numbers of kinds a map can use: one that names none uses number 0.
fn usable_numbers(kind: Kind) -> usize {
    plain_call(kind).map_or(1, |_| 8)
}

/// A map of this setup, with the number of a kind if it names one.
fn numbered(kind: Kind, setup: &Setup, number: u32) -> Setup {
    let [block, index, target, rights, _] = setup.call.arguments;
    let number = if plain_call(kind).is_some() { number } else { 0 };
    Setup { scene: setup.scene.clone(), call: Call { kind, arguments: [block, index, target, rights, number] } }
}

/// Numbers of kinds that there are and that there are not, alone, with a kind that is not lawful, and with every other reason for a refusal.
fn numbers(kind: Kind, comparer: &mut Comparer) -> Outcome {
    let plain = plain_call(kind).unwrap_or(kind);
    let too_large: &[u32] = if plain == kind { &[] } else { &NO_NUMBERS };
    for setup in accepted(plain) {
        for number in 0..usable_numbers(kind) as u32 {
            comparer.check(numbered(kind, &setup, number).case(&format!("kind {number}"), Some(0)))?;
        }
        for number in too_large {
            let name = format!("kind {number:#x}");
            let setup = numbered(kind, &setup, *number);
            refused(comparer, &name, setup.call, &setup.scene.store, 4)?;
            for (place, unlawful) in UNLAWFUL.into_iter().take(8).enumerate() {
                let mut scene = setup.scene.clone();
                scene.set_kind(place, unlawful);
                refused(comparer, &format!("{name}, and kind {place} is unlawful"), setup.call, &scene.store, 1)?;
            }
        }
    }
    for (name, setup, answer) in super::reasons::refused(plain) {
        for number in too_large.iter().filter(|number| [8, 15, u32::MAX].contains(number)) {
            let setup = numbered(kind, &setup, *number);
            let name = format!("{name}, and kind {number:#x}");
            refused(comparer, &name, setup.call, &setup.scene.store, answer.min(4))?;
        }
        let mut unlawful = numbered(kind, &setup, 3);
        unlawful.scene.set_kind(6, 0x100);
        refused(comparer, &format!("{name}, and an unlawful kind"), unlawful.call, &unlawful.scene.store, 1)?;
    }
    beyond_and_untyped(kind, comparer)
}

/// A kind above 7 is judged after 2 and 3, beside the index, and before 5.
fn beyond_and_untyped(kind: Kind, comparer: &mut Comparer) -> Outcome {
    let Some(plain) = plain_call(kind) else { return Ok(()) };
    let setup = &accepted(plain)[0];
    for number in [8, u32::MAX] {
        let mut all = numbered(kind, setup, number);
        all.scene.set_types(0..all.scene.blocks(), 7);
        refused(comparer, "a kind above 7, and no table", all.call, &all.scene.store, 4)?;
        all.call.arguments[1] = 4096;
        refused(comparer, "the same, and an index too large", all.call, &all.scene.store, 4)?;
        all.call.arguments[3] = 9;
        refused(comparer, "the same, and wrong rights", all.call, &all.scene.store, 4)?;
        all.call.arguments[2] += 1;
        let answer = if plain == MapL2 { 4 } else { 3 };
        refused(comparer, "the same, and a target that is not aligned", all.call, &all.scene.store, answer)?;
        all.call.arguments[0] = FIRST - 4;
        refused(comparer, "the same, and a block outside", all.call, &all.scene.store, 2)?;
        all.scene.set_kind(5, 0x80);
        refused(comparer, "the same, and an unlawful kind", all.call, &all.scene.store, 1)?;
    }
    Ok(())
}

/// A map's form: the words of a mapping with each of the rights, and where the bits of the kind stand in them.
struct Form {
    /// Low bits for the rights 0, 1, 3 and 5 where no bit of the kind is set.
    low: [u32; 4],
    /// Where bits 0 to 6 of the kind stand.
    places: [u32; 7],
    scene: Scene,
    /// The position of the table, the index of the first entry, the number of entries, and the position of the target.
    table: usize,
    index: usize,
    entries: usize,
    target: usize,
    /// The address of the first byte that is mapped.
    address: u32,
    unmap: Kind,
}

fn form(kind: Kind) -> Form {
    match plain_call(kind).unwrap_or(kind) {
        MapL1 => Form {
            low: [0x412, 0x812, 0xC12, 0x802],
            places: [2, 3, 12, 13, 14, 16, 17],
            scene: section_scene(),
            table: L1_TABLE,
            index: 1030,
            entries: 1,
            target: 0,
            address: 1030 << 20,
            unmap: UnmapL1,
        },
        MapL2 => Form {
            low: [0x013, 0x023, 0x033, 0x022],
            places: [2, 3, 6, 7, 8, 10, 11],
            scene: page_scene(L2_REGION),
            table: PAGE_TABLE,
            index: 1023,
            entries: 1,
            target: PAGE,
            address: 5 << 20 | 0xFF << 12,
            unmap: UnmapL2,
        },
        _ => Form {
            low: [0x8011, 0x8021, 0x8031, 0x0021],
            places: [2, 3, 12, 13, 14, 10, 11],
            scene: page_scene(LARGE_REGION),
            table: PAGE_TABLE,
            index: LAST_RUN,
            entries: 16,
            target: LARGE,
            address: 5 << 20 | 0xF0 << 12,
            unmap: UnmapLarge,
        },
    }
}

/// An active L1 table, and data that is marked.
fn section_scene() -> Scene {
    let mut scene = l1_scene();
    scene.activate(L1_TABLE);
    scene.set_marks(0..256, MARKED);
    scene
}

/// An active L1 table whose entry 5 links to the last table of an L2 block, and data that is marked.
fn page_scene(blocks: usize) -> Scene {
    let mut scene = Scene::new(FIRST, blocks);
    scene.set_types(0..4, 1);
    scene.set_types(PAGE_TABLE..PAGE_TABLE + 1, 2);
    scene.activate(0);
    scene.put(0, 5, scene.link(PAGE_TABLE, 3));
    scene.set_marks(PAGE..blocks, MARKED);
    scene
}

/// All 128 kinds with all rights, each under a number in turn, or under number 0 where the map names none; the other kinds are others.
fn words(kind: Kind, comparer: &mut Comparer) -> Outcome {
    let form = form(kind);
    for memory_kind in 0..128u16 {
        for (which, rights) in [0, 1, 3, 5].into_iter().enumerate() {
            let number = (memory_kind as usize + which) % usable_numbers(kind);
            let mut scene = form.scene.clone();
            scene.set_kinds(&[memory_kind ^ 0x7F; 8]);
            scene.set_kind(number, memory_kind);
            let word = form.word(which, memory_kind);
            form.check(comparer, kind, scene, rights, number as u32, word)?;
        }
    }
    own_kinds(kind, &form, comparer)
}

/// Eight kinds that all differ: each number has its own, and a map that names none the first.
fn own_kinds(kind: Kind, form: &Form, comparer: &mut Comparer) -> Outcome {
    for turn in 0..8 {
        let mut kinds = [0x47, 0x03, 0x5C, 0x7F, 0x20, 0x11, 0x68, 0x00];
        kinds.rotate_left(turn);
        for number in 0..usable_numbers(kind) {
            let mut scene = form.scene.clone();
            scene.set_kinds(&kinds);
            let word = form.word(2, kinds[number]);
            form.check(comparer, kind, scene, 3, number as u32, word)?;
        }
    }
    Ok(())
}

impl Form {
    /// The word of a mapping with the rights at this place of `low`, and this kind.
    fn word(&self, which: usize, kind: u16) -> u32 {
        let bits: u32 = (0..7).map(|bit| u32::from(kind >> bit & 1) << self.places[bit]).sum();
        4096 * self.scene.block(self.target) + self.low[which] + bits
    }

    /// Maps: the word is this one, the guest can do what the rights say at the first and the last address, and unmap takes the entry away.
    fn check(
        &self,
        comparer: &mut Comparer,
        kind: Kind,
        mut scene: Scene,
        rights: u32,
        number: u32,
        word: u32,
    ) -> Outcome {
        let (block, target) = (scene.block(self.table), scene.block(self.target));
        let name = format!("the word {word:#x} of kind {number}");
        let counters = |scene: &Scene| [W, X].map(|which| scene.record(self.target + self.entries - 1, which));
        let arguments = [block, self.index as u32, target, rights, number];
        answers(comparer, &name, Call::new(kind, &arguments[..kind.arity()]), &mut scene.store, 0)?;
        let call = Call::new(kind, &arguments);
        if !(0..self.entries).all(|entry| scene.word(self.table, self.index + entry) == word) {
            let written = scene.word(self.table, self.index);
            return Err(difference(&name, call, format!("the word written is {written:#x}")));
        }
        if counters(&scene) != [u32::from(rights == 3), u32::from(rights == 5)] {
            return Err(difference(&name, call, "the counters do not fit the rights".to_string()));
        }
        let last = self.address + ((self.entries as u32) << 12) - 1;
        for (access, needed) in [(Read, 1), (Write, 2), (Fetch, 4)] {
            let answer = if rights & needed != 0 { 0 } else { 23 };
            for address in [self.address, last] {
                let call = Call::new(access, &[address, 0x5A][..access.arity()]);
                answers(comparer, &name, call, &mut scene.store.clone(), answer)?;
            }
        }
        answers(comparer, &name, Call::new(self.unmap, &[block, self.index as u32]), &mut scene.store, 0)?;
        match counters(&scene) {
            [0, 0] => Ok(()),
            _ => Err(difference(&name, call, "unmap left a counter".to_string())),
        }
    }
}

fn answers(comparer: &mut Comparer, name: &str, call: Call, store: &mut Store, answer: u32) -> Outcome {
    let given = comparer.step(name, call, store)?;
    if given.answer == answer {
        return Ok(());
    }
    Err(difference(name, call, format!("answer {}, expected {answer}", given.answer)))
}

/// A call that names kinds or a kind, over any ledger: first with any, then with number 0, or with B and C eight times, as the call that names none.
fn alike(kind: Kind, comparer: &mut Comparer) -> Outcome {
    let Some(plain) = plain_call(kind) else { return Ok(()) };
    let mut random = Random::new(90 + kind as u64);
    for round in 0..400 {
        let blocks = if kind == MapL1Kind && round % 4 == 0 { 256 } else { 16 } + random.below(20);
        let mut case = hostile::case(plain, blocks, &mut random);
        let mut arguments = case.call.arguments;
        arguments[4] = match random.below(8) {
            0 => random.one_of(&NO_NUMBERS),
            _ => random.below(8) as u32,
        };
        if kind == BeginKinds {
            arguments[0] = 256 * random.below(3) as u32;
            case.store.kinds = kind_bytes(&random_kinds(&mut random));
        }
        let call = Call::new(kind, &arguments[..kind.arity()]);
        comparer.step("any number or kinds", call, &mut case.store.clone())?;
        case.store.kinds = kind_bytes(&WRITE_BACK);
        arguments[4] = 0;
        let (naming, plain) =
            (Call::new(kind, &arguments[..kind.arity()]), Call::new(plain, &arguments[..plain.arity()]));
        let (mut left, mut left_plain) = (case.store.clone(), case.store);
        let given = comparer.step("as without a kind", naming, &mut left)?;
        let given_plain = comparer.step("without a kind", plain, &mut left_plain)?;
        if given != given_plain || left != left_plain {
            return Err(difference("with and without a kind", naming, format!("{given:?} and {given_plain:?}")));
        }
    }
    Ok(())
}
