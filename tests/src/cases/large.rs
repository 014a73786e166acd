//! Large pages: runs of sixteen equal words, whole, broken and out of place, by every call that reads an L2 block or walks through it.
use super::reasons::*;
use super::scene::*;
use super::Case;
use crate::compare::{Comparer, Outcome};
use crate::monitor::{Kind, MARKED};
use crate::random::Random;
use Kind::*;

pub fn run(kind: Kind, comparer: &mut Comparer) -> Outcome {
    let about = About { kind };
    if matches!(kind, CreateL1 | FreeL1 | MapL1 | Link | UnmapL1) {
        return Ok(());
    }
    about.arrangements(comparer)?;
    if matches!(kind, CreateL2 | FreeL2 | UnmapLarge | Read | Write | Fetch) {
        about.forms(comparer)?;
        about.places(comparer)?;
    }
    if matches!(kind, CreateL2 | FreeL2 | UnmapLarge) {
        about.counters(comparer)?;
    }
    if matches!(kind, MapLarge | UnmapLarge) {
        indices(kind, comparer)?;
        holders(kind, comparer)?;
    }
    match kind {
        CreateL2 => {
            same_blocks(comparer)?;
            own_block(comparer)?;
            one_of_sixteen(kind, comparer)
        }
        MapLarge => {
            entries_to_be_mapped(comparer)?;
            targets(comparer)?;
            holder_among_targets(comparer)?;
            one_of_sixteen(kind, comparer)
        }
        UnmapLarge => no_large_pages(comparer),
        Read | Write | Fetch => {
            about.positions(comparer)?;
            about.random_runs(comparer)
        }
        _ => Ok(()),
    }
}

/// A call that looks at a large page.
struct About {
    kind: Kind,
}

/// Words at indices of an L2 block, and where the whole runs among them start.
struct Arrangement {
    name: String,
    words: Vec<(usize, u32)>,
    runs: Vec<usize>,
}

impl Arrangement {
    fn new(name: &str, words: impl IntoIterator<Item = (usize, u32)>, runs: &[usize]) -> Arrangement {
        Arrangement { name: name.to_string(), words: words.into_iter().collect(), runs: runs.to_vec() }
    }

    fn put(&self, scene: &mut Scene) {
        self.words.iter().for_each(|(index, word)| scene.put(PAGE_TABLE, *index, *word));
    }

    /// Is the index one of a whole run?
    fn is_whole(&self, index: usize) -> bool {
        self.runs.contains(&(index / 16 * 16))
    }
}

/// The rights that a word with low bits 01 gives in a whole run, if it has the form.
fn rights(word: u32) -> Option<u32> {
    let given = match word >> 7 & 4 | word >> 4 & 3 {
        _ if word & 0x1C0 != 0 => return None,
        0b100 => return None,
        0b010 | 0b110 | 0b111 => 1,
        0b011 => 3,
        _ => 0,
    };
    Some(given + 4 * u32::from(given > 0 && word & 0x8000 == 0))
}

impl About {
    fn is_guest(&self) -> bool {
        matches!(self.kind, Read | Write | Fetch)
    }

    /// The L2 block, of the type that the call needs. The guest has an active L1 table with a link to each of its four tables, from entry 0 on, and in
    /// its last entry to the last of them.
    fn scene(&self, blocks: usize) -> Scene {
        let mut scene = Scene::new(FIRST, blocks);
        scene.sign_all_zeros();
        scene.set_record(PAGE_TABLE, TYPE, if self.kind == CreateL2 { 0 } else { 2 });
        if self.is_guest() {
            scene.set_marks(0..blocks, MARKED);
            scene.set_types(0..4, 1);
            scene.activate(0);
            (0..4).for_each(|table| scene.put(0, table, scene.link(PAGE_TABLE, table as u32)));
            scene.put(3, 1023, scene.link(PAGE_TABLE, 3));
        }
        scene
    }

    /// The low bits of a large page and of a page that the call meets; but for the guest, they change no counter.
    fn low(&self) -> (u32, u32) {
        if self.is_guest() {
            (LARGE_ALL, PAGE_ALL)
        } else {
            (LARGE_READ, PAGE_READ)
        }
    }

    /// The call, about the entry at this index or about its run.
    fn case(&self, scene: &Scene, name: &str, index: usize, expected: Option<u32>) -> Case {
        let block = scene.block(PAGE_TABLE);
        let (entry, run) = (index as u32, index as u32 / 16 * 16);
        let arguments = match self.kind {
            MapL2 => vec![block, entry, scene.block(PAGE), 1],
            MapLarge => vec![block, run, scene.block(LARGE), 1],
            UnmapL2 => vec![block, entry],
            UnmapLarge => vec![block, run],
            Read | Fetch => vec![entry << 12 | 0x5A5],
            Write => vec![entry << 12 | 0x5A5, 0x77],
            _ => vec![block],
        };
        Case { expected, ..scene.case(&format!("{name}, by index {index}"), self.kind, &arguments) }
    }

    /// The answer about the entry at an index. At a page, which may have other rights than the run, that of unmap and the guest is left to the reference.
    fn answer(&self, scene: &Scene, arrangement: &Arrangement, index: usize) -> Option<u32> {
        let unless = |whole: bool, refusal: u32| Some(if whole { 0 } else { refusal });
        match (self.kind, scene.word(PAGE_TABLE, index) % 4) {
            (CreateL2 | FreeL2, _) => unless(arrangement.words.iter().all(|(at, _)| arrangement.is_whole(*at)), 8),
            (UnmapLarge, _) => unless(arrangement.is_whole(index), 8),
            (MapLarge, _) => {
                unless(arrangement.words.iter().all(|(at, word)| at / 16 != index / 16 || word % 4 == 0), 8)
            }
            (MapL2 | UnmapL2, 0) => Some(0),
            (MapL2, _) | (UnmapL2, 1) => Some(8),
            (Read | Write | Fetch, 0) => Some(22),
            (Read | Write | Fetch, 1) => unless(arrangement.is_whole(index), 24),
            _ => None,
        }
    }

    /// Every arrangement, by its first index, its last and those beside a change.
    fn arrangements(&self, comparer: &mut Comparer) -> Outcome {
        let empty = self.scene(LARGE_REGION);
        let (large, page) = self.low();
        let word = empty.mapping(LARGE, large);
        for arrangement in whole_runs(word).chain(displaced(word)).chain(broken(word, empty.mapping(PAGE, page))) {
            let mut scene = empty.clone();
            arrangement.put(&mut scene);
            let (first, last) = (arrangement.words[0].0, arrangement.words[arrangement.words.len() - 1].0);
            for index in [first, (first + 1).min(1023), last.min(first + 15), last] {
                let expected = self.answer(&scene, &arrangement, index);
                comparer.check(self.case(&scene, &arrangement.name, index, expected))?;
            }
        }
        Ok(())
    }

    /// Runs of every value of bits 9..2: with XN set, with XN clear, and with XN clear and one free bit set.
    fn forms(&self, comparer: &mut Comparer) -> Outcome {
        let mut empty = self.scene(LARGE_REGION);
        if matches!(self.kind, FreeL2 | UnmapLarge) {
            [W, X].into_iter().for_each(|which| count_large(&mut empty, which, 5));
        }
        for low in (1..1024).step_by(4) {
            for high in [0x8000, 0, 0x400 << (low / 4 % 5)] {
                let mut scene = empty.clone();
                let word = scene.mapping(LARGE, low | high);
                scene.put_run(PAGE_TABLE, 496, word);
                let expected = match (self.kind, rights(word)) {
                    (Read | Write | Fetch, None) => 24,
                    (_, None) => 8,
                    (CreateL2, Some(7)) => 11,
                    (Read, Some(0)) | (Write, Some(0 | 1 | 5)) | (Fetch, Some(0 | 1 | 3)) => 23,
                    _ => 0,
                };
                comparer.check(self.case(&scene, &format!("a run of {word:#x}"), 500, Some(expected)))?;
            }
        }
        Ok(())
    }

    /// Large pages at the region's ends and outside of it in part, also where the entry's own block is inside.
    fn places(&self, comparer: &mut Comparer) -> Outcome {
        let indices: &[usize] = if self.is_guest() { &[32, 35, 36, 40, 47] } else { &[32] };
        for blocks in [20, 24, 31, 32, 33, 40, 47, 48] {
            for place in [0, 0x2F0, 0x300, 0x310, 0x320, 0x330, 0xFFF0, 0xF_FFF0] {
                for low in [LARGE_NONE, LARGE_READ, LARGE_ALL] {
                    let mut scene = self.scene(blocks);
                    scene.put_run(PAGE_TABLE, 32, (place << 12) + low);
                    for block in 16..blocks {
                        scene.set_record(block, W, 3);
                        scene.set_record(block, X, 3);
                    }
                    let inside = place >= FIRST && place + 16 <= FIRST + blocks as u32;
                    let expected = self.answer_at_place(inside, low);
                    for &index in indices {
                        let name = format!("a large page at {place:#x} in {blocks} blocks");
                        comparer.check(self.case(&scene, &name, index, expected))?;
                    }
                }
            }
        }
        Ok(())
    }

    fn answer_at_place(&self, inside: bool, low: u32) -> Option<u32> {
        match self.kind {
            Read | Write | Fetch if !inside => Some(24),
            Read if low == LARGE_READ => Some(0),
            Read | Write | Fetch => Some(if low == LARGE_ALL { 0 } else { 23 }),
            _ if !inside => Some(10),
            _ => (low != LARGE_ALL).then_some(0),
        }
    }

    /// Counters of one of the sixteen blocks, and of its neighbours, at their edges; two runs on the same blocks.
    fn counters(&self, comparer: &mut Comparer) -> Outcome {
        for (low, which) in [(LARGE_WRITE, W), (LARGE_EXECUTE, X), (LARGE_READ, W)] {
            for runs in [1, 2] {
                let mut counted = self.scene(LARGE_REGION);
                (0..runs).for_each(|k| counted.put_run(PAGE_TABLE, 64 * k, counted.mapping(LARGE, low)));
                if self.kind != CreateL2 {
                    count_large(&mut counted, which, 9);
                }
                for block in [LARGE - 1, LARGE, LARGE + 7, LARGE + 15, LARGE + 16] {
                    for count in [0, 1, 2, LIMIT - 2, LIMIT - 1, LIMIT, LIMIT + 1, LIMIT + 2, LIMIT + 3, u32::MAX] {
                        let mut scene = counted.clone();
                        scene.set_record(block, which, count);
                        let name = format!("{runs} runs of {low:#x}, counter {which} of block {block} is {count:#x}");
                        comparer.check(self.case(&scene, &name, 0, None))?;
                    }
                }
            }
        }
        Ok(())
    }

    /// Walks through each entry of a large page, to both ends of its block, and at the end of the address range. All blocks differ.
    fn positions(&self, comparer: &mut Comparer) -> Outcome {
        let mut random = Random::new(50);
        let mut empty = self.scene(48);
        (LARGE..48).for_each(|position| empty.fill(position, &mut random));
        for run in [0, 16, 240, 256, 752, 1008] {
            let mut scene = empty.clone();
            scene.put_run(PAGE_TABLE, run, scene.mapping(LARGE, LARGE_ALL));
            for index in run..run + 16 {
                for offset in [0, 1, 0xFFF] {
                    let arguments = [(index as u32) << 12 | offset, 0x177];
                    let name = format!("position {} of a large page", index - run);
                    comparer.check(scene.expect(&name, self.kind, &arguments[..self.kind.arity()], 0))?;
                }
            }
            for index in [run.wrapping_sub(1), run + 16].into_iter().filter(|index| *index < 1024) {
                comparer.check(self.case(&scene, "beside a large page", index, Some(22)))?;
            }
        }
        empty.put_run(PAGE_TABLE, LAST_RUN, empty.mapping(LARGE, LARGE_ALL));
        for (address, answer) in
            [(0xFFFE_FFFF, 22), (0xFFFF_0000, 0), (0xFFFF_EFFF, 0), (0xFFFF_F000, 0), (u32::MAX, 0)]
        {
            let arguments = [address, 0x77];
            let name = "a large page at the last addresses";
            comparer.check(empty.expect(name, self.kind, &arguments[..self.kind.arity()], answer))?;
        }
        Ok(())
    }

    /// Runs with other words put over them, at random.
    fn random_runs(&self, comparer: &mut Comparer) -> Outcome {
        let mut random = Random::new(51);
        for _ in 0..300 {
            let blocks = [20, 24, 32, 40, 48][random.below(5)];
            let mut scene = self.scene(blocks);
            (LARGE..blocks).for_each(|position| scene.put_byte(position, 0x5A5, position as u8));
            for _ in 0..3 {
                random_run(&mut scene, PAGE_TABLE, &mut random);
            }
            for _ in 0..6 {
                let index = 256 * random.below(2) + random.below(64);
                comparer.check(self.case(&scene, "random runs", index, None))?;
            }
        }
        Ok(())
    }
}

/// A run near the start of one of the first two tables, in a third of the cases with another word at one of its indices.
pub fn random_run(scene: &mut Scene, table: usize, random: &mut Random) {
    let index = 256 * random.below(2) + 16 * random.below(4);
    let word = random_large_word(scene, random);
    scene.put_run(table, index, word);
    let other = match random.below(12) {
        0 => 0,
        1 => word ^ 1 << random.below(32),
        2 => random_large_word(scene, random),
        3 => scene.mapping(random.below(scene.blocks()), PAGE_READ),
        _ => return,
    };
    scene.put(table, index + random.below(16), other);
}

/// The word of a large page that is likely to lie in the region.
pub fn random_large_word(scene: &Scene, random: &mut Random) -> u32 {
    let places = scene.blocks() / 16 + usize::from(random.below(8) == 0);
    let place = scene.block(16 * random.below(places.max(1))) << 12;
    let low = [LARGE_NONE, LARGE_READ, LARGE_READ, LARGE_WRITE, LARGE_EXECUTE, LARGE_ALL][random.below(6)];
    match random.below(8) {
        0 => place | low | random.next() as u32 & 0x7C0C,
        1 => place | random.next() as u32 & 0xFFFC | 1,
        _ => place | low,
    }
}

/// The entries of runs from these indices on.
fn runs(word: u32, indices: &[usize]) -> Vec<(usize, u32)> {
    indices.iter().flat_map(|first| (*first..first + 16).map(move |index| (index, word))).collect()
}

/// One run, and several, each of them whole.
fn whole_runs(word: u32) -> impl Iterator<Item = Arrangement> {
    let one = [0, 16, 240, 256, 496, 512, 752, 1008]
        .map(|index| Arrangement::new(&format!("a run at {index}"), runs(word, &[index]), &[index]));
    let two = [runs(word, &[32]), runs(word ^ 0x8, &[48])].concat();
    let all: Vec<usize> = (0..1024).step_by(16).collect();
    let many = [
        Arrangement::new("two runs of one word", runs(word, &[240, 256]), &[240, 256]),
        Arrangement::new("two runs of two words", two, &[32, 48]),
        Arrangement::new("runs everywhere", runs(word, &all), &all),
    ];
    one.into_iter().chain(many)
}

/// One word at indices that do not start or do not end at a multiple of 16, with a whole run among them or none.
fn displaced(word: u32) -> impl Iterator<Item = Arrangement> {
    let short = [(0, 1), (1, 2), (8, 9), (15, 16), (1023, 1024), (0, 15), (1, 16), (0, 8), (8, 16), (0, 4)];
    let shifted = [(1, 17), (4, 20), (8, 24), (15, 31), (248, 264), (252, 268), (1000, 1016)];
    let long = [(0, 17), (15, 32), (8, 40), (0, 31)];
    short.into_iter().chain(shifted).chain(long).map(move |(from, to)| {
        let whole: Vec<usize> = (0..1024).step_by(16).filter(|run| from <= *run && run + 16 <= to).collect();
        Arrangement::new(&format!("one word from {from} to {to}"), (from..to).map(|index| (index, word)), &whole)
    })
}

/// A run with one word that differs, in each bit, or that is a fault or a page; and words that differ in turns.
fn broken(word: u32, page: u32) -> impl Iterator<Item = Arrangement> {
    let others = (0..32).map(move |bit| word ^ 1 << bit).chain([0, 0xFFFF_FFFC, page, 1]);
    let one = [0, 1, 3, 7, 8, 12, 14, 15].into_iter().flat_map(move |position| {
        others.clone().map(move |other| {
            let mut words = runs(word, &[256]);
            words.rotate_left(position);
            words[0].1 = other;
            Arrangement::new(&format!("{other:#x} at position {position} of a run"), words, &[])
        })
    });
    let other = word ^ 0x8;
    let turns = [("in turns", 0x5555), ("in halves", 0x00FF), ("first and last alike", 0x8001)].map(|(name, first)| {
        Arrangement::new(name, (0..16).map(|k| (k, if first >> k & 1 == 1 { word } else { other })), &[])
    });
    let own = (0..16).map(|k| (k, word + ((k as u32) << 12)));
    one.chain(turns).chain([Arrangement::new("the address of each block", own, &[])])
}

/// Several entries of a new table on one block of a large page.
fn same_blocks(comparer: &mut Comparer) -> Outcome {
    let about = About { kind: CreateL2 };
    let (w, x, r) = (LARGE_WRITE, LARGE_EXECUTE, LARGE_READ);
    for (first, second, answer) in [(w, w, 0), (w, r, 0), (w, x, 11), (x, w, 11), (x, x, 0), (r, x, 0)] {
        let mut scene = about.scene(LARGE_REGION);
        scene.put_run(PAGE_TABLE, 16, scene.mapping(LARGE, first));
        scene.put_run(PAGE_TABLE, 1008, scene.mapping(LARGE, second));
        comparer.check(about.case(&scene, "two runs on the same blocks", 0, Some(answer)))?;
    }
    for block in [LARGE - 1, LARGE, LARGE + 8, LARGE + 15, LARGE + 16] {
        let inside = (LARGE..LARGE + 16).contains(&block);
        for (large, page, clash) in [(w, PAGE_WRITE, 0), (w, PAGE_EXECUTE, 11), (x, PAGE_WRITE, 11), (x, PAGE_READ, 0)]
        {
            let mut scene = about.scene(LARGE_REGION);
            scene.put_run(PAGE_TABLE, 16, scene.mapping(LARGE, large));
            scene.put(PAGE_TABLE, 5, scene.mapping(block, page));
            let answer = if inside { clash } else { 0 };
            comparer.check(about.case(&scene, &format!("a run and a page of block {block}"), 0, Some(answer)))?;
        }
    }
    Ok(())
}

/// A new table that a large page of its own covers: writable never, executable if all sixteen are signed.
fn own_block(comparer: &mut Comparer) -> Outcome {
    let about = About { kind: CreateL2 };
    for (low, answer) in [(LARGE_READ, 0), (LARGE_WRITE, 10), (LARGE_EXECUTE, 0), (LARGE_ALL, 10)] {
        let mut scene = about.scene(LARGE_REGION);
        scene.put_run(PAGE_TABLE, 16, scene.mapping(0, low));
        let unsigned = if low == LARGE_EXECUTE { 12 } else { answer };
        comparer.check(about.case(&scene, "a large page of its own block, unsigned", 0, Some(unsigned)))?;
        scene.sign(PAGE_TABLE);
        comparer.check(about.case(&scene, "a large page of its own block", 0, Some(answer)))?;
    }
    Ok(())
}

/// Each block of the sixteen, and those beside them, of another type, counted or not signed.
fn one_of_sixteen(kind: Kind, comparer: &mut Comparer) -> Outcome {
    for (form, rights) in [LARGE_WRITE, LARGE_EXECUTE].into_iter().enumerate() {
        let (scene, arguments) = mapped(kind, rights);
        for block in LARGE - 1..=LARGE + 16 {
            let inside = (LARGE..LARGE + 16).contains(&block);
            for (which, value) in [(TYPE, 1), (TYPE, 2), (TYPE, 3), (TYPE, 0x100), (W, 1), (X, 1), (L, 1)] {
                let mut scene = scene.clone();
                scene.set_record(block, which, value);
                let answer = match (which, form) {
                    _ if !inside => 0,
                    (TYPE, 0) => 10,
                    (W, 1) | (X, 0) => 11,
                    _ => 0,
                };
                let name = format!("record word {which} of block {block} is {value}");
                comparer.check(scene.expect(&name, kind, &arguments, answer))?;
            }
            let mut scene = scene.clone();
            scene.put_byte(block, 2000, 1);
            let answer = if inside && form == 1 { 12 } else { 0 };
            comparer.check(scene.expect(&format!("block {block} is not signed"), kind, &arguments, answer))?;
        }
    }
    Ok(())
}

/// A create or a map of the large page with the rights of these low bits.
fn mapped(kind: Kind, low: u32) -> (Scene, Vec<u32>) {
    let mut scene = About { kind }.scene(LARGE_REGION);
    let (block, target) = (scene.block(PAGE_TABLE), scene.block(LARGE));
    if kind == MapLarge {
        return (scene, vec![block, LAST_RUN as u32, target, if low == LARGE_WRITE { 3 } else { 5 }]);
    }
    scene.put_run(PAGE_TABLE, LAST_RUN, scene.mapping(LARGE, low));
    (scene, vec![block])
}

/// Indices at all edges; a large page stands at the last sixteen only.
fn indices(kind: Kind, comparer: &mut Comparer) -> Outcome {
    let edges = [0, 1, 4, 8, 15, 16, 240, 255, 256, 992, 1000, 1004, 1007, 1008, 1009, 1016, 1023, 1024, 1025, 1040];
    let far = [2047, 2048, 4080, 4095, 4096, 1 << 16, 1 << 20 | 8, 1 << 30, 0xFFFF_FFF0, u32::MAX];
    for setup in accepted(kind) {
        for index in edges.into_iter().chain(far) {
            let mut setup = setup.clone();
            setup.call.arguments[1] = index;
            let answer = match index {
                _ if index % 16 != 0 => 3,
                _ if index > 1023 => 4,
                _ if kind == UnmapLarge && index != LAST_RUN as u32 => 8,
                _ => 0,
            };
            comparer.check(setup.case("an index", Some(answer)))?;
        }
    }
    Ok(())
}

/// Counters of the L2 block: its x is a reason, its w and l are not.
fn holders(kind: Kind, comparer: &mut Comparer) -> Outcome {
    for setup in accepted(kind) {
        for (which, count) in [(X, 1), (X, 2), (X, u32::MAX), (W, 1), (L, 1), (W, u32::MAX)] {
            let mut setup = setup.clone();
            setup.scene.set_record(PAGE_TABLE, which, count);
            let answer = if which == X { 7 } else { 0 };
            comparer.check(setup.case("an L2 block with counters", Some(answer)))?;
        }
    }
    Ok(())
}

/// Faults with other bits set may be mapped over; every other word at one of the sixteen may not, and words beside them do not matter.
fn entries_to_be_mapped(comparer: &mut Comparer) -> Outcome {
    for setup in accepted(MapLarge) {
        for position in 0..16 {
            for word in [4, 0xFFFF_FFFC, 1, 2, 3, 0x0031_002F, 0x0031_802D, u32::MAX] {
                let mut setup = setup.clone();
                setup.scene.put(PAGE_TABLE, LAST_RUN + position, word);
                let answer = if word % 4 == 0 { 0 } else { 8 };
                comparer.check(setup.case(&format!("the word {word:#x} at position {position}"), Some(answer)))?;
            }
        }
        let mut full = setup.clone();
        (0..1024).for_each(|index| full.scene.put(PAGE_TABLE, index, full.scene.mapping(PAGE, PAGE_READ)));
        full.scene.put_run(PAGE_TABLE, 512, 0x8000_0004);
        full.call.arguments[1] = 512;
        comparer.check(full.case("pages all around sixteen faults", Some(0)))?;
    }
    Ok(())
}

/// Sixteen equal words that are no large page: faults, pages, and unaccepted forms.
fn no_large_pages(comparer: &mut Comparer) -> Outcome {
    for setup in accepted(UnmapLarge) {
        let word = setup.scene.word(PAGE_TABLE, LAST_RUN);
        for other in [0, 4, word & !3, word | 3, word ^ 3, word | 0x40, word | 0x100, word & !0x30 | 0x200, 1 | 0x1C0] {
            let mut setup = setup.clone();
            setup.scene.put_run(PAGE_TABLE, LAST_RUN, other);
            comparer.check(setup.case(&format!("sixteen times {other:#x}"), Some(8)))?;
        }
    }
    Ok(())
}

/// Targets at the region's ends, beyond it, and at every distance from a multiple of 16.
fn targets(comparer: &mut Comparer) -> Outcome {
    for blocks in [16, 20, 24, 31, 32, 33, 47, 48] {
        let mut scene = About { kind: MapLarge }.scene(blocks);
        let mut check = |scene: &Scene, target: u32, rights: u32, answer: u32| {
            let arguments = [FIRST + PAGE_TABLE as u32, 16, target, rights];
            comparer.check(scene.expect(&format!("a target in {blocks} blocks"), MapLarge, &arguments, answer))
        };
        for target in [0, 0x2F0, 0x300, 0x310, 0x320, 0x330, 0xF_FFF0, 0x10_0310, 0x8000_0310, 0xFFFF_FFF0] {
            let inside = target >= FIRST && u64::from(target) + 16 <= u64::from(FIRST) + blocks as u64;
            for rights in [0, 1, 3, 5] {
                let fits = inside && (target != FIRST || rights < 3);
                check(&scene, target, rights, if fits { 0 } else { 10 })?;
            }
        }
        for distance in 1..16 {
            check(&scene, 0x310 + distance, 1, 3)?;
            check(&scene, 0xFFFF_FFF0 + distance, 9, 3)?;
        }
        scene.set_record(PAGE_TABLE, TYPE, 0);
        check(&scene, 0x308, 9, 3)?;
    }
    Ok(())
}

/// The L2 block is one of the target's sixteen: it may be read, not written and not executed. Another table may be executed if it is signed.
fn holder_among_targets(comparer: &mut Comparer) -> Outcome {
    for position in LARGE..LARGE + 16 {
        let mut scene = About { kind: MapLarge }.scene(LARGE_REGION);
        scene.set_record(position, TYPE, 2);
        for (rights, holder, other) in [(0, 0, 0), (1, 0, 0), (3, 10, 10), (5, 10, 0)] {
            for (table, answer) in [(position, holder), (PAGE_TABLE, other)] {
                let arguments = [scene.block(table), 32, scene.block(LARGE), rights];
                comparer.check(scene.expect(&format!("a table in block {position}"), MapLarge, &arguments, answer))?;
            }
        }
    }
    Ok(())
}
