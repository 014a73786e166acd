//! Marks: which blocks create and map hash, how many, and what each call makes of the marks.
use super::reasons::*;
use super::scene::*;
use crate::compare::{difference, Comparer, Outcome};
use crate::monitor::{Call, Kind, LEDGER_HEAD, MARKED};
use crate::random::Random;
use std::ops::Range;
use Kind::*;

/// Marks of blocks that are not marked.
const OTHERS: [u32; 8] = [0, 2, 3, 0x100, 0x101, 0x0100_0001, 0x8000_0001, u32::MAX];

/// A block is marked in a quarter of the cases.
pub fn random_mark(random: &mut Random) -> u32 {
    match random.below(8) {
        0 | 1 => MARKED,
        2 => random.next() as u32,
        3 => random.one_of(&OTHERS),
        _ => 0,
    }
}

pub fn run(kind: Kind, comparer: &mut Comparer) -> Outcome {
    patterns(kind, comparer)?;
    match kind {
        CreateL1 | CreateL2 | MapL1 | MapL2 | MapLarge => {
            values(kind, comparer)?;
            some_marked(kind, comparer)?;
            many_unsigned(kind, comparer)?;
        }
        _ => {}
    }
    match kind {
        CreateL1 => {
            many_sections(comparer)?;
            own_sections(comparer)
        }
        CreateL2 => {
            many_pages(comparer)?;
            pages_and_large_pages(comparer)?;
            own_page(comparer)?;
            random_pages(comparer)
        }
        MapL1 | MapL2 | MapLarge | Link | UnmapL1 | UnmapL2 | UnmapLarge => {
            holders(kind, comparer)?;
            if kind == MapL2 {
                sequences(comparer)?;
            }
            Ok(())
        }
        Read | Write | Fetch => accesses(kind, comparer),
        Forget => forget(comparer),
        _ => Ok(()),
    }
}

/// Marks of all blocks at once: all marked; none, and all different; any.
fn patterns_of(scene: &Scene) -> [Scene; 3] {
    let mut random = Random::new(60);
    let different = |position: usize| 0x100 + position as u32;
    let any: Vec<u32> = (0..scene.blocks()).map(|_| random_mark(&mut random)).collect();
    let marks: [&dyn Fn(usize) -> u32; 3] = [&|_| MARKED, &different, &|position| any[position]];
    marks.map(|mark| {
        let mut scene = scene.clone();
        (0..scene.blocks()).for_each(|position| scene.set_record(position, MARK, mark(position)));
        scene
    })
}

/// The calls on tables as they are accepted, and with each reason for a refusal alone. With every block marked, 12 is no reason.
fn patterns(kind: Kind, comparer: &mut Comparer) -> Outcome {
    for (form, setup) in accepted(kind).into_iter().enumerate() {
        for scene in patterns_of(&setup.scene) {
            let setup = Setup { scene, ..setup };
            comparer.check(setup.case(&format!("form {form}, with marks"), Some(0)))?;
        }
    }
    for (name, setup, number) in refused(kind) {
        for (pattern, scene) in patterns_of(&setup.scene).into_iter().enumerate() {
            let expected = match (number, pattern) {
                (12, 0) => Some(0),
                (12, 2) => None,
                _ => Some(number),
            };
            let setup = Setup { scene, ..setup };
            let case = setup.case(&format!("{name}, with marks"), expected);
            comparer.check(if expected == Some(number) { case.hashing(0) } else { case })?;
        }
    }
    Ok(())
}

/// The form of a create or map that executes, and the blocks that it executes.
fn executing(kind: Kind) -> (Setup, Range<usize>) {
    let executed = match kind {
        CreateL1 | MapL1 => 0..256,
        MapLarge => LARGE..LARGE + 16,
        _ => PAGE..PAGE + 1,
    };
    (accepted(kind)[1].clone(), executed)
}

/// Each mark on one executed block, signed or not, and on the blocks beside them: only exactly 1 is believed.
fn values(kind: Kind, comparer: &mut Comparer) -> Outcome {
    let (setup, executed) = executing(kind);
    let all = executed.len() as u32;
    for mark in OTHERS.into_iter().chain([MARKED]) {
        let is_marked = mark == MARKED;
        for position in [executed.start, executed.start + executed.len() / 2, executed.end - 1] {
            let mut setup = setup.clone();
            setup.scene.set_record(position, MARK, mark);
            let (name, number) = (format!("the mark {mark:#x} of block {position}"), all - u32::from(is_marked));
            comparer.check(setup.clone().case(&name, Some(0)).hashing(number))?;
            setup.scene.put_byte(position, 100, 0xEE);
            let (answer, number) = if is_marked { (0, number) } else { (12, 0) };
            comparer.check(setup.clone().case(&format!("{name}, not signed"), Some(answer)).hashing(number))?;
            setup.scene.set_record(position, X, 1);
            comparer.check(setup.case(&format!("{name}, executed and not signed"), Some(answer)).hashing(number))?;
        }
        let mut beside = setup.clone();
        (0..beside.scene.blocks())
            .filter(|position| !executed.contains(position))
            .for_each(|position| beside.scene.set_record(position, MARK, mark));
        comparer.check(beside.clone().case("marks beside the executed blocks", Some(0)).hashing(all))?;
        beside.scene.put_byte(executed.start, 100, 0xEE);
        comparer.check(beside.case("marks beside a block that is not signed", Some(12)).hashing(0))?;
    }
    Ok(())
}

/// Seven choices of which executed blocks are marked; and one block that is not signed, marked or not.
fn some_marked(kind: Kind, comparer: &mut Comparer) -> Outcome {
    let (setup, executed) = executing(kind);
    let all = executed.len();
    let choices: [&dyn Fn(usize) -> bool; 7] = [
        &|at| [0, all / 2, all - 1].contains(&at),
        &|at| at > 0,
        &|at| at + 1 < all,
        &|at| at % 2 == 0,
        &|at| at < all / 2,
        &|_| true,
        &|_| false,
    ];
    for (choice, is_marked) in choices.iter().enumerate() {
        let mut setup = setup.clone();
        let marked: Vec<usize> = (0..all).filter(|at| is_marked(*at)).collect();
        marked.iter().for_each(|at| setup.scene.set_record(executed.start + at, MARK, MARKED));
        let number = (all - marked.len()) as u32;
        comparer.check(setup.clone().case(&format!("choice {choice} is marked"), Some(0)).hashing(number))?;
        for unsigned in [0, all / 3, all - 1] {
            let mut setup = setup.clone();
            setup.scene.put_byte(executed.start + unsigned, 7, 1);
            let (answer, number) = if is_marked(unsigned) { (0, number) } else { (12, 0) };
            let name = format!("choice {choice} is marked, block {unsigned} is not signed");
            comparer.check(setup.case(&name, Some(answer)).hashing(number))?;
        }
    }
    Ok(())
}

/// All executed blocks are marked, and the image is empty, so that none is signed.
fn many_unsigned(kind: Kind, comparer: &mut Comparer) -> Outcome {
    let (mut setup, executed) = executing(kind);
    setup.scene.set_marks(executed.clone(), MARKED);
    setup.scene.store.golden.clear();
    comparer.check(setup.clone().case("an empty image", Some(0)).hashing(0))?;
    setup.scene.set_record(executed.end - 1, MARK, 2);
    comparer.check(setup.clone().case("an empty image, and one is not marked", Some(12)).hashing(0))?;
    setup.scene.store.golden.push(0);
    comparer.check(setup.case("an image of one byte", Some(1)).hashing(0))
}

/// A new L2 block that executes these blocks in turn, in all its entries.
fn executing_pages(blocks: &[usize]) -> Scene {
    let mut scene = Scene::new(FIRST, LARGE_REGION);
    scene.sign_all_zeros();
    for index in 0..1024 {
        scene.put(PAGE_TABLE, index, scene.mapping(blocks[index % blocks.len()], PAGE_EXECUTE));
    }
    scene
}

/// 1,024 entries on one block and on several: each block is hashed once.
fn many_pages(comparer: &mut Comparer) -> Outcome {
    let all: Vec<usize> = (0..LARGE_REGION).filter(|position| *position != PAGE_TABLE).collect();
    for blocks in [&all[..1], &all[..2], &all[3..10], &all[..32], &all[..]] {
        for marked in 0..blocks.len().min(4) {
            let mut scene = executing_pages(blocks);
            blocks[..marked].iter().for_each(|block| scene.set_record(*block, MARK, MARKED));
            let name = format!("1,024 pages of {} blocks, {marked} marked", blocks.len());
            let case = scene.expect(&name, CreateL2, &[FIRST + PAGE_TABLE as u32], 0);
            comparer.check(case.hashing((blocks.len() - marked) as u32))?;
        }
    }
    let mut scene = executing_pages(&[PAGE]);
    scene.set_record(PAGE, MARK, MARKED);
    comparer.check(scene.expect("1,024 pages of a marked block", CreateL2, &[FIRST + 8], 0).hashing(0))
}

/// Pages of blocks that a large page executes too, and of blocks beside them; blocks that are only read or written.
fn pages_and_large_pages(comparer: &mut Comparer) -> Outcome {
    let mut scene = Scene::new(FIRST, LARGE_REGION);
    scene.sign_all_zeros();
    scene.put_run(PAGE_TABLE, 16, scene.mapping(LARGE, LARGE_EXECUTE));
    scene.put_run(PAGE_TABLE, 64, scene.mapping(LARGE, LARGE_EXECUTE));
    let block = [scene.block(PAGE_TABLE)];
    comparer.check(scene.expect("a large page twice", CreateL2, &block, 0).hashing(16))?;
    scene.put(PAGE_TABLE, 3, scene.mapping(LARGE + 5, PAGE_EXECUTE));
    scene.put(PAGE_TABLE, 1023, scene.mapping(LARGE + 16, PAGE_EXECUTE));
    scene.put(PAGE_TABLE, 5, scene.mapping(LARGE + 17, PAGE_READ));
    scene.put(PAGE_TABLE, 6, scene.mapping(LARGE + 18, PAGE_WRITE));
    comparer.check(scene.expect("a large page and pages", CreateL2, &block, 0).hashing(17))?;
    for patterned in patterns_of(&scene) {
        comparer.check(patterned.expect("a large page and pages, with marks", CreateL2, &block, 0))?;
    }
    for position in [LARGE, LARGE + 5, LARGE + 15, LARGE + 16, LARGE + 17, LARGE + 18] {
        let mut scene = scene.clone();
        scene.set_record(position, MARK, MARKED);
        let number = 17 - u32::from(position <= LARGE + 16);
        let name = format!("a large page and pages, block {position} is marked");
        comparer.check(scene.expect(&name, CreateL2, &block, 0).hashing(number))?;
    }
    Ok(())
}

/// A table that executes itself: it is marked then, and need not be signed if it was.
fn own_page(comparer: &mut Comparer) -> Outcome {
    for mark in OTHERS.into_iter().chain([MARKED]) {
        let mut scene = Scene::new(FIRST, 16);
        scene.put(8, 77, scene.mapping(8, PAGE_EXECUTE));
        scene.set_record(8, MARK, mark);
        let (answer, number) = if mark == MARKED { (0, 0) } else { (12, 0) };
        let case = scene.expect("an unsigned table executes itself", CreateL2, &[FIRST + 8], answer);
        comparer.check(case.hashing(number))?;
        scene.sign(8);
        let number = u32::from(mark != MARKED);
        comparer.check(scene.expect("a table executes itself", CreateL2, &[FIRST + 8], 0).hashing(number))?;
    }
    Ok(())
}

/// Tables that read, write and execute some blocks, with any marks.
fn random_pages(comparer: &mut Comparer) -> Outcome {
    let mut random = Random::new(61);
    for _ in 0..300 {
        let mut scene = Scene::new(FIRST, LARGE_REGION);
        scene.sign_all_zeros();
        (0..LARGE_REGION).for_each(|position| scene.set_record(position, MARK, random_mark(&mut random)));
        for _ in 0..1 + random.below(60) {
            let written = random.below(8) == 0;
            let target = if written { random.below(8) } else { 9 + random.below(LARGE_REGION - 9) };
            let low =
                if written { PAGE_WRITE } else { random.one_of(&[PAGE_EXECUTE, PAGE_EXECUTE, PAGE_READ, PAGE_NONE]) };
            scene.put(PAGE_TABLE, random.below(1024), scene.mapping(target, low));
        }
        for _ in 0..random.below(3) {
            scene.put_byte(9 + random.below(LARGE_REGION - 9), random.below(4096), 1);
        }
        comparer.check(scene.case("random pages with marks", CreateL2, &[FIRST + PAGE_TABLE as u32]))?;
    }
    Ok(())
}

/// Sections that share blocks, and sections that only write.
fn many_sections(comparer: &mut Comparer) -> Outcome {
    let mut scene = Scene::new(FIRST, 772);
    scene.sign_all_zeros();
    let block = [scene.block(768)];
    (0..4096).for_each(|index| scene.put(768, index, scene.mapping(256, SECTION_EXECUTE)));
    comparer.check(scene.expect("4,096 times one section", CreateL1, &block, 0).hashing(256))?;
    (0..4096).step_by(2).for_each(|index| scene.put(768, index, scene.mapping(512, SECTION_EXECUTE)));
    comparer.check(scene.expect("two sections in turn", CreateL1, &block, 0).hashing(512))?;
    scene.set_marks(510..515, MARKED);
    comparer.check(scene.expect("two sections, five blocks marked", CreateL1, &block, 0).hashing(507))?;
    scene.put(768, 7, scene.mapping(0, SECTION_WRITE));
    scene.set_marks(0..256, 5);
    comparer.check(scene.expect("two sections, and one is written", CreateL1, &block, 0).hashing(507))?;
    scene.set_marks(256..768, MARKED);
    scene.store.golden.clear();
    comparer.check(scene.expect("two marked sections", CreateL1, &block, 0).hashing(0))
}

/// An L1 table that executes the section in which it lies.
fn own_sections(comparer: &mut Comparer) -> Outcome {
    for table in [0, 128, 252] {
        let mut scene = Scene::new(FIRST, 256);
        scene.put(table, 0, scene.mapping(0, SECTION_EXECUTE));
        scene.sign_all_zeros();
        let block = [FIRST + table as u32];
        comparer.check(scene.expect("an unsigned table executes itself", CreateL1, &block, 12).hashing(0))?;
        let mut marked = scene.clone();
        marked.set_record(table, MARK, MARKED);
        comparer.check(marked.expect("a marked table executes itself", CreateL1, &block, 0).hashing(255))?;
        scene.sign(table);
        comparer.check(scene.expect("a table executes itself", CreateL1, &block, 0).hashing(256))?;
    }
    Ok(())
}

/// Every mark on the holder, which the call writes, and on the blocks beside it; an index in each block of the table.
fn holders(kind: Kind, comparer: &mut Comparer) -> Outcome {
    let first = match kind {
        MapL1 | Link | UnmapL1 => L1_TABLE,
        _ => PAGE_TABLE,
    };
    let quarters = if first == L1_TABLE { 4 } else { 1 };
    for setup in accepted(kind) {
        for quarter in 0..quarters {
            for mark in OTHERS.into_iter().chain([MARKED]) {
                let mut setup = setup.clone();
                let (old, index) = (setup.call.arguments[1], setup.call.arguments[1] % 1024 + 1024 * quarter);
                let word = setup.scene.word(first, old as usize);
                setup.scene.put(first, old as usize, 0);
                setup.call.arguments[1] = index;
                if word != 0 && matches!(kind, UnmapL1 | UnmapL2) {
                    setup.scene.put(first, index as usize, word);
                }
                if kind == UnmapLarge {
                    setup.scene.put(first, index as usize, word);
                }
                setup.scene.set_marks(first - 1..first + 5, MARKED);
                setup.scene.set_record(first + quarter as usize, MARK, mark);
                comparer.check(setup.case(&format!("a holder with the mark {mark:#x}"), Some(0)))?;
            }
        }
    }
    if matches!(kind, UnmapL1 | UnmapL2) {
        faults(kind, first, quarters, comparer)?;
    }
    Ok(())
}

/// Unmap of a fault writes its holder too.
fn faults(kind: Kind, first: usize, quarters: u32, comparer: &mut Comparer) -> Outcome {
    let setup = &accepted(kind)[0];
    for quarter in 0..quarters {
        for word in [0, 4, 0xFFFF_FFFC] {
            let mut setup = setup.clone();
            setup.call.arguments[1] = 1024 * quarter + 1023;
            setup.scene.put(first, 1024 * quarter as usize + 1023, word);
            setup.scene.set_marks(first - 1..first + 5, MARKED);
            comparer.check(setup.case(&format!("unmap of the fault {word:#x}"), Some(0)))?;
        }
    }
    Ok(())
}

/// A step with its answer and the number of blocks hashed.
type Step<'a> = (Kind, &'a [u32], u32, u32);

fn sequence(comparer: &mut Comparer, name: &str, scene: &Scene, steps: &[Step]) -> Outcome {
    let mut scene = scene.clone();
    for (place, (kind, arguments, answer, hashed)) in steps.iter().enumerate() {
        let call = Call::new(*kind, arguments);
        let name = format!("{name}, step {place}");
        let given = comparer.step(&name, call, &mut scene.store)?;
        if (given.answer, given.hashed) != (*answer, *hashed) {
            return Err(difference(&name, call, format!("{given:?}, expected {answer}, {hashed} hashed")));
        }
    }
    Ok(())
}

/// A block's mark over several calls. Block 8 is code, by the L2 block 4 of the active table 0.
fn sequences(comparer: &mut Comparer) -> Outcome {
    let mut scene = Scene::new(0, 16);
    scene.sign_all_zeros();
    scene.fill(8, &mut Random::new(62));
    scene.put_byte(8, 0, 65);
    scene.sign(8);
    let set_up: [Step; 5] = [
        (Begin, &[0], 0, 0),
        (CreateL1, &[0], 0, 0),
        (CreateL2, &[4], 0, 0),
        (Link, &[0, 0, 4, 0], 0, 0),
        (Switch, &[0], 0, 0),
    ];
    let execute: Step = (MapL2, &[4, 5, 8, 5], 0, 1);
    let again: Step = (MapL2, &[4, 5, 8, 5], 0, 0);
    let remove: Step = (UnmapL2, &[4, 5], 0, 0);
    let write: Step = (MapL2, &[4, 5, 8, 3], 0, 0);
    let read: Step = (MapL2, &[4, 5, 8, 1], 0, 0);
    let lists: [(&str, &[Step]); 10] = [
        ("twice at once", &[execute, (MapL2, &[4, 6, 8, 5], 0, 0)]),
        ("twice", &[execute, remove, again]),
        ("the same byte", &[execute, remove, write, (Write, &[0x5000, 65], 0, 0), remove, execute]),
        (
            "another byte",
            &[execute, remove, write, (Write, &[0x5000, 66], 0, 0), remove, (MapL2, &[4, 5, 8, 5], 12, 0)],
        ),
        ("written by nobody", &[execute, remove, write, remove, again]),
        ("refused accesses", &[execute, (Write, &[0x5000, 1], 23, 0), remove, (Write, &[0x5000, 1], 22, 0), again]),
        (
            "read and fetched",
            &[execute, (Fetch, &[0x5000], 0, 0), remove, read, (Read, &[0x5000], 0, 0), remove, again],
        ),
        ("forgotten", &[execute, remove, (Forget, &[8, 1], 0, 0), execute, remove, (Forget, &[7, 1], 0, 0), again]),
        (
            "begun elsewhere and here again",
            &[
                execute,
                remove,
                (UnmapL1, &[0, 0], 0, 0),
                (Begin, &[0x100], 0, 0),
                (CreateL1, &[0x100], 0, 0),
                (CreateL2, &[0x104], 0, 0),
                (MapL2, &[0x104, 5, 0x108, 5], 12, 0),
                (Begin, &[0], 0, 0),
                (CreateL2, &[4], 0, 0),
                execute,
            ],
        ),
        (
            "a table",
            &[
                (CreateL2, &[9], 0, 0),
                (MapL2, &[4, 7, 9, 5], 0, 1),
                (MapL2, &[9, 1, 8, 1], 7, 0),
                (UnmapL2, &[4, 7], 0, 0),
                (MapL2, &[4, 7, 9, 5], 0, 0),
                (UnmapL2, &[4, 7], 0, 0),
                (UnmapL2, &[9, 1], 0, 0),
                (MapL2, &[4, 7, 9, 5], 0, 1),
                (UnmapL2, &[4, 7], 0, 0),
                (FreeL2, &[9], 0, 0),
                (MapL2, &[4, 7, 9, 5], 0, 0),
                (Begin, &[0], 0, 0),
            ],
        ),
    ];
    for (name, list) in lists {
        sequence(comparer, name, &scene, &[&set_up, list].concat())?;
    }
    created_again(comparer)
}

/// A table that executes sixteen blocks is created, freed and created again, with a forget of some blocks in between.
fn created_again(comparer: &mut Comparer) -> Outcome {
    let mut scene = Scene::new(0, 32);
    scene.sign_all_zeros();
    (0..16).for_each(|index| scene.put(4, index, scene.mapping(8 + index, PAGE_EXECUTE)));
    let steps: [Step; 9] = [
        (Begin, &[0], 0, 0),
        (CreateL2, &[4], 0, 16),
        (FreeL2, &[4], 0, 0),
        (CreateL2, &[4], 0, 0),
        (FreeL2, &[4], 0, 0),
        (Forget, &[6, 5], 0, 0),
        (CreateL2, &[4], 0, 3),
        (Begin, &[0], 0, 0),
        (CreateL2, &[4], 0, 16),
    ];
    sequence(comparer, "a table created again", &scene, &steps)
}

/// Accesses to the first and the last byte of blocks, with the byte that stands there and with another, through a page, a section and a large page. All
/// blocks are marked, or all marks differ.
fn accesses(kind: Kind, comparer: &mut Comparer) -> Outcome {
    let mut scene = Scene::new(FIRST, 288);
    let mut random = Random::new(63);
    scene.set_types(0..4, 1);
    scene.set_record(4, TYPE, 2);
    scene.activate(0);
    (8..32).for_each(|position| scene.fill(position, &mut random));
    scene.put(0, 0, scene.mapping(0, SECTION_ALL));
    scene.put(0, 1, scene.link(4, 1));
    (0..8).for_each(|page| scene.put(4, 256 + page, scene.mapping(9 + page, PAGE_ALL)));
    scene.put_run(4, 256 + 32, scene.mapping(16, LARGE_ALL));
    let section = [8, 9, 20, 255].map(|page| page << 12);
    let small = (0..8).map(|page| 1 << 20 | page << 12);
    let large = (32..48).map(|page| 1 << 20 | page << 12);
    for page in section.into_iter().chain(small).chain(large) {
        for address in [page, page | 1, page | 0xFFF] {
            for byte in [0, 0x1A5, u32::MAX] {
                for scene in patterns_of(&scene) {
                    let arguments = [address, byte];
                    comparer.check(scene.expect("an access", kind, &arguments[..kind.arity()], 0))?;
                }
            }
            for (same, scene) in same_bytes(&scene) {
                let arguments = [address, same];
                comparer.check(scene.expect("the same byte", kind, &arguments[..kind.arity()], 0))?;
            }
        }
    }
    for (address, answer) in [(0x10_8000, 22), (0x20_0000, 22)] {
        for scene in patterns_of(&scene) {
            let arguments = [address, 1];
            comparer.check(scene.expect("a refused access", kind, &arguments[..kind.arity()], answer))?;
        }
    }
    Ok(())
}

/// The same scene with one byte in all of its data from block 8 on, and that byte.
fn same_bytes(scene: &Scene) -> [(u32, Scene); 2] {
    [0, 0x77].map(|byte| {
        let mut scene = scene.clone();
        scene.set_marks(0..288, MARKED);
        for position in 8..32 {
            [0, 1, 0xFFF].into_iter().for_each(|offset| scene.put_byte(position, offset, byte as u8));
        }
        scene.put_byte(255, 0, byte as u8);
        (byte, scene)
    })
}

/// Windows at every edge of the region and of numbers, over marks of every kind.
fn forget(comparer: &mut Comparer) -> Outcome {
    for (first, blocks) in [(0u32, 8usize), (0x300, 8), (0x300, 19), (0xFFF00, 256), (0, 4096)] {
        let scene = Scene::new(first, blocks);
        let end = first + blocks as u32;
        let near = [first.wrapping_sub(2), first.wrapping_sub(1), first, first + 1, first + 3];
        let far = [end - 2, end - 1, end, end + 1, 1 << 20, 1 << 31, u32::MAX - 1, u32::MAX];
        let counts = [1, 2, 3, blocks as u32 - 1, blocks as u32, blocks as u32 + 1, 1 << 20, 1 << 31, u32::MAX];
        for scene in patterns_of(&scene) {
            for block in near.into_iter().chain(far) {
                comparer.check(scene.expect("a count of 0", Forget, &[block, 0], 0))?;
                for count in counts {
                    let inside = block >= first && u64::from(block) + u64::from(count) <= u64::from(end);
                    let name = format!("{count} blocks from {block:#x} in {blocks}");
                    comparer.check(scene.expect(&name, Forget, &[block, count], if inside { 0 } else { 2 }))?;
                }
            }
        }
    }
    forget_single_blocks(comparer)?;
    forget_misfits(comparer)?;
    forget_random(comparer)
}

/// Each block of a region alone, over ledgers of ones and of tables in use.
fn forget_single_blocks(comparer: &mut Comparer) -> Outcome {
    let mut used = Scene::new(FIRST, 16);
    used.set_types(0..4, 1);
    used.set_types(4..5, 2);
    used.activate(0);
    (0..16).for_each(|position| [W, X, L].iter().for_each(|which| used.set_record(position, *which, 9)));
    used.set_marks(0..16, MARKED);
    let mut ones = used.clone();
    ones.store.ledger[LEDGER_HEAD..].fill(0xFF);
    ones.set_kinds(&[0x7F; 8]);
    for scene in [used, ones] {
        for position in 0..16 {
            comparer.check(scene.expect("one block", Forget, &[scene.block(position), 1], 0))?;
        }
    }
    Ok(())
}

/// Lengths and B are judged first, also where nothing is to be forgotten.
fn forget_misfits(comparer: &mut Comparer) -> Outcome {
    for arguments in [[FIRST, 0], [FIRST, 1], [FIRST + 16, 1], [FIRST - 1, 1], [0, u32::MAX]] {
        let mut long = Scene::new(FIRST, 16);
        long.set_marks(0..16, MARKED);
        long.store.ledger.push(0);
        comparer.check(long.expect("a long ledger", Forget, &arguments, 1))?;
        let mut odd = Scene::new(FIRST + 1, 16);
        odd.set_marks(0..16, MARKED);
        comparer.check(odd.expect("an odd B", Forget, &arguments, 1))?;
    }
    Ok(())
}

fn forget_random(comparer: &mut Comparer) -> Outcome {
    let mut random = Random::new(64);
    for _ in 0..500 {
        let blocks = 8 + random.below(40);
        let mut scene = Scene::new(256 * random.below(3) as u32, blocks);
        let first = scene.first;
        scene.store.ledger = random.bytes(scene.store.ledger.len());
        scene.store.ledger[..4].copy_from_slice(&first.to_le_bytes());
        scene.draw_kinds(&mut random);
        (0..blocks).for_each(|position| scene.set_record(position, MARK, random_mark(&mut random)));
        let block = first.wrapping_add(random.below(blocks + 4) as u32).wrapping_sub(2);
        let count = random.below(blocks + 4) as u32;
        comparer.check(scene.case("random marks", Forget, &[block, count]))?;
    }
    Ok(())
}
