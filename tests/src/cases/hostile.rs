//! Ledgers, memories and arguments at random, drawn so that every refusal and acceptance is likely.
use super::guest::random_word;
use super::large::random_run;
use super::marks::random_mark;
use super::reasons::LIMIT;
use super::scene::*;
use crate::bytes::put_word;
use crate::compare::{Comparer, Outcome};
use crate::monitor::{Kind, NO_TABLE};
use crate::random::Random;
use Kind::*;

pub fn run(kind: Kind, comparer: &mut Comparer) -> Outcome {
    let mut random = Random::new(41 + kind as u64);
    for _ in 0..1000 {
        let blocks = 8 + random.below(10);
        comparer.check(case(kind, blocks, &mut random))?;
    }
    if about_l2(kind) {
        for _ in 0..1500 {
            let blocks = 16 + random.below(34);
            comparer.check(case(kind, blocks, &mut random))?;
        }
    }
    if matches!(kind, CreateL1 | FreeL1 | MapL1 | UnmapL1) {
        for _ in 0..150 {
            let blocks = 256 + random.below(10);
            comparer.check(case(kind, blocks, &mut random))?;
        }
    }
    Ok(())
}

/// Is the call about an L2 block?
fn about_l2(kind: Kind) -> bool {
    matches!(kind, CreateL2 | FreeL2 | MapL2 | UnmapL2 | MapLarge | UnmapLarge)
}

/// One case, of a call that names no kind.
pub fn case(kind: Kind, blocks: usize, random: &mut Random) -> super::Case {
    let mut scene = Scene::new(256 * random.below(3) as u32, blocks);
    let table = 4 * random.below(blocks.min(16) / 4);
    records(kind, &mut scene, table, random);
    words(kind, &mut scene, table, random);
    golden(&mut scene, random);
    scene.draw_kinds(random);
    scene.set_active([NO_TABLE, scene.block(table), random.next() as u32][random.below(3)]);
    if random.below(30) == 0 {
        put_word(&mut scene.store.ledger, 0, random.next() as u32 & 0xFFFFF);
    }
    let block = match random.below(20) {
        0 => random.next() as u32,
        1 => scene.block(table).wrapping_add(random.below(8) as u32).wrapping_sub(4),
        _ => scene.block(table),
    };
    let arguments = [block, index(kind, random), target(kind, &scene, random), last(kind, random)];
    scene.case("random", kind, &arguments[..kind.arity()])
}

/// Types that mostly suit the call, counters that mostly are 0, and any marks.
fn records(kind: Kind, scene: &mut Scene, table: usize, random: &mut Random) {
    let needed = match kind {
        CreateL1 | CreateL2 => 0,
        FreeL2 | MapL2 | UnmapL2 | MapLarge | UnmapLarge => 2,
        _ => 1,
    };
    for position in 0..scene.blocks() {
        let own = (table..table + 4).contains(&position);
        let code = match random.below(12) {
            _ if own && random.below(12) > 0 => needed,
            0..=7 => 0,
            8 => 1,
            9 | 10 => 2,
            _ => [3, 0x100, u32::MAX][random.below(3)],
        };
        scene.set_record(position, TYPE, code);
        for which in [W, X, L] {
            let often = match scene.blocks() {
                0..18 => 8,
                18..200 => 60,
                _ => 200,
            };
            let count = match random.below(often) {
                _ if own && random.below(8) > 0 => 0,
                0 => 1,
                1 => [2, 5, LIMIT - 1, LIMIT, LIMIT + 1, LIMIT + 3, u32::MAX][random.below(7)],
                _ if matches!(kind, FreeL1 | FreeL2 | UnmapL1 | UnmapL2 | UnmapLarge) => 9,
                _ => 0,
            };
            scene.set_record(position, which, count);
        }
        scene.set_record(position, MARK, random_mark(random));
    }
}

/// Up to three runs if the table is an L2 block, then a few words, seldom an unaccepted one, which may stand in a run.
fn words(kind: Kind, scene: &mut Scene, table: usize, random: &mut Random) {
    let blocks = if about_l2(kind) { 1 } else { 4 };
    if about_l2(kind) {
        (0..random.below(4)).for_each(|_| random_run(scene, table, random));
    }
    for _ in 0..random.below(if kind == UnmapLarge { 2 } else { 8 }) {
        let block = scene.block(random.below(scene.blocks())) << 12;
        let word = match random.below(6) {
            0 => random_word(scene, random),
            _ if blocks == 1 => block | [PAGE_NONE, PAGE_READ, PAGE_WRITE, PAGE_EXECUTE, PAGE_ALL][random.below(5)],
            1 | 2 => (scene.first << 12) | [SECTION_READ, SECTION_WRITE, SECTION_EXECUTE][random.below(3)],
            _ => block | (random.below(4) as u32) << 10 | 1,
        };
        let index = [index(kind, random) as usize % (1024 * blocks), random.below(6)][random.below(2)];
        scene.put(table, index, word);
    }
}

fn golden(scene: &mut Scene, random: &mut Random) {
    for position in 0..scene.blocks().min(20) {
        if random.below(3) == 0 {
            scene.sign(position);
        }
    }
    if random.below(2) == 0 {
        scene.sign_all_zeros();
    }
    if random.below(30) == 0 {
        scene.store.golden.push(0);
    }
}

fn index(kind: Kind, random: &mut Random) -> u32 {
    match random.below(16) {
        0 => [1023, 1024, 2047, 3072, 4095, 4096][random.below(6)],
        1 => random.next() as u32,
        2 if about_l2(kind) => 256 * random.below(2) as u32 + random.below(64) as u32,
        _ if matches!(kind, MapLarge | UnmapLarge) => 256 * random.below(2) as u32 + 16 * random.below(4) as u32,
        _ => random.below(6) as u32,
    }
}

fn target(kind: Kind, scene: &Scene, random: &mut Random) -> u32 {
    match random.below(16) {
        0 => random.next() as u32,
        1 => scene.first.wrapping_sub(1),
        2 => scene.block(scene.blocks()),
        _ if kind == MapL1 => scene.first,
        _ if kind == MapLarge => scene.block(16 * random.below(scene.blocks() / 16 + 1)),
        _ => scene.block(random.below(scene.blocks())),
    }
}

/// Rights or a table.
fn last(kind: Kind, random: &mut Random) -> u32 {
    match random.below(12) {
        0 => random.next() as u32,
        1 => random.below(10) as u32,
        _ if kind == Link => random.below(4) as u32,
        _ => [0, 1, 3, 5, 3, 5][random.below(6)],
    }
}
