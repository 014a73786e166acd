//! Begin and switch.
use super::marks::random_mark;
use super::scene::*;
use crate::compare::{Comparer, Outcome};
use crate::monitor::{Kind, MARKED, NO_TABLE};
use crate::random::Random;

/// Begin on ledgers of any contents.
pub fn begin(comparer: &mut Comparer) -> Outcome {
    let mut random = Random::new(10);
    for blocks in [8, 9, 16, 40] {
        for first in [0, 0x100, 0xFFF00, 0x7FF00] {
            let mut scene = Scene::new(0x500, blocks);
            scene.fill(blocks - 1, &mut random);
            scene.store.ledger = random.bytes(scene.store.ledger.len());
            comparer.check(scene.expect("a ledger of random bytes", Kind::Begin, &[first], 0))?;
        }
        let mut scene = Scene::new(0x500, blocks);
        scene.set_marks(0..blocks, MARKED);
        comparer.check(scene.expect("all blocks are marked", Kind::Begin, &[0x500], 0))?;
        scene.store.ledger.fill(0xFF);
        comparer.check(scene.expect("a ledger of ones", Kind::Begin, &[0x500], 0))?;
    }
    Ok(())
}

pub fn switch(comparer: &mut Comparer) -> Outcome {
    switch_blocks(comparer)?;
    switch_types(comparer)?;
    switch_reasons(comparer)?;
    switch_random(comparer)
}

/// Every block around the region, all blocks being L1.
fn switch_blocks(comparer: &mut Comparer) -> Outcome {
    for blocks in [8, 9, 10, 11, 16] {
        let mut scene = Scene::new(0x300, blocks);
        scene.set_types(0..blocks, 1);
        for block in (0x2F8..0x300 + blocks as u32 + 8).chain([0, 1, u32::MAX, u32::MAX - 2, u32::MAX - 3]) {
            let inside = block >= 0x300 && u64::from(block) + 3 < 0x300 + blocks as u64;
            let answer = if !inside { 2 } else { 3 * u32::from(block % 4 != 0) };
            comparer.check(scene.expect("all blocks are L1", Kind::Switch, &[block], answer))?;
        }
    }
    let mut scene = Scene::new(0, 8);
    scene.set_types(0..8, 1);
    for block in [0, 1, 3, 4, 5, 7, 8, 1 << 20, u32::MAX - 3, u32::MAX - 2, u32::MAX] {
        comparer.check(scene.case("B is 0", Kind::Switch, &[block]))?;
    }
    Ok(())
}

/// One of the four blocks has another type.
fn switch_types(comparer: &mut Comparer) -> Outcome {
    for wrong in 4..8 {
        for code in [0, 2, 3, 0x101, 0x0100_0001, 0x8000_0001, u32::MAX] {
            let mut scene = Scene::new(0x100, 12);
            scene.set_types(4..8, 1);
            scene.set_record(wrong, TYPE, code);
            comparer.check(scene.expect("one block is not L1", Kind::Switch, &[0x104], 5))?;
        }
    }
    Ok(())
}

/// Several reasons at once: the lowest answers.
fn switch_reasons(comparer: &mut Comparer) -> Outcome {
    let scene = Scene::new(0x100, 12);
    comparer.check(scene.expect("outside and unaligned", Kind::Switch, &[0x10D], 2))?;
    comparer.check(scene.expect("unaligned and D", Kind::Switch, &[0x105], 3))?;
    comparer.check(scene.expect("D", Kind::Switch, &[0x104], 5))?;
    let mut wrong = Scene::new(0x101, 12);
    comparer.check(wrong.expect("B and outside", Kind::Switch, &[0x10E], 1))?;
    wrong.store.ledger.pop();
    comparer.check(wrong.expect("length, B, outside, unaligned and D", Kind::Switch, &[0x1FF], 1))
}

fn switch_random(comparer: &mut Comparer) -> Outcome {
    let mut random = Random::new(11);
    for _ in 0..300 {
        let blocks = 8 + random.below(8);
        let mut scene = Scene::new(256 * random.below(3) as u32, blocks);
        for position in 0..blocks {
            let code = [1, 1, 1, 1, 1, 1, 1, 1, 2, 0][random.below(10)];
            scene.set_record(position, TYPE, code);
            for which in [W, X, L] {
                scene.set_record(position, which, random.next() as u32);
            }
            scene.set_record(position, MARK, random_mark(&mut random));
        }
        scene.draw_kinds(&mut random);
        scene.set_active([NO_TABLE, 0, random.next() as u32][random.below(3)]);
        let block = scene.first.wrapping_add(random.below(blocks + 4) as u32).wrapping_sub(2);
        comparer.check(scene.case("random types", Kind::Switch, &[block]))?;
    }
    Ok(())
}
