//! Whole tables whose entries write and execute: those that a guest writes to make create slow, and those in which one entry decides.
use super::reasons::LIMIT;
use super::scene::*;
use crate::compare::{Comparer, Outcome};
use crate::monitor::Kind;
use Kind::*;

const FIRST: u32 = 0x300;

/// A kind of table: its entries, where it stands, the blocks of the region and of a target, and the low bits of an entry that reads, writes or executes.
struct Shape {
    kind: Kind,
    entries: usize,
    position: usize,
    blocks: usize,
    target: usize,
    low: [u32; 3],
}

const READ: usize = 0;
const WRITE: usize = 1;
const EXECUTE: usize = 2;

const PAGES: Shape = Shape {
    kind: CreateL2,
    entries: 1024,
    position: 0,
    blocks: 40,
    target: 1,
    low: [PAGE_READ, PAGE_WRITE, PAGE_EXECUTE],
};
const SECTIONS: Shape = Shape {
    kind: CreateL1,
    entries: 4096,
    position: 768,
    blocks: 772,
    target: 256,
    low: [SECTION_READ, SECTION_WRITE, SECTION_EXECUTE],
};

pub fn run(kind: Kind, comparer: &mut Comparer) -> Outcome {
    match kind {
        CreateL2 => {
            tables(&PAGES, comparer)?;
            neighbours(comparer)
        }
        CreateL1 => tables(&SECTIONS, comparer),
        _ => Ok(()),
    }
}

impl Shape {
    /// A table by the target and the rights of each entry. Blocks of zeros are signed; the second target is not.
    fn scene(&self, entry: impl Fn(usize) -> (usize, usize)) -> Scene {
        let mut scene = Scene::new(FIRST, self.blocks);
        scene.sign_all_zeros();
        scene.put_byte(self.place(1) + self.target - 1, 4095, 1);
        for index in 0..self.entries {
            let (target, rights) = entry(index);
            scene.put(self.position, index, scene.mapping(self.place(target), self.low[rights]));
        }
        scene
    }

    /// The first block of a target; the table itself is none of them.
    fn place(&self, target: usize) -> usize {
        if self.target == 1 {
            target + 1
        } else {
            target * self.target
        }
    }

    fn check(&self, comparer: &mut Comparer, name: &str, scene: Scene, answer: u32) -> Outcome {
        comparer.check(scene.expect(name, self.kind, &[scene.block(self.position)], answer))
    }
}

fn tables(shape: &Shape, comparer: &mut Comparer) -> Outcome {
    let (last, half) = (shape.entries - 1, shape.entries / 2);
    for (executed, alone, clash) in [(2, 0, 11), (1, 12, 11)] {
        let one = |at: usize| shape.scene(move |index| if index == at { (executed, EXECUTE) } else { (0, WRITE) });
        for at in [0, half, last] {
            shape.check(comparer, "one executable entry among writable ones", one(at), alone)?;
            for other in [0, half - 1, last].into_iter().filter(|other| *other != at) {
                let mut scene = one(at);
                scene.put(shape.position, other, scene.mapping(shape.place(executed), shape.low[WRITE]));
                shape.check(comparer, "the same, and one writes what it executes", scene, clash)?;
            }
        }
        let halves = shape.scene(|index| if index < half { (0, WRITE) } else { (executed, EXECUTE) });
        shape.check(comparer, "half writable, half executable", halves, alone)?;
        let turns = shape.scene(|index| (executed, if index % 2 == 0 { EXECUTE } else { READ }));
        shape.check(comparer, "executable and read-only in turn", turns, alone)?;
        let later = shape.scene(|index| (executed, if index < half { READ } else { EXECUTE }));
        shape.check(comparer, "read-only, then executable", later, alone)?;
    }
    counters(shape, comparer)
}

/// Counters from before: 11 is judged against them, and before 12 and 13.
fn counters(shape: &Shape, comparer: &mut Comparer) -> Outcome {
    let halves = |executed: usize| {
        let half = shape.entries / 2;
        shape.scene(move |index| if index < half { (0, WRITE) } else { (executed, EXECUTE) })
    };
    let (written, last) = (shape.place(0), shape.target - 1);
    let most = LIMIT - shape.entries as u32 / 2;
    for (executed, which, block, count, answer) in [
        (2, W, shape.place(2), 1, 11),
        (1, W, shape.place(1), 1, 11),
        (2, X, written, 1, 11),
        (2, W, written, most, 0),
        (2, W, written, most + 1, 13),
        (2, X, shape.place(2), most, 0),
        (2, X, shape.place(2), most + 1, 13),
        (1, W, written, most + 1, 12),
        (2, W, written, u32::MAX, 13),
        (1, X, shape.place(1), u32::MAX, 12),
    ] {
        let mut scene = halves(executed);
        scene.set_record(block + last, which, count);
        shape.check(comparer, &format!("half and half, counter {which} of one block is {count:#x}"), scene, answer)?;
    }
    Ok(())
}

/// Every two of twenty-four adjacent blocks, one executed and one written.
fn neighbours(comparer: &mut Comparer) -> Outcome {
    let mut empty = Scene::new(FIRST, 40);
    empty.sign_all_zeros();
    for executed in 8..32 {
        for written in 8..32 {
            let mut scene = empty.clone();
            scene.put(0, 5, scene.mapping(written, PAGE_WRITE));
            scene.put(0, 900, scene.mapping(executed, PAGE_EXECUTE));
            let answer = if executed == written { 11 } else { 0 };
            comparer.check(scene.expect("one block executed, one written", CreateL2, &[FIRST], answer))?;
        }
    }
    Ok(())
}
