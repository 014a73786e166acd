//! Signatures and places: an image signs a block's number with its contents (signature 1 and 6).
use super::scene::*;
use super::Case;
use crate::compare::{Comparer, Outcome};
use crate::hasher::{block_digest, digest};
use crate::monitor::{Call, Kind, BLOCK, MARKED};
use std::ops::Range;
use Kind::*;

/// Regions whose numbers are the positions, have the same low byte, need three bytes, and end near the last number.
const FIRSTS: [u32; 4] = [0, 0x100, 0x1_0200, 0xF_FD00];

pub fn run(kind: Kind, comparer: &mut Comparer) -> Outcome {
    if !matches!(kind, CreateL1 | CreateL2 | MapL1 | MapL2 | MapLarge) {
        return Ok(());
    }
    for first in FIRSTS {
        let executing = Executing::new(kind, first);
        own_places(&executing, comparer)?;
        other_messages(&executing, comparer)?;
        equal_contents(&executing, comparer)?;
        exchanged(&executing, comparer)?;
        moved(&executing, comparer)?;
    }
    Ok(())
}

/// A call that executes some blocks, which all differ.
#[derive(Clone)]
struct Executing {
    scene: Scene,
    call: Call,
    targets: Range<usize>,
}

impl Executing {
    fn new(kind: Kind, first: u32) -> Executing {
        let (blocks, table, targets) = match kind {
            CreateL1 | MapL1 => (264, 256, 0..256),
            MapLarge => (40, 8, 16..32),
            _ => (16, 8, 10..11),
        };
        let target = targets.start;
        let mut scene = Scene::new(first, blocks);
        (target..=targets.end).filter(|at| *at != table).for_each(|at| scene.put(at, 1023, at as u32));
        match kind {
            CreateL1 => scene.put(table, 1030, scene.mapping(target, SECTION_EXECUTE)),
            CreateL2 => scene.put(table, 1022, scene.mapping(target, PAGE_EXECUTE)),
            MapL1 => scene.set_types(table..table + 4, 1),
            _ => scene.set_types(table..table + 1, 2),
        }
        let (block, target_block) = (scene.block(table), scene.block(target));
        let arguments: &[u32] =
            if matches!(kind, CreateL1 | CreateL2) { &[block] } else { &[block, 32, target_block, 5] };
        Executing { scene, call: Call::new(kind, arguments), targets }
    }

    fn contents(&self, position: usize) -> &[u8] {
        &self.scene.store.memory[BLOCK * position..BLOCK * (position + 1)]
    }

    /// With an image that signs each target in its place.
    fn signed(mut self) -> Executing {
        self.targets.clone().for_each(|position| self.scene.sign(position));
        self
    }

    /// With all targets marked but this one.
    fn unmarked_at(mut self, position: usize) -> Executing {
        self.scene.set_marks(self.targets.clone(), MARKED);
        self.scene.set_record(position, MARK, 0);
        self
    }

    fn case(&self, name: &str, answer: u32, hashed: usize) -> Case {
        let name = format!("{name}, from block {:#x}", self.scene.first);
        let (call, store) = (self.call, self.scene.store.clone());
        Case { name, call, store, expected: Some(answer), hashed: Some(hashed as u32) }
    }

    fn accepted(&self, name: &str, hashed: usize) -> Case {
        self.case(name, 0, hashed)
    }

    fn unsigned(&self, name: &str) -> Case {
        self.case(name, 12, 0)
    }
}

/// Each target in its place; without one of the digests; with the digests in another order.
fn own_places(executing: &Executing, comparer: &mut Comparer) -> Outcome {
    let signed = executing.clone().signed();
    comparer.check(signed.accepted("signed in their places", executing.targets.len()))?;
    let mut turned = signed.clone();
    turned.scene.store.golden = signed.scene.store.golden.chunks(32).rev().flatten().copied().collect();
    comparer.check(turned.accepted("digests in another order", executing.targets.len()))?;
    for missing in [0, executing.targets.len() / 2, executing.targets.len() - 1] {
        let mut fewer = signed.clone();
        fewer.scene.store.golden.drain(32 * missing..32 * missing + 32);
        comparer.check(fewer.unsigned("one is not signed"))?;
    }
    Ok(())
}

/// The digest of anything but number and contents.
fn other_messages(executing: &Executing, comparer: &mut Comparer) -> Outcome {
    let Executing { scene, targets, .. } = executing;
    let number_of_table = executing.call.arguments[0];
    for position in [targets.start, targets.end - 1] {
        let (number, contents) = (scene.block(position), executing.contents(position));
        let mut own = executing.clone().unmarked_at(position);
        own.scene.sign(position);
        comparer.check(own.accepted("the number and the contents", 1))?;
        let before = |number: u32| [&number.to_be_bytes(), contents].concat();
        let others = [
            ("the next number", before(number + 1)),
            ("the number before", before(number.wrapping_sub(1))),
            ("the number in the next section", before(number + 0x100)),
            ("the number in the section before", before(number.wrapping_sub(0x100))),
            ("the position", before(position as u32)),
            ("the position in its section", before(number % 0x100)),
            ("the low half of the number", before(number % 0x1_0000)),
            ("the high half of the number", before(number & 0xFFFF_0000)),
            ("the region's first block", before(scene.first)),
            ("the table", before(number_of_table)),
            ("the address", before(number << 12)),
            ("the number with every bit turned over", before(!number)),
            ("the number with its lowest byte first", before(number.swap_bytes())),
            ("the number in eight bytes", [&u64::from(number).to_be_bytes(), contents].concat()),
            ("the number in two bytes", [&(number as u16).to_be_bytes(), contents].concat()),
            ("the number behind the contents", [contents, &number.to_be_bytes()].concat()),
            ("the contents alone", contents.to_vec()),
            ("the number alone", number.to_be_bytes().to_vec()),
            ("the number over the first contents", [&number.to_be_bytes(), &contents[4..]].concat()),
            ("all contents but the last word", before(number)[..BLOCK].to_vec()),
            ("the contents of another block", [&number.to_be_bytes(), executing.contents(position + 1)].concat()),
        ];
        for (name, message) in others.into_iter().filter(|(_, message)| *message != before(number)) {
            let mut other = executing.clone().unmarked_at(position);
            other.scene.store.golden = digest(&message).to_vec();
            comparer.check(other.unsigned(name))?;
        }
    }
    Ok(())
}

/// Blocks with the same contents: all signed, all but one, or only one that is no target.
fn equal_contents(executing: &Executing, comparer: &mut Comparer) -> Outcome {
    let mut equal = executing.clone();
    equal.targets.clone().for_each(|position| equal.scene.put(position, 1023, 7));
    let mut signed = equal.clone().signed();
    comparer.check(signed.accepted("all of the same contents", equal.targets.len()))?;
    signed.scene.store.golden.drain(..32);
    comparer.check(signed.unsigned("all of the same contents, and one is not signed"))?;
    let elsewhere = block_digest(equal.scene.block(equal.targets.end), equal.contents(equal.targets.start));
    equal.scene.store.golden.extend(elsewhere);
    comparer.check(equal.unsigned("the contents are signed behind the targets"))?;
    for position in [equal.targets.start, equal.targets.end - 1] {
        let mut one = equal.clone().unmarked_at(position);
        comparer.check(one.unsigned("the same contents are signed elsewhere"))?;
        one.scene.sign(position);
        comparer.check(one.accepted("and here", 1))?;
    }
    Ok(())
}

/// A target and a block beside it, both signed, in each other's places.
fn exchanged(executing: &Executing, comparer: &mut Comparer) -> Outcome {
    let (one, other) = (executing.targets.end - 1, executing.targets.start + 1);
    let mut signed = executing.clone().unmarked_at(one);
    signed.scene.set_record(other, MARK, 0);
    signed.scene.sign(one);
    signed.scene.sign(other);
    let hashed = usize::from(executing.targets.contains(&other)) + 1;
    comparer.check(signed.accepted("two signed blocks", hashed))?;
    signed.scene.put(one, 1023, other as u32);
    signed.scene.put(other, 1023, one as u32);
    comparer.check(signed.unsigned("two signed blocks exchanged"))?;
    signed.scene.store.golden.extend(block_digest(signed.scene.block(one), executing.contents(other)));
    let half = "exchanged, and one signed there too";
    comparer.check(if hashed == 1 { signed.accepted(half, 1) } else { signed.unsigned(half) })?;
    signed.scene.store.golden.extend(block_digest(signed.scene.block(other), executing.contents(one)));
    comparer.check(signed.accepted("exchanged, and both signed there too", hashed))
}

/// The same bytes in another region, under the image of the one before.
fn moved(executing: &Executing, comparer: &mut Comparer) -> Outcome {
    let mut moved = Executing::new(executing.call.kind, executing.scene.first + 0x100);
    moved.scene.store.golden = executing.clone().signed().scene.store.golden;
    comparer.check(moved.unsigned("a region that has moved"))?;
    comparer.check(moved.signed().accepted("a region that has moved, signed anew", executing.targets.len()))
}
