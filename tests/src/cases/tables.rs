//! Directed cases of the calls on tables: every argument and every record at its edges, one at a time.
use super::reasons::*;
use super::scene::*;
use crate::compare::{Comparer, Outcome};
use crate::monitor::{Kind, MARKED, NO_TABLE};
use crate::random::Random;
use Kind::*;

const COUNTS: [u32; 9] = [0, 1, 2, LIMIT - 1, LIMIT, LIMIT + 1, LIMIT + 2, 1 << 31, u32::MAX];

pub fn run(kind: Kind, comparer: &mut Comparer) -> Outcome {
    blocks(kind, comparer)?;
    types(kind, comparer)?;
    if kind.arity() > 1 && !about_large(kind) {
        indices(kind, comparer)?;
        holders(kind, comparer)?;
        words_at_the_index(kind, comparer)?;
    }
    counters(kind, comparer)?;
    match kind {
        MapL1 | MapL2 | MapLarge => {
            rights(kind, comparer)?;
            golden_images(kind, comparer)?;
            match kind {
                MapL1 => {
                    section_targets(comparer)?;
                    executed_tables(comparer)
                }
                MapL2 => page_targets(comparer),
                _ => Ok(()),
            }
        }
        CreateL1 | CreateL2 => {
            golden_images(kind, comparer)?;
            counted_tables(kind, comparer)?;
            table_words(kind, comparer)?;
            same_targets(kind, comparer)?;
            target_types(kind, comparer)?;
            own_blocks(kind, comparer)?;
            last_section(kind, comparer)
        }
        FreeL1 | FreeL2 => {
            in_use(kind, comparer)?;
            table_words(kind, comparer)?;
            sums(kind, comparer)?;
            last_section(kind, comparer)
        }
        Link => link_targets(comparer),
        UnmapL1 | UnmapL2 => {
            removed_places(kind, comparer)?;
            last_section(kind, comparer)
        }
        _ => Ok(()),
    }
}

/// Is the call about an L1 table?
fn about_l1(kind: Kind) -> bool {
    !matches!(kind, CreateL2 | FreeL2 | MapL2 | UnmapL2 | MapLarge | UnmapLarge)
}

/// Is it about a large page?
fn about_large(kind: Kind) -> bool {
    matches!(kind, MapLarge | UnmapLarge)
}

/// Position of the table, its number of blocks, its type as the call needs it.
fn table(kind: Kind) -> (usize, usize, u32) {
    match kind {
        CreateL1 => (L1_TABLE, 4, 0),
        CreateL2 => (PAGE_TABLE, 1, 0),
        FreeL2 | MapL2 | UnmapL2 | MapLarge | UnmapLarge => (PAGE_TABLE, 1, 2),
        _ => (L1_TABLE, 4, 1),
    }
}

/// The table's block at all edges of the region and of numbers.
fn blocks(kind: Kind, comparer: &mut Comparer) -> Outcome {
    let (_, _, code) = table(kind);
    for (first, count) in [(0x300, 8), (0x300, 9), (0x300, 10), (0x300, 11), (0, 8), (0xFFF00, 256)] {
        let mut scene = Scene::new(first, count);
        scene.set_types(0..count, code);
        let end = first + count as u32;
        let near = (0..9).map(|k| first.wrapping_sub(5).wrapping_add(k));
        let far = (0..9).map(|k| end - 5 + k);
        let huge = [1 << 20, 1 << 31, u32::MAX, u32::MAX - 1, u32::MAX - 2, u32::MAX - 3, u32::MAX - 4];
        for block in near.chain(far).chain(huge) {
            let index = if about_large(kind) { 16 } else { 5 };
            let arguments = [block, index, first, 1];
            comparer.check(scene.case("a block near an edge", kind, &arguments[..kind.arity()]))?;
        }
    }
    Ok(())
}

/// Each block of the table with another type.
fn types(kind: Kind, comparer: &mut Comparer) -> Outcome {
    let (position, blocks, code) = table(kind);
    let setup = &accepted(kind)[0];
    for wrong in position..position + blocks {
        for other in [0, 1, 2, 3, code | 0x100, code | 1 << 31, u32::MAX] {
            let mut setup = setup.clone();
            setup.scene.set_record(wrong, TYPE, other);
            comparer.check(setup.case("one block's type", Some(if other == code { 0 } else { 5 })))?;
        }
    }
    Ok(())
}

fn indices(kind: Kind, comparer: &mut Comparer) -> Outcome {
    let entries = if about_l1(kind) { 4096 } else { 1024 };
    for setup in accepted(kind) {
        for index in [0, 1, 255, 256, 1023, 1024, 2047, 2048, 3071, 3072, 4095, 4096, 4097, 1 << 16, 1 << 30, u32::MAX]
        {
            let mut setup = setup.clone();
            setup.call.arguments[1] = index;
            comparer.check(setup.case("an index", Some(if index < entries { 0 } else { 4 })))?;
        }
    }
    Ok(())
}

/// Each block of the table executable or writable, an index in each.
fn holders(kind: Kind, comparer: &mut Comparer) -> Outcome {
    let (position, blocks, _) = table(kind);
    for setup in accepted(kind) {
        for counted in 0..blocks {
            for holder in 0..blocks {
                for (which, count) in [(X, 1), (X, 2), (X, u32::MAX), (W, 1), (L, 1)] {
                    let mut setup = setup.clone();
                    setup.scene.set_record(position + counted, which, count);
                    setup.call.arguments[1] = 1024 * holder as u32 + 1023 * (count % 2);
                    let answer = if which == X && counted == holder { 7 } else { 0 };
                    comparer.check(setup.case("a table with counters", Some(answer)))?;
                }
            }
        }
    }
    Ok(())
}

/// Words that may stand at the index: faults with other bits, accepted and unaccepted forms.
fn words_at_the_index(kind: Kind, comparer: &mut Comparer) -> Outcome {
    let (position, ..) = table(kind);
    for setup in accepted(kind) {
        let mut words = vec![0, 4, 0x8000_0000, 0xFFFF_FFFC, 1, 2, 3, u32::MAX, 0xFFFF_FFFE];
        if about_l1(kind) {
            let section = setup.scene.mapping(0, 2);
            words.extend((0..16).map(|k| section | (k & 1) << 4 | (k >> 1 & 3) << 10 | (k >> 3) << 15));
            words
                .extend([2, 3, 5, 6, 7, 8, 9, 12, 13, 14, 16, 17, 18, 19].map(|bit| section | SECTION_READ ^ 1 << bit));
            words.extend((0..12).map(|bit| setup.scene.link(L2_BLOCK, 1) ^ 1 << bit));
        } else {
            words.extend((0..1024).map(|low| setup.scene.mapping(PAGE, low)));
            words.extend([0x400, 0x800].map(|bit| setup.scene.mapping(PAGE, PAGE_WRITE | bit)));
        }
        for word in words {
            let mut setup = setup.clone();
            for which in [W, X, L] {
                for block in [0, 1, 128, 255, PAGE, L2_BLOCK] {
                    if setup.scene.record(block, which) == 0 && matches!(kind, UnmapL1 | UnmapL2) {
                        setup.scene.set_record(block, which, 3);
                    }
                }
            }
            if kind == UnmapL1 {
                (0..256).for_each(|block| setup.scene.set_record(block, W, 2));
                (0..256).for_each(|block| setup.scene.set_record(block, X, 5));
            }
            let index = setup.call.arguments[1] as usize;
            setup.scene.put(position, index, word);
            comparer.check(setup.case(&format!("the word {word:#x} at the index"), None))?;
        }
    }
    Ok(())
}

/// Counters of the target at their edges, on one block of it.
fn counters(kind: Kind, comparer: &mut Comparer) -> Outcome {
    let targets: &[usize] = match kind {
        MapLarge | UnmapLarge => &[LARGE - 1, LARGE, LARGE + 1, LARGE + 7, LARGE + 15, LARGE + 16],
        _ if about_l1(kind) => &[0, 1, 255, L2_BLOCK],
        _ => &[PAGE],
    };
    for setup in accepted(kind) {
        for &target in targets {
            for which in [W, X, L] {
                for count in COUNTS {
                    let mut setup = setup.clone();
                    setup.scene.set_record(target, which, count);
                    comparer.check(setup.case(&format!("counter {which} of block {target} is {count:#x}"), None))?;
                }
            }
        }
    }
    Ok(())
}

fn rights(kind: Kind, comparer: &mut Comparer) -> Outcome {
    let setup = &accepted(kind)[0];
    let answers = [0, 0, 9, 0, 9, 0, 9, 11, 9, 9, 9, 9, 9, 9, 9, 9];
    for (rights, answer) in (0..).zip(answers) {
        let mut setup = setup.clone();
        setup.call.arguments[3] = rights;
        comparer.check(setup.clone().case("rights", Some(answer)))?;
        for (which, count) in [(W, 1), (X, 1), (W, LIMIT), (X, LIMIT), (TYPE, 1), (TYPE, 2), (TYPE, 0x100)] {
            let target = match kind {
                MapL1 => 77,
                MapLarge => LARGE + 9,
                _ => PAGE,
            };
            let mut setup = setup.clone();
            setup.scene.set_record(target, which, count);
            comparer.check(setup.case(&format!("rights, record word {which} is {count:#x}"), None))?;
        }
        setup.call.arguments[2] = 0;
        comparer.check(setup.case("rights, target outside", Some(if answer == 9 { 9 } else { 10 })))?;
    }
    for rights in [16, 17, 0x103, 0x8000_0001, 0xFFFF_FFF8, 0xFFFF_FFF9, u32::MAX] {
        let mut setup = setup.clone();
        setup.call.arguments[3] = rights;
        comparer.check(setup.case("huge rights", Some(9)))?;
    }
    Ok(())
}

/// Accepted calls for which one block at most is hashed, and an image with its digest alone.
fn accepted_by_one_digest(kind: Kind) -> Vec<Setup> {
    let (targets, hashed) = match kind {
        CreateL1 | MapL1 => (0..256, 200),
        MapLarge => (LARGE..LARGE + 16, LARGE + 5),
        _ => (PAGE..PAGE + 1, PAGE),
    };
    let mut setups = accepted(kind);
    for Setup { scene, .. } in &mut setups {
        scene.set_marks(targets.clone(), MARKED);
        scene.set_record(hashed, MARK, 0);
        scene.store.golden.clear();
        scene.sign(hashed);
    }
    setups
}

/// Golden images of every kind of length, with the needed digest in several places or spoilt.
fn golden_images(kind: Kind, comparer: &mut Comparer) -> Outcome {
    let mut random = Random::new(30);
    for (form, setup) in accepted_by_one_digest(kind).into_iter().enumerate() {
        let executes = form == 1;
        for length in [
            0,
            1,
            31,
            32,
            33,
            63,
            64,
            96,
            32 * 1023,
            32 * 1024 - 1,
            32 * 1024,
            32 * 1024 + 1,
            32 * 1025,
            32 * 1026,
            65536,
        ] {
            let mut other = setup.clone();
            other.scene.store.golden = random.bytes(length);
            let lawful = length % 32 == 0 && length <= 32 * 1024;
            let answer = if lawful { 12 * u32::from(executes) } else { 1 };
            comparer.check(other.clone().case(&format!("a golden image of {length} bytes"), Some(answer)))?;
            for place in [0, length / 64, (length / 32).saturating_sub(1)] {
                signed_at(comparer, &setup, &other, place, lawful, executes)?;
            }
        }
        let digest = setup.scene.store.golden.clone();
        let mut shifted = setup.clone();
        shifted.scene.store.golden = [&[0; 16][..], &digest, &[0; 16]].concat();
        comparer.check(shifted.case("a digest that starts amid another", Some(12 * u32::from(executes))))?;
    }
    Ok(())
}

fn signed_at(
    comparer: &mut Comparer,
    setup: &Setup,
    other: &Setup,
    place: usize,
    lawful: bool,
    executes: bool,
) -> Outcome {
    let mut other = other.clone();
    let Some(part) = other.scene.store.golden.get_mut(32 * place..32 * place + 32) else { return Ok(()) };
    part.copy_from_slice(&setup.scene.store.golden);
    comparer.check(other.clone().case(&format!("the digest at {place}"), Some(u32::from(!lawful))))?;
    for byte in [0, 1, 15, 30, 31] {
        let mut spoilt = other.clone();
        spoilt.scene.store.golden[32 * place + byte] ^= 0x10;
        let answer = if lawful { 12 * u32::from(executes) } else { 1 };
        comparer.check(spoilt.case(&format!("the digest at {place} with byte {byte} spoilt"), Some(answer)))?;
    }
    Ok(())
}

/// Sections at the region's ends and beyond, unaligned, and with one block that is not fit.
fn section_targets(comparer: &mut Comparer) -> Outcome {
    for blocks in [255, 256, 257, 511, 512, 513, 520] {
        let mut scene = Scene::new(FIRST, blocks);
        scene.set_types(4..8, 1);
        for rights in [0, 1, 3] {
            for target in [0x100, 0x200, 0x300, 0x400, 0x500, 0x600, 0xFFF00, 0x100300, 0x100400, 0xFFFFFF00, 0] {
                let inside = target >= FIRST && u64::from(target) + 256 <= u64::from(FIRST) + blocks as u64;
                let answer = if inside && (target != FIRST || rights < 3) { 0 } else { 10 };
                let name = format!("a section of {blocks} blocks");
                comparer.check(scene.expect(&name, MapL1, &[FIRST + 4, 9, target, rights], answer))?;
            }
        }
        for target in [0x301, 0x3FF, 0x380, 0x304, 0x401, 0x101, u32::MAX, 0x100301] {
            comparer.check(scene.expect("unaligned", MapL1, &[FIRST + 4, 9, target, 1], 3))?;
            comparer.check(scene.expect("unaligned, and more", MapL1, &[FIRST + 4, 4096, target, 9], 3))?;
        }
    }
    for (form, setup) in accepted(MapL1).into_iter().enumerate() {
        for unfit in [0, 1, 127, 254, 255, 256] {
            for (which, value) in [(TYPE, 1), (TYPE, 2), (TYPE, 3), (TYPE, 0x100), (W, 1), (X, 1), (L, 1)] {
                let mut setup = setup.clone();
                if unfit < 256 || which != TYPE {
                    setup.scene.set_record(unfit, which, value);
                }
                let answer = match which {
                    _ if unfit == 256 => 0,
                    TYPE if form == 0 => 10,
                    W if form == 1 => 11,
                    X if form == 0 => 11,
                    _ => 0,
                };
                comparer
                    .check(setup.case(&format!("record word {which} of block {unfit} is {value}"), Some(answer)))?;
            }
            let mut setup = setup.clone();
            setup.scene.put_byte(unfit, 5, 1);
            let answer = if form == 1 && unfit < 256 { 12 } else { 0 };
            comparer.check(setup.case(&format!("block {unfit} is not signed"), Some(answer)))?;
        }
    }
    Ok(())
}

/// A section that includes the L1 table: executing the holder is refused, executing the other three is not.
fn executed_tables(comparer: &mut Comparer) -> Outcome {
    let mut scene = Scene::new(FIRST, 512);
    scene.set_types(4..8, 1);
    scene.set_types(256..260, 1);
    scene.sign_all_zeros();
    for index in [0, 1024, 2048, 4095] {
        let (own, other) = ([FIRST + 4, index, FIRST, 5], [FIRST + 4, index, FIRST + 256, 5]);
        comparer.check(scene.expect("the section holds the table", MapL1, &own, 10))?;
        comparer.check(scene.expect("the section holds another table", MapL1, &other, 0))?;
    }
    let mut split = Scene::new(FIRST, 512);
    split.set_types(254..258, 1);
    split.sign_all_zeros();
    for index in [0, 1023, 1024, 2047, 2048, 4095] {
        for target in [FIRST, FIRST + 256] {
            comparer.check(split.expect("an unaligned table", MapL1, &[FIRST + 254, index, target, 5], 3))?;
        }
    }
    Ok(())
}

/// Pages at the region's ends and beyond; the L2 block itself; an L1 table's blocks.
fn page_targets(comparer: &mut Comparer) -> Outcome {
    for setup in accepted(MapL2) {
        for target in [0, 0x2FF, 0x300, 0x308, 0x30A, 0x30F, 0x310, 0x3FF, 0xFFFFF, 0x10030A, 0x8000030A, u32::MAX] {
            for rights in [0, 1, 3, 5, 7] {
                for sign in [false, true] {
                    let mut setup = setup.clone();
                    setup.scene.set_types(0..4, 1);
                    if sign {
                        [0, PAGE_TABLE, 15].iter().for_each(|position| setup.scene.sign(*position));
                    }
                    setup.call.arguments[2] = target;
                    setup.call.arguments[3] = rights;
                    comparer.check(setup.case("a page near an edge", None))?;
                }
            }
        }
    }
    let mut scene = l2_scene();
    scene.sign(PAGE_TABLE);
    let own = FIRST + PAGE_TABLE as u32;
    comparer.check(scene.expect("execute onto the signed holder", MapL2, &[own, 0, own, 5], 10))?;
    comparer.check(scene.expect("read of the holder", MapL2, &[own, 0, own, 1], 0))?;
    scene.set_types(0..4, 1);
    comparer.check(scene.expect("execute onto a table", MapL2, &[own, 0, FIRST, 5], 12))?;
    scene.sign(0);
    comparer.check(scene.expect("execute onto a signed table", MapL2, &[own, 0, FIRST, 5], 0))?;
    scene.set_types(9..10, 3);
    scene.sign(9);
    comparer.check(scene.expect("execute onto a strange type", MapL2, &[own, 0, FIRST + 9, 5], 0))?;
    comparer.check(scene.expect("write onto a strange type", MapL2, &[own, 0, FIRST + 9, 3], 10))
}

fn link_targets(comparer: &mut Comparer) -> Outcome {
    let setup = &accepted(Link)[0];
    for position in [0, 255, L1_TABLE, L2_BLOCK, L2_BLOCK + 1, L1_REGION - 1, L1_REGION, L1_REGION + 1] {
        for code in [0, 1, 2, 3, 0x102, u32::MAX] {
            let mut setup = setup.clone();
            if !(L1_TABLE..L1_TABLE + 4).contains(&position) {
                setup.scene.set_record(position, TYPE, code);
            }
            setup.call.arguments[2] = FIRST + position as u32;
            comparer.check(setup.case("a link's target", None))?;
        }
    }
    for target in [0, FIRST - 1, 0x10_0404, u32::MAX, 0x8000_0404] {
        let mut setup = setup.clone();
        setup.call.arguments[2] = target;
        comparer.check(setup.case("a link's target outside", Some(10)))?;
    }
    for table in [0, 1, 2, 3, 4, 5, 7, 8, 256, 1 << 31, u32::MAX] {
        let mut setup = setup.clone();
        setup.call.arguments[3] = table;
        comparer.check(setup.case("a link's table", Some(if table < 4 { 0 } else { 4 })))?;
    }
    Ok(())
}

/// Unmap of entries at the region's edges, and of links to blocks of any type.
fn removed_places(kind: Kind, comparer: &mut Comparer) -> Outcome {
    let (position, ..) = table(kind);
    let setup = &accepted(kind)[0];
    let index = setup.call.arguments[1] as usize;
    for place in [0, 1, 2, 3, 4, 5, 0xFFF] {
        for low in [SECTION_NONE, SECTION_READ, SECTION_WRITE, SECTION_EXECUTE, SECTION_ALL] {
            let mut setup = setup.clone();
            setup.scene.put(position, index, (place << 20) + low);
            comparer.check(setup.case("a section's place", None))?;
        }
    }
    for block in [0, 0x2FF, 0x300, 0x30A, 0x30F, 0x310, 0x407, 0x408, 0xFFFFF] {
        for low in [PAGE_NONE, PAGE_READ, PAGE_WRITE, PAGE_EXECUTE, PAGE_ALL, 1, 0xC01] {
            for code in [0, 2, 7] {
                for count in [0, 1, LIMIT + 1, LIMIT + 2] {
                    let mut setup = setup.clone();
                    setup.scene.put(position, index, (block << 12) + low);
                    if let Some(target) = (block as usize).checked_sub(FIRST as usize).filter(|t| *t != position) {
                        setup.scene.set_record(target, TYPE, code);
                        [W, X, L].iter().for_each(|which| setup.scene.set_record(target, *which, count));
                    }
                    comparer.check(setup.case("a small place", None))?;
                }
            }
        }
    }
    Ok(())
}

/// Create's 6: each counter of each block of the table.
fn counted_tables(kind: Kind, comparer: &mut Comparer) -> Outcome {
    let (position, blocks, _) = table(kind);
    for setup in accepted(kind) {
        for block in position..position + blocks {
            for which in [W, X, L] {
                for count in [1, LIMIT, u32::MAX] {
                    let mut setup = setup.clone();
                    setup.scene.set_record(block, which, count);
                    comparer.check(setup.case(&format!("counter {which} of the table is {count:#x}"), Some(6)))?;
                }
            }
        }
    }
    Ok(())
}

/// Free's 6: what hinders it and what doesn't.
fn in_use(kind: Kind, comparer: &mut Comparer) -> Outcome {
    let (position, blocks, _) = table(kind);
    for setup in accepted(kind) {
        let block = FIRST + position as u32;
        for active in [NO_TABLE, 0, 1, FIRST, block - 4, block, block + 1, block + 3, block + 4, block | 1 << 31] {
            let mut setup = setup.clone();
            setup.scene.set_active(active);
            let answer = if kind == FreeL1 && active == block { 6 } else { 0 };
            comparer.check(setup.case(&format!("active is {active:#x}"), Some(answer)))?;
        }
        for counted in position..position + blocks {
            for which in [W, X, L] {
                for count in [1, 2, u32::MAX] {
                    let mut setup = setup.clone();
                    setup.scene.set_record(counted, which, count);
                    let answer = if kind == FreeL2 && which == L { 6 } else { 0 };
                    comparer.check(setup.case(&format!("counter {which} of the table is {count:#x}"), Some(answer)))?;
                }
            }
        }
    }
    Ok(())
}

/// One more entry in the table, of every form, at the first and last index and in each quarter. The counters leave room both ways.
fn table_words(kind: Kind, comparer: &mut Comparer) -> Outcome {
    let (position, blocks, _) = table(kind);
    let mut words = vec![4, 0xFFFF_FFFC, 1, 2, 3, u32::MAX, (0x2FF << 12) + PAGE_NONE, (0x310 << 12) + PAGE_NONE];
    if about_l1(kind) {
        let section = FIRST << 12;
        words.extend((0..16).map(|k| section | 2 | (k & 1) << 4 | (k >> 1 & 3) << 10 | (k >> 3) << 15));
        words.extend([0, 2, 3, 5, 6, 7, 8, 9, 12, 13, 14, 16, 17, 18, 19].map(|bit| section | SECTION_READ ^ 1 << bit));
        words.extend((0..12).map(|bit| (((FIRST + L2_BLOCK as u32) << 12) + 0x401) ^ 1 << bit));
        words.extend([(0x100 << 12) + SECTION_READ, (0x200 << 12) + SECTION_READ, (0x400 << 12) + SECTION_READ]);
        words.extend([0x2FF, 0x300, 0x403, 0x405, 0x407, 0x408].map(|block| (block << 12) + 1));
    } else {
        words.extend((0..1024).map(|low| ((FIRST + PAGE as u32) << 12) + low));
        words.extend([0x400, 0x800].map(|bit| ((FIRST + PAGE as u32) << 12) + PAGE_WRITE + bit));
        words.extend([0x300, 0x308, 0x309, 0x30F].map(|block| (block << 12) + PAGE_WRITE));
        words.extend([0x300, 0x308, 0x309, 0x30F].map(|block| (block << 12) + PAGE_EXECUTE));
    }
    let last = 1024 * blocks - 1;
    for (form, setup) in accepted(kind).into_iter().enumerate() {
        let mut free = setup.clone();
        if matches!(kind, FreeL1 | FreeL2) {
            for target in (0..256).chain([L2_BLOCK]).filter(|target| *target != position) {
                [W, X, L].iter().for_each(|which| free.scene.set_record(target, *which, 5));
            }
        }
        for (turn, word) in words.iter().enumerate() {
            let index = [0, last - 1, blocks * 256, blocks * 512 + 1, blocks * 768 + 2][turn % 5];
            let mut setup = free.clone();
            setup.scene.put(position, index, *word);
            comparer.check(setup.case(&format!("form {form}, the word {word:#x} at {index}"), None))?;
        }
        for index in [0, 255, 256, 1023, last / 2, last / 2 + 1, last] {
            for word in
                [words[turn_of(kind)], 1 << 2 | 3, (0x77 << 20) + if blocks == 4 { SECTION_READ } else { PAGE_READ }]
            {
                let mut setup = free.clone();
                setup.scene.put(position, index, word);
                comparer.check(setup.case(&format!("form {form}, the word {word:#x} at {index}"), None))?;
            }
        }
    }
    unaccepted_after_outside(kind, comparer)
}

/// The place in `table_words` of a word that is accepted and counts.
fn turn_of(kind: Kind) -> usize {
    if about_l1(kind) {
        8 + 7
    } else {
        8 + PAGE_WRITE as usize
    }
}

/// 8 is judged over all entries before 10 is over any.
fn unaccepted_after_outside(kind: Kind, comparer: &mut Comparer) -> Outcome {
    let (position, blocks, _) = table(kind);
    for setup in accepted(kind) {
        let mut setup = setup.clone();
        let low = if blocks == 4 { SECTION_READ } else { PAGE_READ };
        setup.scene.put(position, 0, (0x77 << 20) + low);
        comparer.check(setup.clone().case("a place outside", Some(10)))?;
        setup.scene.put(position, 1024 * blocks - 2, 0xFFFF_FFF1);
        comparer.check(setup.case("a place outside, then an unaccepted form", Some(8)))?;
    }
    Ok(())
}

/// Several entries of a new table on the same block, with old counters.
fn same_targets(kind: Kind, comparer: &mut Comparer) -> Outcome {
    let (position, blocks, _) = table(kind);
    let (target, lows) = if blocks == 4 {
        (0, [SECTION_NONE, SECTION_READ, SECTION_WRITE, SECTION_EXECUTE, SECTION_ALL])
    } else {
        (PAGE, [PAGE_NONE, PAGE_READ, PAGE_WRITE, PAGE_EXECUTE, PAGE_ALL])
    };
    let empty = {
        let mut setup = accepted(kind)[0].clone();
        (0..1024 * blocks).for_each(|index| setup.scene.put(position, index, 0));
        setup
    };
    for first in lows {
        for second in lows {
            let mut both = empty.clone();
            both.scene.put(position, 0, both.scene.mapping(target, first));
            both.scene.put(position, 1024 * blocks - 1, both.scene.mapping(target, second));
            comparer.check(both.clone().case("two entries on one block", None))?;
            for (which, count) in [(W, 1), (X, 1), (W, LIMIT - 1), (X, LIMIT - 1), (W, LIMIT - 2), (X, LIMIT - 2)] {
                let mut counted = both.clone();
                let block = if blocks == 4 { 31 } else { target };
                counted.scene.set_record(block, which, count);
                comparer.check(counted.case(&format!("two entries, counter {which} is {count:#x}"), None))?;
            }
        }
    }
    mixed_elsewhere(&empty, kind, comparer)?;
    unsigned_second(&empty, kind, comparer)?;
    many_links(&empty, kind, comparer)
}

/// A strange ledger with w and x above 0 on a block: a reason only if a new entry writes or executes it.
fn mixed_elsewhere(empty: &Setup, kind: Kind, comparer: &mut Comparer) -> Outcome {
    let (position, blocks, _) = table(kind);
    let (target, read, write) =
        if blocks == 4 { (0, SECTION_READ, SECTION_WRITE) } else { (PAGE, PAGE_READ, PAGE_WRITE) };
    for (low, answer) in [(read, 0), (write, 11)] {
        let mut setup = empty.clone();
        setup.scene.set_record(target, W, 1);
        setup.scene.set_record(target, X, 1);
        setup.scene.put(position, 3, setup.scene.mapping(target, low));
        comparer.check(setup.case("w and x above 0 before", Some(answer)))?;
    }
    Ok(())
}

/// The second executable entry's block is not signed.
fn unsigned_second(empty: &Setup, kind: Kind, comparer: &mut Comparer) -> Outcome {
    if kind == CreateL2 {
        let mut setup = empty.clone();
        setup.scene.put_byte(11, 9, 9);
        setup.scene.put(PAGE_TABLE, 3, setup.scene.mapping(PAGE, PAGE_EXECUTE));
        setup.scene.put(PAGE_TABLE, 4, setup.scene.mapping(11, PAGE_EXECUTE));
        comparer.check(setup.clone().case("the second is not signed", Some(12)))?;
        setup.scene.sign(11);
        return comparer.check(setup.case("both are signed", Some(0)));
    }
    let mut scene = Scene::new(FIRST, 520);
    scene.sign_all_zeros();
    scene.put(512, 0, scene.mapping(0, SECTION_EXECUTE));
    scene.put(512, 1, scene.mapping(256, SECTION_EXECUTE));
    comparer.check(scene.expect("two sections are signed", kind, &[FIRST + 512], 0))?;
    scene.put_byte(511, 9, 9);
    comparer.check(scene.expect("the second is not signed", kind, &[FIRST + 512], 12))
}

/// Four links to one L2 block, and links to blocks of other types.
fn many_links(empty: &Setup, kind: Kind, comparer: &mut Comparer) -> Outcome {
    if kind != CreateL1 {
        return Ok(());
    }
    for code in [0, 1, 2, 3, 0x102] {
        for count in COUNTS.into_iter().chain([LIMIT - 3, LIMIT - 4, LIMIT - 5]) {
            let mut setup = empty.clone();
            (0..4).for_each(|k| setup.scene.put(L1_TABLE, 1024 * k, setup.scene.link(L2_BLOCK, k as u32)));
            setup.scene.set_record(L2_BLOCK, TYPE, code);
            setup.scene.set_record(L2_BLOCK, L, count);
            comparer.check(setup.case("four links to one block", None))?;
        }
    }
    Ok(())
}

/// Entries of a new table on its own blocks: writable never, executable if signed.
fn own_blocks(kind: Kind, comparer: &mut Comparer) -> Outcome {
    if kind == CreateL2 {
        for (low, answer) in [(PAGE_READ, 0), (PAGE_WRITE, 10), (PAGE_EXECUTE, 0), (PAGE_ALL, 10)] {
            let mut scene = Scene::new(FIRST, 16);
            scene.put(8, 77, scene.mapping(8, low));
            scene.sign(8);
            comparer.check(scene.expect("an entry on its own block", kind, &[FIRST + 8], answer))?;
            scene.store.golden.clear();
            let answer = if low == PAGE_EXECUTE { 12 } else { answer };
            comparer.check(scene.expect("an entry on its own block, unsigned", kind, &[FIRST + 8], answer))?;
        }
        return Ok(());
    }
    for table in [0, 128, 252] {
        for (low, answer) in [(SECTION_READ, 0), (SECTION_WRITE, 10), (SECTION_EXECUTE, 0), (SECTION_ALL, 10)] {
            let mut scene = Scene::new(FIRST, 256);
            scene.put(table, 0, scene.mapping(0, low));
            scene.sign(table);
            scene.sign_all_zeros();
            let block = FIRST + table as u32;
            comparer.check(scene.expect("an entry on its own blocks", kind, &[block], answer))?;
            scene.set_record(table + 3, TYPE, 2);
            comparer.check(scene.expect("an entry on its own blocks, one of them L2", kind, &[block], 5))?;
            scene.set_record(table + 3, TYPE, 0);
            scene.set_record((table + 4) % 256, TYPE, 2);
            comparer.check(scene.expect("an entry on an L2 block too", kind, &[block], answer))?;
        }
    }
    Ok(())
}

/// Free sums a block's changes before it judges the end.
fn sums(kind: Kind, comparer: &mut Comparer) -> Outcome {
    let (position, blocks, _) = table(kind);
    let (target, lows) = if blocks == 4 {
        (0, [SECTION_WRITE, SECTION_EXECUTE, SECTION_ALL])
    } else {
        (PAGE, [PAGE_WRITE, PAGE_EXECUTE, PAGE_ALL])
    };
    for low in lows {
        for entries in [0, 4] {
            for count in COUNTS.into_iter().chain([3, 4, 5, 6, LIMIT + 3, LIMIT + 4, LIMIT + 5, LIMIT + 6]) {
                let mut setup = accepted(kind)[0].clone();
                (0..1024 * blocks).for_each(|index| setup.scene.put(position, index, 0));
                (0..=entries).for_each(|k| setup.scene.put(position, 200 * k, setup.scene.mapping(target, low)));
                let all = if blocks == 4 { 0..256 } else { PAGE..PAGE + 1 };
                for block in all {
                    setup.scene.set_record(block, W, 6);
                    setup.scene.set_record(block, X, 6);
                }
                let block = if blocks == 4 { 255 } else { PAGE };
                setup.scene.set_record(block, W, count);
                setup.scene.set_record(block, X, count);
                comparer.check(setup.case(&format!("{} entries on a counter of {count:#x}", entries + 1), None))?;
            }
        }
    }
    Ok(())
}

/// A section that ends with the region.
fn last_section(kind: Kind, comparer: &mut Comparer) -> Outcome {
    if !about_l1(kind) {
        return Ok(());
    }
    for blocks in [256, 512] {
        let mut scene = Scene::new(FIRST, blocks);
        if kind != CreateL1 {
            scene.set_types(8..12, 1);
        }
        for low in [SECTION_NONE, SECTION_READ] {
            scene.put(8, 0, scene.mapping(blocks - 256, low));
            comparer.check(scene.expect("the last section", kind, &[FIRST + 8, 0][..kind.arity()], 0))?;
        }
    }
    Ok(())
}

/// Each type on a block that a new table's entry writes, executes or reads.
fn target_types(kind: Kind, comparer: &mut Comparer) -> Outcome {
    let targets: &[usize] = if kind == CreateL1 { &[0, 100, 255] } else { &[PAGE] };
    for (form, setup) in accepted(kind).into_iter().enumerate() {
        for &target in targets {
            for code in [0, 1, 2, 3, 0x100, u32::MAX] {
                let mut setup = setup.clone();
                setup.scene.set_record(target, TYPE, code);
                let answer = if code == 0 || form == 1 { 0 } else { 10 };
                comparer.check(setup.case(&format!("a target of type {code:#x}"), Some(answer)))?;
            }
        }
    }
    Ok(())
}
