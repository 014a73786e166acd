//! The rules on lengths and B, for every call: sizes at all edges, B at its edges, buffers that are too short or too long.
use super::scene::*;
use super::Case;
use crate::bytes::put_word;
use crate::compare::{Comparer, Outcome};
use crate::monitor::{Kind, BLOCK, LEDGER_HEAD, LEDGER_RECORD, MARKED};
use crate::random::Random;
use std::rc::Rc;
use Kind::*;

/// A call that is accepted, as far as the region's size allows: an L1 table in blocks 0 to 3 with a link to the L2 block 4, which has a writable
/// page (block 5) and an executable one (block 6). All blocks are marked but the last of these.
pub fn valid(kind: Kind, first: u32, blocks: usize) -> Case {
    let mut scene = Scene::new(first, blocks);
    let mut random = Random::new(blocks as u64);
    scene.fill(5, &mut random);
    scene.fill(6, &mut random);
    scene.sign(6);
    scene.set_marks(0..blocks, MARKED);
    scene.set_marks(6..blocks.min(7), 0);
    scene.put(0, 0, scene.link(4, 0));
    scene.put(4, 0, scene.mapping(5, PAGE_WRITE));
    scene.put(4, 1, scene.mapping(6, PAGE_EXECUTE));
    if kind == UnmapLarge {
        scene.put_run(4, 32, scene.mapping(0, LARGE_READ));
    }
    if kind != CreateL1 {
        scene.set_types(0..4, 1);
        scene.activate(0);
    }
    if kind != CreateL2 {
        scene.set_types(4..5, 2);
        scene.set_record(5, W, 1);
        scene.set_record(6, X, 1);
    }
    if !matches!(kind, CreateL1 | CreateL2 | FreeL2) {
        scene.set_record(4, L, 1);
    }
    if matches!(kind, FreeL1 | Switch) {
        scene.set_active(crate::monitor::NO_TABLE);
    }
    let (table, page_table) = (scene.block(0), scene.block(4));
    let arguments: &[u32] = match kind {
        Begin | BeginKinds => &[first],
        CreateL1 | FreeL1 | Switch => &[table],
        CreateL2 | FreeL2 => &[page_table],
        MapL1 | MapL1Kind => &[table, 7, first, 1, 5],
        MapL2 | MapL2Kind => &[page_table, 9, scene.block(5), 3, 7],
        Link => &[table, 9, page_table, 3],
        UnmapL1 => &[table, 0],
        UnmapL2 => &[page_table, 0],
        MapLarge | MapLargeKind => &[page_table, 16, first, 1, 1],
        UnmapLarge => &[page_table, 32],
        Read | Write => &[0x123, 0x5A],
        Fetch => &[0x1FFF],
        Forget => &[first, blocks as u32],
        Acknowledge => &[],
    };
    let needed = match kind {
        MapL1 | MapL1Kind => 256,
        MapLarge | MapLargeKind | UnmapLarge => 16,
        _ => 0,
    };
    let answer = if blocks < needed { 10 } else { 0 };
    scene.expect(&format!("{blocks} blocks from {first:#x}"), kind, &arguments[..kind.arity()], answer)
}

/// The highest B for this many blocks.
fn top(blocks: usize) -> u32 {
    ((1 << 20) - blocks as u32) & !255
}

pub fn small(kind: Kind, comparer: &mut Comparer) -> Outcome {
    sizes(kind, comparer, &[8, 9, 16])?;
    wrong_lengths(kind, comparer)?;
    if matches!(kind, Begin | BeginKinds) {
        stored_first_block(kind, comparer)?;
    }
    Ok(())
}

pub fn large(kind: Kind, comparer: &mut Comparer) -> Outcome {
    sizes(kind, comparer, &[255, 256, 257, 512])?;
    comparer.check(valid(kind, top(4096), 4096))?;
    comparer.check(valid(kind, 0, 4096))?;
    comparer.check(refused(valid(kind, 0, 4097)))
}

fn refused(case: Case) -> Case {
    Case { expected: Some(1), ..case }
}

/// Regions of these sizes, with B at its edges.
fn sizes(kind: Kind, comparer: &mut Comparer, sizes: &[usize]) -> Outcome {
    for &blocks in sizes {
        for first in [0, 0x100, 0x7FF00, top(blocks)] {
            comparer.check(valid(kind, first, blocks))?;
        }
        let beyond = top(blocks) + 256;
        for first in [1, 4, 0x80, 255, 257, beyond, beyond - 1, 1 << 20, 1 << 31, 0u32.wrapping_sub(256), u32::MAX] {
            comparer.check(refused(valid(kind, first, blocks)))?;
        }
    }
    Ok(())
}

fn wrong_lengths(kind: Kind, comparer: &mut Comparer) -> Outcome {
    for blocks in [0, 1, 4, 7] {
        comparer.check(refused(valid(kind, 0x100, blocks)))?;
    }
    for (blocks, first) in [(8, 0), (16, 0x100)] {
        let case = valid(kind, first, blocks);
        let (memory, ledger) = (case.store.memory.len(), case.store.ledger.len());
        let lengths = [
            (memory, ledger - 1),
            (memory, ledger + 1),
            (memory, ledger - LEDGER_RECORD),
            (memory, ledger + LEDGER_RECORD),
            (memory, 8 + 16 * blocks),
            (memory, 8 + LEDGER_RECORD * blocks),
            (memory, 16 + LEDGER_RECORD * blocks),
            (memory, ledger - 8),
            (memory, 2 * ledger),
            (memory, 0),
            (memory, 3),
            (memory, 8),
            (memory, LEDGER_HEAD - 1),
            (memory, LEDGER_HEAD),
            (memory - 1, ledger),
            (memory + 1, ledger),
            (memory - 1, ledger - LEDGER_RECORD),
            (memory + BLOCK - 1, ledger),
            (memory + BLOCK - 1, ledger + LEDGER_RECORD),
            (memory + BLOCK, ledger),
            (memory - BLOCK, ledger),
            (memory + 16, ledger),
            (0, ledger),
            (0, 8),
            (0, LEDGER_HEAD),
            (0, 0),
            (1, 8),
            (1, LEDGER_HEAD),
        ];
        for (memory, ledger) in lengths {
            let mut other = refused(case.clone());
            other.name = format!("memory of {memory} bytes, ledger of {ledger}");
            Rc::make_mut(&mut other.store.memory).resize(memory, 0);
            other.store.ledger.resize(ledger, 0);
            comparer.check(other)?;
        }
    }
    Ok(())
}

/// Begin looks at the B that it is given, not at the stored one.
fn stored_first_block(kind: Kind, comparer: &mut Comparer) -> Outcome {
    for stored in [1, 255, 0x200, 1 << 20, u32::MAX] {
        for given in [0, 0x100, 0x80, 1 << 20] {
            let mut case = valid(kind, 0x100, 16);
            put_word(&mut case.store.ledger, 0, stored);
            case.call.arguments[0] = given;
            let answer = u32::from(given == 0x80 || given == 1 << 20);
            comparer.check(Case { expected: Some(answer), ..case })?;
        }
    }
    Ok(())
}
