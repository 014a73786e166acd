//! The reference held against cases that the rules state outright: the numbers of entries 13 to 16 and 22, the statuses of registers 5, edges, and the
//! ends of bounds.
use std::fs;
use std::path::Path;
use std::process::Command;
use std::rc::Rc;
use tests::bytes::{put_word, word};
use tests::cases::scene::*;
use tests::monitor::{
    plain_call, Call, Given, Kind, Monitor, BLOCK, DFSR, IFSR, KINDS_AT, LEDGER_HEAD, NO_TABLE, PENDING,
    REGISTERS_BYTES,
};
use tests::reference::entries::{page_number, page_rights, Level};
use tests::reference::Reference;
use tests::sha256::Sha256;
use Kind::*;

fn answer(scene: &mut Scene, kind: Kind, arguments: &[u32]) -> u32 {
    Reference::new().perform(Call::new(kind, arguments), &mut scene.store).answer
}

/// The answer, and the number of blocks hashed.
fn hashed(scene: &mut Scene, kind: Kind, arguments: &[u32]) -> (u32, u32) {
    let Given { answer, hashed, .. } = Reference::new().perform(Call::new(kind, arguments), &mut scene.store);
    (answer, hashed)
}

/// The marks of all blocks.
fn marks(scene: &Scene) -> Vec<u32> {
    (0..scene.blocks()).map(|position| scene.record(position, MARK)).collect()
}

/// The marks of a region in which these blocks are marked, and all other marks are 0.
fn marked(blocks: usize, positions: &[usize]) -> Vec<u32> {
    (0..blocks).map(|position| u32::from(positions.contains(&position))).collect()
}

#[test]
fn twelve_page_rights() {
    let cases = [
        (0x3FC, 0x0),
        (0x00D, 0x6),
        (0x20E, 0x7),
        (0x00F, 0x8),
        (0x01F, 0x8),
        (0x21E, 0x8),
        (0x02F, 0x9),
        (0x23F, 0x9),
        (0x03F, 0xB),
        (0x02E, 0xD),
        (0x22E, 0xD),
        (0x03E, 0xF),
    ];
    for (low, number) in cases {
        assert_eq!(page_number(low), number, "low bits {low:#x}");
    }
}

/// The page rights of all words of 16 bits, by entries 4 to 11 and 20, and the table's numbers, by entries 22.
#[test]
fn all_page_rights() {
    for word in 0..0x1_0000 {
        let ap = word >> 7 & 4 | word >> 4 & 3;
        let large = word & 3 == 1;
        let execute = 4 * u32::from(if large { word < 0x8000 } else { word & 1 == 0 });
        let rights = match ap {
            _ if word & 3 == 0 => 0,
            _ if large && word & 0x1C0 != 0 => 7,
            0b100 => 7,
            0b010 | 0b110 | 0b111 => 8 + 1 + execute,
            0b011 => 8 + 3 + execute,
            _ => 8,
        };
        assert_eq!(page_rights(word), rights, "the word {word:#x}");
        assert_eq!(page_rights(0xABCD_0000 | word), rights, "the word {word:#x} of another page");
        if word < 1024 {
            assert_eq!(page_number(word), if large { 6 } else { rights }, "index {word:#x}");
        }
    }
}

/// What the program rights_table must print is what the rule gives, written twice: by tests/page_rights.py and by the reference.
#[test]
fn stored_page_rights() {
    let tests = Path::new(env!("CARGO_MANIFEST_DIR"));
    let stored = fs::read_to_string(tests.join("../crates/rights_table/stdout")).unwrap();
    let script = Command::new("python3").arg(tests.join("page_rights.py")).output().unwrap();
    assert!(script.status.success(), "{}", String::from_utf8_lossy(&script.stderr));
    assert_eq!(String::from_utf8(script.stdout).unwrap(), stored);
    let digits: Vec<u32> = stored.lines().flat_map(str::chars).map(|digit| digit.to_digit(16).unwrap()).collect();
    assert_eq!(digits, (0..1024).map(page_number).collect::<Vec<u32>>());
}

fn typed(blocks: usize) -> Scene {
    let mut scene = Scene::new(0x100, blocks);
    scene.set_types(0..4, 1);
    scene.set_types(4..5, 2);
    scene
}

#[test]
fn written_words() {
    for (rights, page, section) in [(0, 0x01F, 0x41E), (1, 0x02F, 0x81E), (3, 0x03F, 0xC1E), (5, 0x02E, 0x80E)] {
        let mut scene = typed(512);
        scene.sign_all_zeros();
        assert_eq!(answer(&mut scene, MapL2, &[0x104, 9, 0x105, rights]), 0);
        assert_eq!(scene.word(4, 9), 0x0010_5000 + page);
        assert_eq!(answer(&mut scene, MapL1, &[0x100, 4095, 0x200, rights]), 0);
        assert_eq!(scene.word(0, 4095), 0x0020_0000 + section);
    }
    for (rights, low) in [(0, 0x801D), (1, 0x802D), (3, 0x803D), (5, 0x002D)] {
        let mut scene = typed(32);
        scene.sign_all_zeros();
        assert_eq!(answer(&mut scene, MapLarge, &[0x104, 32, 0x110, rights]), 0);
        assert!((0..1024).all(|at| scene.word(4, at) == if at / 16 == 2 { 0x0011_0000 + low } else { 0 }));
    }
    let mut scene = typed(16);
    assert_eq!(answer(&mut scene, Link, &[0x100, 2, 0x104, 3]), 0);
    assert_eq!(scene.word(0, 2), 0x0010_4C01);
}

/// The words that each bit of a kind makes of rights 1, one bit at a time.
#[test]
fn written_kinds() {
    let pages = [0x023, 0x027, 0x02B, 0x063, 0x0A3, 0x123, 0x423, 0x823];
    let sections = [0x0812, 0x0816, 0x081A, 0x1812, 0x2812, 0x4812, 0x1_0812, 0x2_0812];
    let large = [0x8021, 0x8025, 0x8029, 0x9021, 0xA021, 0xC021, 0x8421, 0x8821];
    let mut scene = typed(512);
    scene.set_kinds(&[0x00, 0x01, 0x02, 0x04, 0x08, 0x10, 0x20, 0x40]);
    for number in 0..8 {
        let at = number as usize;
        assert_eq!(answer(&mut scene, MapL2Kind, &[0x104, number, 0x105, 1, number]), 0);
        assert_eq!(scene.word(4, at), 0x0010_5000 + pages[at]);
        assert_eq!(answer(&mut scene, MapL1Kind, &[0x100, number, 0x200, 1, number]), 0);
        assert_eq!(scene.word(0, at), 0x0020_0000 + sections[at]);
        assert_eq!(answer(&mut scene, MapLargeKind, &[0x104, 16 + 16 * number, 0x110, 1, number]), 0);
        assert!((0..16).all(|entry| scene.word(4, 16 + 16 * at + entry) == 0x0011_0000 + large[at]));
    }
    scene.set_kinds(&[0x7F; 8]);
    assert_eq!(answer(&mut scene, MapL2, &[0x104, 1023, 0x105, 3]), 0);
    assert_eq!(scene.word(4, 1023), 0x0010_5DFF);
    assert_eq!(answer(&mut scene, MapL1, &[0x100, 4095, 0x200, 3]), 0);
    assert_eq!(scene.word(0, 4095), 0x0023_7C1E);
    assert_eq!(answer(&mut scene, MapLarge, &[0x104, 992, 0x110, 3]), 0);
    assert_eq!(scene.word(4, 1007), 0x0011_FC3D);
}

/// A kind above 7 gives 4, after 2 and 3 and before 5.
#[test]
fn numbers_of_kinds() {
    for (number, expected) in [(0, 0), (7, 0), (8, 4), (u32::MAX, 4)] {
        assert_eq!(answer(&mut typed(512), MapL1Kind, &[0x100, 0, 0x200, 1, number]), expected);
        assert_eq!(answer(&mut typed(16), MapL2Kind, &[0x104, 0, 0x105, 1, number]), expected);
        assert_eq!(answer(&mut typed(32), MapLargeKind, &[0x104, 16, 0x110, 1, number]), expected);
    }
    assert_eq!(answer(&mut typed(512), MapL1Kind, &[0xFC, 0, 0x201, 1, 8]), 2);
    assert_eq!(answer(&mut typed(512), MapL1Kind, &[0x100, 0, 0x201, 1, 8]), 3);
    assert_eq!(answer(&mut typed(512), MapL1Kind, &[0x104, 0, 0x200, 1, 8]), 4);
    assert_eq!(answer(&mut typed(16), MapL2Kind, &[0x105, 0, 0x105, 1, 8]), 4);
    assert_eq!(answer(&mut typed(16), MapL2Kind, &[0x105, 0, 0x105, 1, 7]), 5);
}

/// Every call that is lent a ledger with one unlawful kind refuses it, but for the two begins, which replace the kind.
#[test]
fn unlawful_kinds() {
    for number in 0..8 {
        for (kind, is_lawful) in [(0x7F, true), (0x80, false), (0x100, false), (0xFFFF, false)] {
            for call in Kind::ALL.into_iter().filter(|call| *call != Acknowledge) {
                let mut scene = typed(16);
                scene.set_kind(number, kind);
                let refused = answer(&mut scene, call, &[0x100]) == 1;
                let begins = call == Begin || plain_call(call) == Some(Begin);
                assert_eq!(refused, !is_lawful && !begins, "{call:?} with kind {number} = {kind:#x}");
            }
        }
    }
}

#[test]
fn kinds_that_begin_is_given() {
    for (kinds, expected) in [
        (kind_bytes(&[0x7F; 8]), 0),
        (kind_bytes(&[0; 8]), 0),
        (vec![0; 15], 1),
        (vec![0; 17], 1),
        (Vec::new(), 1),
        (kind_bytes(&[0, 0, 0, 0, 0, 0, 0, 0x80]), 1),
        (kind_bytes(&[0x100, 0, 0, 0, 0, 0, 0, 0]), 1),
    ] {
        let mut scene = Scene::new(0x100, 8);
        scene.store.kinds = kinds.clone();
        assert_eq!(answer(&mut scene, BeginKinds, &[0x100]), expected, "{kinds:02x?}");
        let left = if expected == 0 { kinds } else { kind_bytes(&KINDS) };
        assert_eq!(scene.store.ledger[KINDS_AT..LEDGER_HEAD], left);
    }
}

#[test]
fn sizes_of_regions() {
    for (blocks, expected) in [(7, 1), (8, 0), (4096, 0), (4097, 1)] {
        assert_eq!(answer(&mut Scene::new(0, blocks), Begin, &[0]), expected, "{blocks} blocks");
    }
}

#[test]
fn indices() {
    for (index, expected) in [(4095, 0), (4096, 4)] {
        assert_eq!(answer(&mut typed(16), UnmapL1, &[0x100, index]), expected);
    }
    for (index, expected) in [(1023, 0), (1024, 4)] {
        assert_eq!(answer(&mut typed(16), UnmapL2, &[0x104, index]), expected);
    }
    for (index, expected) in [(0, 0), (1008, 0), (1009, 3), (1023, 3), (1024, 4), (1025, 3), (0xFFFF_FFF0, 4)] {
        assert_eq!(answer(&mut typed(16), MapLarge, &[0x104, index, 0x100, 1]), expected);
        let expected = if expected == 0 { 8 } else { expected };
        assert_eq!(answer(&mut typed(16), UnmapLarge, &[0x104, index]), expected);
    }
}

#[test]
fn last_section_of_a_region() {
    for (blocks, target, expected) in [(512, 0x200, 0), (511, 0x200, 10), (513, 0x200, 0), (513, 0x300, 10)] {
        assert_eq!(answer(&mut typed(blocks), MapL1, &[0x100, 0, target, 3]), expected, "{blocks} blocks");
    }
}

#[test]
fn a_section_counts_on_each_of_its_blocks() {
    let mut scene = typed(512);
    assert_eq!(answer(&mut scene, MapL1, &[0x100, 0, 0x200, 3]), 0);
    assert!((256..512).all(|position| scene.record(position, W) == 1));
    assert!((0..256).all(|position| scene.record(position, W) == 0));
    assert_eq!(answer(&mut scene, UnmapL1, &[0x100, 0]), 0);
    assert!((0..512).all(|position| scene.record(position, W) == 0));
}

/// One more, one less: each entry of a large page counts on the block at its own position.
#[test]
fn a_large_page_counts_on_each_of_its_blocks() {
    let mut scene = typed(48);
    assert_eq!(answer(&mut scene, MapLarge, &[0x104, 16, 0x110, 3]), 0);
    assert_eq!(answer(&mut scene, MapL2, &[0x104, 5, 0x11F, 3]), 0);
    assert!((0..48).all(|at| scene.record(at, W) == u32::from((16..32).contains(&at)) + u32::from(at == 31)));
    assert_eq!(answer(&mut scene, UnmapL2, &[0x104, 16]), 8);
    assert_eq!(answer(&mut scene, UnmapLarge, &[0x104, 0]), 8);
    assert_eq!(answer(&mut scene, UnmapLarge, &[0x104, 16]), 0);
    assert!((0..48).all(|at| scene.record(at, W) == u32::from(at == 31)));
    assert!((16..32).all(|index| scene.word(4, index) == 0));
}

/// A lone entry, fifteen equal ones, sixteen from an index that is no multiple of 16.
#[test]
fn a_large_page_is_sixteen_equal_words() {
    for (from, to, other, expected) in [
        (0, 16, 0, 0),
        (0, 15, 0, 8),
        (3, 4, 0, 8),
        (0, 16, 1 << 12, 8),
        (8, 24, 0, 8),
        (248, 264, 0, 8),
        (240, 272, 0, 0),
    ] {
        let mut scene = Scene::new(0x100, 16);
        (from..to).for_each(|index| scene.put(8, index, scene.mapping(0, LARGE_READ)));
        scene.put(8, to - 1, scene.word(8, to - 1) ^ other);
        assert_eq!(answer(&mut scene, CreateL2, &[0x108]), expected, "{from} to {to}, then {other:#x}");
    }
}

/// A walk ends in the entry's own block; a place that is outside in part is refused also where that block is inside.
#[test]
fn walks_through_a_large_page() {
    for (blocks, expected) in [(32, 0), (20, 24)] {
        let mut scene = typed(blocks);
        scene.activate(0);
        scene.put(0, 0, scene.link(4, 1));
        scene.put_run(4, 256 + 240, scene.mapping(16, LARGE_READ));
        (16..blocks).for_each(|position| scene.put_byte(position, 7, position as u8));
        for (page, byte) in [(0xF0, 16), (0xF3, 19), (0xFF, 31)] {
            let given = Reference::new().perform(Call::new(Read, &[page << 12 | 7]), &mut scene.store);
            assert_eq!((given.answer, given.byte), (expected, if expected == 0 { byte } else { 0 }));
        }
    }
}

#[test]
fn the_new_entry_may_not_go_into_its_signed_target() {
    let mut scene = typed(16);
    scene.sign(4);
    assert_eq!(answer(&mut scene, MapL2, &[0x104, 0, 0x104, 5]), 10);
}

#[test]
fn new_entries_are_compared_with_each_other() {
    let mut scene = Scene::new(0x100, 16);
    scene.sign_all_zeros();
    scene.put(8, 0, scene.mapping(9, PAGE_WRITE));
    scene.put(8, 1023, scene.mapping(9, PAGE_EXECUTE));
    assert_eq!(answer(&mut scene, CreateL2, &[0x108]), 11);
}

#[test]
fn an_executable_table_is_frozen() {
    let mut scene = typed(16);
    scene.sign_all_zeros();
    scene.set_types(5..6, 2);
    assert_eq!(answer(&mut scene, MapL2, &[0x105, 0, 0x104, 5]), 0);
    assert_eq!(answer(&mut scene, MapL2, &[0x104, 0, 0x106, 1]), 7);
    assert_eq!(answer(&mut scene, UnmapL2, &[0x104, 0]), 7);
    assert_eq!(answer(&mut scene, MapL2, &[0x105, 1, 0x100, 5]), 0);
    assert_eq!(answer(&mut scene, Link, &[0x100, 0, 0x104, 0]), 7);
    assert_eq!(answer(&mut scene, Link, &[0x100, 1024, 0x104, 0]), 0);
}

/// The end value alone is judged, at both ends.
#[test]
fn counters_at_both_ends() {
    const LIMIT: u32 = 1 << 22;
    for (count, expected) in [(0, 13), (1, 0), (LIMIT, 0), (LIMIT + 1, 0), (LIMIT + 2, 13), (u32::MAX, 13)] {
        let mut scene = typed(16);
        scene.put(4, 0, scene.mapping(9, PAGE_WRITE));
        scene.set_record(9, W, count);
        assert_eq!(answer(&mut scene, UnmapL2, &[0x104, 0]), expected, "unmap at {count:#x}");
    }
    for (count, expected) in [(0, 0), (LIMIT - 1, 0), (LIMIT, 13), (u32::MAX, 13)] {
        let mut scene = typed(16);
        scene.set_record(9, W, count);
        assert_eq!(answer(&mut scene, MapL2, &[0x104, 0, 0x109, 3]), expected, "map at {count:#x}");
    }
    for (count, expected) in [(4, 13), (5, 0), (LIMIT + 3, 0), (LIMIT + 5, 0), (LIMIT + 6, 13)] {
        let mut scene = typed(16);
        (0..5).for_each(|index| scene.put(4, index, scene.mapping(9, PAGE_WRITE)));
        scene.set_record(9, W, count);
        assert_eq!(answer(&mut scene, FreeL2, &[0x104]), expected, "free at {count:#x}");
    }
}

/// The last three blocks of a region give 2 and not 3; FFFFFFFD doesn't wrap.
#[test]
fn four_blocks_of_a_table() {
    for (block, expected) in [(0x10C, 5), (0x10D, 2), (0x10E, 2), (0x10F, 2), (0x101, 3), (0xFFFF_FFFD, 2)] {
        assert_eq!(answer(&mut Scene::new(0x100, 16), Switch, &[block]), expected);
    }
}

#[test]
fn begin_leaves_a_fresh_ledger_and_the_memory() {
    let mut scene = Scene::new(0x100, 8);
    scene.store.memory = Rc::new(vec![7; 8 * BLOCK]);
    scene.store.ledger.fill(9);
    assert_eq!(answer(&mut scene, Begin, &[0xFFF00]), 0);
    assert_eq!(word(&scene.store.ledger, 0), 0xFFF00);
    assert_eq!(word(&scene.store.ledger, 4), NO_TABLE);
    assert_eq!(scene.store.ledger[KINDS_AT..LEDGER_HEAD], [3, 0, 3, 0, 3, 0, 3, 0, 3, 0, 3, 0, 3, 0, 3, 0]);
    assert!(scene.store.ledger[LEDGER_HEAD..].iter().all(|byte| *byte == 0));
    assert!(scene.store.memory.iter().all(|byte| *byte == 7));
}

#[test]
fn first_blocks() {
    let lawful = [(8, 0), (16, 0x100), (256, 0xFFF00), (257, 0xFFE00)];
    let unlawful = [(8, 255), (8, 1), (257, 0xFFF00), (8, 1 << 20), (256, 0xFFFF_FF00), (8, u32::MAX)];
    for (blocks, first) in lawful {
        assert_eq!(answer(&mut Scene::new(0, blocks), Begin, &[first]), 0, "{first:#x}");
    }
    for (blocks, first) in unlawful {
        assert_eq!(answer(&mut Scene::new(0, blocks), Begin, &[first]), 1, "{first:#x}");
    }
}

/// A block is hashed once, and marked; a map of less marks nothing.
#[test]
fn a_block_is_hashed_once() {
    let mut scene = typed(16);
    scene.sign(9);
    assert_eq!(hashed(&mut scene, MapL2, &[0x104, 0, 0x109, 1]), (0, 0));
    assert_eq!(marks(&scene), marked(16, &[]));
    assert_eq!(hashed(&mut scene, MapL2, &[0x104, 1, 0x109, 5]), (0, 1));
    assert_eq!(marks(&scene), marked(16, &[9]));
    assert_eq!(hashed(&mut scene, MapL2, &[0x104, 2, 0x109, 5]), (0, 0));
    assert_eq!(hashed(&mut scene, MapL2, &[0x104, 3, 0x109, 3]), (11, 0));
    assert_eq!(marks(&scene), marked(16, &[9]));
}

/// Exactly 1 is believed, also of bytes that are not signed; every other mark is hashed.
#[test]
fn only_1_is_a_mark() {
    for (mark, signed, unsigned) in [
        (1, (0, 0), (0, 0)),
        (0, (0, 1), (12, 0)),
        (2, (0, 1), (12, 0)),
        (0x101, (0, 1), (12, 0)),
        (u32::MAX, (0, 1), (12, 0)),
    ] {
        for (is_signed, expected) in [(true, signed), (false, unsigned)] {
            let mut scene = typed(16);
            if is_signed {
                scene.sign(9);
            }
            scene.set_record(9, MARK, mark);
            assert_eq!(hashed(&mut scene, MapL2, &[0x104, 0, 0x109, 5]), expected, "mark {mark:#x}");
            assert_eq!(scene.record(9, MARK), if expected.0 == 0 { 1 } else { mark });
        }
    }
}

/// A section with three of its blocks marked; a large page; 1,024 pages of one block.
#[test]
fn different_blocks_are_counted() {
    let mut scene = typed(512);
    scene.sign_all_zeros();
    [256, 300, 511].into_iter().for_each(|position| scene.set_record(position, MARK, 1));
    assert_eq!(hashed(&mut scene, MapL1, &[0x100, 0, 0x200, 5]), (0, 253));
    assert_eq!(marks(&scene), marked(512, &(256..512).collect::<Vec<usize>>()));
    assert_eq!(hashed(&mut scene, MapL1, &[0x100, 1, 0x200, 5]), (0, 0));
    assert_eq!(hashed(&mut scene, MapLarge, &[0x104, 16, 0x110, 5]), (0, 16));
    let mut scene = Scene::new(0x100, 16);
    scene.sign_all_zeros();
    (0..1024).for_each(|index| scene.put(8, index, scene.mapping(9, PAGE_EXECUTE)));
    assert_eq!(hashed(&mut scene, CreateL2, &[0x108]), (0, 1));
    assert_eq!(marks(&scene), marked(16, &[9]));
}

/// 13 comes after 12: what was hashed then counts for nothing.
#[test]
fn a_refusal_after_hashing_leaves_the_marks() {
    let mut scene = typed(16);
    scene.sign(9);
    scene.set_record(9, X, 1 << 22);
    scene.set_record(9, MARK, 7);
    assert_eq!(hashed(&mut scene, MapL2, &[0x104, 0, 0x109, 5]), (13, 0));
    assert_eq!(scene.record(9, MARK), 7);
}

/// Each write of the monitor clears the mark of its holder, of an L1 table's four blocks that of one. A fault's unmap writes too.
#[test]
fn the_monitor_unmarks_what_it_writes() {
    let calls: [(Kind, &[u32], usize); 9] = [
        (MapL2, &[0x104, 3, 0x109, 1], 4),
        (UnmapL2, &[0x104, 3], 4),
        (UnmapL2, &[0x104, 700], 4),
        (MapLarge, &[0x104, 32, 0x110, 0], 4),
        (UnmapLarge, &[0x104, 32], 4),
        (Link, &[0x100, 1023, 0x104, 0], 0),
        (UnmapL1, &[0x100, 1024], 1),
        (MapL1, &[0x100, 2048, 0x100, 1], 2),
        (UnmapL1, &[0x100, 4095], 3),
    ];
    let mut scene = typed(256);
    for (kind, arguments, holder) in calls {
        scene.set_marks(0..256, 1);
        assert_eq!(hashed(&mut scene, kind, arguments), (0, 0), "{kind:?}");
        let others: Vec<usize> = (0..256).filter(|position| *position != holder).collect();
        assert_eq!(marks(&scene), marked(256, &others), "{kind:?}");
    }
}

/// The guest's write clears the mark of its block, also by the byte that stood there, and no access clears another.
#[test]
fn the_guest_unmarks_what_it_writes() {
    let mut scene = typed(16);
    scene.activate(0);
    scene.put(0, 0, scene.link(4, 0));
    scene.put(4, 5, scene.mapping(8, PAGE_WRITE));
    scene.put(4, 6, scene.mapping(9, PAGE_READ));
    let all: Vec<usize> = (0..16).collect();
    let but_8: Vec<usize> = (0..16).filter(|position| *position != 8).collect();
    let calls: [(Kind, &[u32], u32, &[usize]); 6] = [
        (Write, &[0x5000, 0], 0, &but_8),
        (Write, &[0x5FFF, 9], 0, &but_8),
        (Write, &[0x6000, 9], 23, &all),
        (Write, &[0x7000, 9], 22, &all),
        (Read, &[0x5000], 0, &all),
        (Fetch, &[0x6000], 23, &all),
    ];
    for (kind, arguments, expected, left) in calls {
        scene.set_marks(0..16, 1);
        assert_eq!(answer(&mut scene, kind, arguments), expected);
        assert_eq!(marks(&scene), marked(16, left), "{kind:?} {arguments:x?}");
    }
}

/// Create marks what it executes, itself too; free and switch leave the marks, and begin clears them, of the same region too.
#[test]
fn tables_and_marks() {
    let mut scene = Scene::new(0x100, 16);
    scene.put(8, 77, scene.mapping(8, PAGE_EXECUTE));
    scene.put(8, 78, scene.mapping(9, PAGE_WRITE));
    scene.sign(8);
    scene.set_record(9, MARK, 1);
    assert_eq!(hashed(&mut scene, CreateL2, &[0x108]), (0, 1));
    assert_eq!(marks(&scene), marked(16, &[8, 9]));
    assert_eq!(answer(&mut scene, CreateL1, &[0x100]), 0);
    assert_eq!(answer(&mut scene, Switch, &[0x100]), 0);
    assert_eq!(answer(&mut scene, FreeL2, &[0x108]), 0);
    assert_eq!(marks(&scene), marked(16, &[8, 9]));
    assert_eq!(answer(&mut scene, Begin, &[0x100]), 0);
    assert_eq!(marks(&scene), marked(16, &[]));
}

#[test]
fn forgotten_blocks() {
    for (block, count, expected, kept) in [
        (0x100, 16, 0, 0..0),
        (0x100, 15, 0, 15..16),
        (0x101, 15, 0, 0..1),
        (0x101, 16, 2, 0..16),
        (0xFF, 1, 2, 0..16),
        (0x110, 1, 2, 0..16),
        (0x110, 0, 0, 0..16),
        (0, 0, 0, 0..16),
        (u32::MAX, 0, 0, 0..16),
        (u32::MAX, 2, 2, 0..16),
        (0x100, u32::MAX, 2, 0..16),
        (0x101, u32::MAX, 2, 0..16),
        (u32::MAX, u32::MAX, 2, 0..16),
    ] {
        let mut scene = typed(16);
        scene.set_marks(0..16, 1);
        assert_eq!(hashed(&mut scene, Forget, &[block, count]), (expected, 0), "{count} from {block:#x}");
        assert_eq!(marks(&scene), marked(16, &kept.collect::<Vec<usize>>()), "{count} from {block:#x}");
        let mut long = typed(16);
        long.store.ledger.push(0);
        assert_eq!(answer(&mut long, Forget, &[block, count]), 1);
    }
}

/// A refused read gives 0, a write stores the low 8 bits only.
#[test]
fn guest_bytes() {
    let mut scene = typed(16);
    scene.activate(0);
    scene.put(0, 0, scene.link(4, 0));
    scene.put(4, 5, scene.mapping(8, PAGE_WRITE));
    let mut given = |kind, arguments: &[u32]| {
        let Given { answer, byte, .. } = Reference::new().perform(Call::new(kind, arguments), &mut scene.store);
        (answer, byte)
    };
    assert_eq!(given(Write, &[0x5001, 0x1234_5678]), (0, 0));
    assert_eq!(given(Read, &[0x5001]), (0, 0x78));
    assert_eq!(given(Fetch, &[0x5001]), (23, 0));
    assert_eq!(given(Read, &[0x6001]), (22, 0));
    assert_eq!(scene.store.memory[8 * BLOCK..8 * BLOCK + 4], [0, 0x78, 0, 0]);
}

/// Fault registers with these words where a fault tells, and else as they were.
fn told(status_at: usize, status: u32, address: u32) -> Vec<u8> {
    let mut registers = old_registers();
    put_word(&mut registers, status_at, status);
    put_word(&mut registers, status_at + 4, address);
    registers[PENDING] = 1;
    registers
}

/// Entry 0 of an active table links to an L2 table with a page and a large page, entry 1 is a section, and none of these gives a right.
fn without_rights() -> Scene {
    let mut scene = typed(512);
    scene.activate(0);
    scene.put(0, 0, scene.link(4, 0));
    scene.put(0, 1, scene.mapping(256, SECTION_NONE));
    scene.put(4, 5, scene.mapping(8, PAGE_NONE));
    scene.put_run(4, 16, scene.mapping(16, LARGE_NONE));
    scene
}

/// registers 5: no entry of either level, then a section, a page and a large page that lack the right.
#[test]
fn statuses() {
    let scene = without_rights();
    for (address, expected, status) in [
        (0x0020_0000, 22, 0x005),
        (u32::MAX, 22, 0x005),
        (0x0000_0000, 22, 0x007),
        (0x0000_6FFF, 22, 0x007),
        (0x0012_3456, 23, 0x00D),
        (0x0000_5001, 23, 0x00F),
        (0x0001_0000, 23, 0x00F),
        (0x0001_FFFF, 23, 0x00F),
    ] {
        for (kind, status_at, of_write) in [(Read, DFSR, 0), (Write, DFSR, 0x800), (Fetch, IFSR, 0)] {
            let mut scene = scene.clone();
            assert_eq!(answer(&mut scene, kind, &[address]), expected, "{kind:?} {address:#x}");
            assert_eq!(scene.store.registers, told(status_at, status | of_write, address), "{kind:?} {address:#x}");
        }
    }
}

/// A write without an entry, byte for byte, and then a fetch without the right.
#[test]
fn bytes_of_fault_registers() {
    let mut scene = without_rights();
    scene.store.registers = vec![0; REGISTERS_BYTES];
    assert_eq!(answer(&mut scene, Write, &[0x1234_5678, 9]), 22);
    let [data, none] = [[0x05, 0x08, 0, 0, 0x78, 0x56, 0x34, 0x12], [0; 8]];
    assert_eq!(scene.store.registers, [&data[..], &none, &[1]].concat());
    assert_eq!(answer(&mut scene, Fetch, &[0x0000_5ABC]), 23);
    assert_eq!(scene.store.registers, [&data[..], &[0x0F, 0, 0, 0, 0xBC, 0x5A, 0, 0], &[1]].concat());
}

/// 0, 1, 21 and 24 leave them, as does a number of bytes that is not 17.
#[test]
fn fault_registers_that_stay() {
    let mut scene = without_rights();
    scene.put(4, 5, scene.mapping(8, PAGE_ALL));
    scene.put(0, 3, 3);
    for (address, expected) in [(0x5000, 0), (0x0030_0000, 24)] {
        for kind in [Read, Write, Fetch] {
            assert_eq!(answer(&mut scene, kind, &[address]), expected);
            assert_eq!(scene.store.registers, old_registers());
        }
    }
    for (active, length, expected) in [(NO_TABLE, 17, 21), (0x100, 16, 1), (0x100, 18, 1), (NO_TABLE, 0, 1)] {
        for (kind, address) in [(Read, 0x5000), (Write, 0x0020_0000), (Fetch, 0x0030_0000)] {
            let mut scene = scene.clone();
            scene.set_active(active);
            scene.store.registers.resize(length, 1);
            let before = scene.store.registers.clone();
            assert_eq!(answer(&mut scene, kind, &[address]), expected, "{length} bytes");
            assert_eq!(scene.store.registers, before);
        }
    }
}

/// The pending byte is given as it is, and cleared; a second time it is 0. Of 16 or 18 bytes nothing is given.
#[test]
fn acknowledges() {
    for (length, pending, expected) in
        [(17, 0, 0), (17, 1, 0), (17, 7, 0), (17, 255, 0), (16, 1, 1), (18, 1, 1), (0, 1, 1)]
    {
        let mut scene = Scene::new(0x100, 8);
        scene.store.registers = old_registers();
        scene.store.registers[PENDING] = pending;
        scene.store.registers.resize(length, 1);
        let (mut left, is_accepted) = (scene.store.clone(), expected == 0);
        if is_accepted {
            left.registers[PENDING] = 0;
        }
        for byte in [if is_accepted { pending } else { 0 }, 0] {
            let given = Reference::new().perform(Call::new(Acknowledge, &[]), &mut scene.store);
            assert_eq!((given.answer, given.byte), (expected, byte), "{length} bytes, pending {pending}");
            assert!(scene.store == left, "{length} bytes, pending {pending}");
        }
    }
}

#[test]
fn tables_have_four_blocks_or_one() {
    assert_eq!((Level::L1.blocks(), Level::L1.entries()), (4, 4096));
    assert_eq!((Level::L2.blocks(), Level::L2.entries()), (1, 1024));
}

#[test]
fn published_digests() {
    let hexadecimal =
        |message: &[u8]| -> String { Sha256::new().digest(message).iter().map(|byte| format!("{byte:02x}")).collect() };
    assert_eq!(hexadecimal(b""), "e3b0c44298fc1c149afbf4c8996fb92427ae41e4649b934ca495991b7852b855");
    assert_eq!(hexadecimal(b"abc"), "ba7816bf8f01cfea414140de5dae2223b00361a396177a9cb410ff61f20015ad");
    assert_eq!(
        hexadecimal(b"abcdbcdecdefdefgefghfghighijhijkijkljklmklmnlmnomnopnopq"),
        "248d6a61d20638b8e5c026930c3e6039a33ce45964ff2167f6ecedd419db06c1"
    );
    assert_eq!(hexadecimal(&vec![b'a'; 1_000_000]), "cdc76e5c9914fb9281a1c7e284d73e67f1809a48a497200e046d39ccc7112cd0");
}
