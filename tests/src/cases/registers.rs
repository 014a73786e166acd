//! The fault registers: what each fault of an access tells, what every other answer leaves, numbers of bytes that are not 17, and acknowledge.
use super::guest::{random_word, tables};
use super::scene::*;
use crate::bytes::put_word;
use crate::compare::{difference, Comparer, Outcome};
use crate::monitor::{own, Call, Kind, Store, DFAR, DFSR, IFAR, IFSR, NO_TABLE, PENDING, REGISTERS_BYTES};
use crate::random::Random;
use std::rc::Rc;
use Kind::*;

/// Both ends of the address range, of a page and of an L1 entry's part, and others.
const ADDRESSES: [u32; 7] = [0, u32::MAX, 0x1234_5678, 0x8000_0FFF, 0x000F_F001, 0xFEDC_B000, 0x0080_000A];

/// Numbers of bytes that are not 17; of some the low bits are.
const LENGTHS: [usize; 14] = [0, 1, 4, 8, 15, 16, 18, 19, 20, 21, 33, 34, 17 + 256, 17 + 65536];

/// The rights of an entry, and its low bits as a section's, a page's and a large page's.
const RIGHTS: [(u32, u32, u32, u32); 5] = [
    (0, SECTION_NONE, PAGE_NONE, LARGE_NONE),
    (1, SECTION_READ, PAGE_READ, LARGE_READ),
    (3, SECTION_WRITE, PAGE_WRITE, LARGE_WRITE),
    (5, SECTION_EXECUTE, PAGE_EXECUTE, LARGE_EXECUTE),
    (7, SECTION_ALL, PAGE_ALL, LARGE_ALL),
];

/// Read, write or fetch.
pub fn run(kind: Kind, comparer: &mut Comparer) -> Outcome {
    told_or_left(kind, comparer)?;
    wrong_lengths(kind, comparer)?;
    sequence(comparer)?;
    random_accesses(kind, comparer)
}

pub fn acknowledge(comparer: &mut Comparer) -> Outcome {
    every_pending_byte(comparer)?;
    wrong_lengths_acknowledged(comparer)?;
    sequence(comparer)
}

/// Where an access leads.
struct Way {
    name: String,
    scene: Scene,
    answer: u32,
    /// The status that a read or fetch tells then, if the answer is a fault.
    status: Option<u32>,
}

fn way(name: &str, scene: Scene, answer: u32, status: Option<u32>) -> Way {
    Way { name: name.to_string(), scene, answer, status }
}

/// What a fault leaves of fault registers. The status is that of a read or fetch; a write's has bit 11 too.
fn told(kind: Kind, before: &[u8], status: u32, address: u32) -> Vec<u8> {
    let mut left = before.to_vec();
    let (status_at, address_at) = if kind == Fetch { (IFSR, IFAR) } else { (DFSR, DFAR) };
    put_word(&mut left, status_at, if kind == Write { status | 0x800 } else { status });
    put_word(&mut left, address_at, address);
    left[PENDING] = 1;
    left
}

fn call(kind: Kind, address: u32) -> Call {
    Call::new(kind, &[address, 0x1A5][..kind.arity()])
}

/// An access that answers so and leaves these fault registers. If it is refused, it gives 0, and memory and ledger stay.
fn check(comparer: &mut Comparer, name: &str, call: Call, store: &mut Store, answer: u32, registers: &[u8]) -> Outcome {
    let (memory, ledger) = (store.memory.clone(), store.ledger.clone());
    let given = comparer.step(name, call, store)?;
    if given.answer != answer {
        return Err(difference(name, call, format!("answer {}, expected {answer}", given.answer)));
    }
    if store.registers != registers {
        return Err(difference(name, call, format!("registers {:02x?}, expected {registers:02x?}", store.registers)));
    }
    if answer != 0 && (given.byte != 0 || store.memory != memory || store.ledger != ledger) {
        return Err(difference(name, call, "a refusal gave a byte or changed memory or ledger".to_string()));
    }
    Ok(())
}

/// Zeros, ones, bytes that all differ, and any, with pending bytes of every sort.
fn contents() -> Vec<Vec<u8>> {
    let mut random = Random::new(100);
    let mut all = Vec::new();
    for (content, pending) in [
        (vec![0; REGISTERS_BYTES], 0),
        (vec![0; REGISTERS_BYTES], 1),
        (vec![0xFF; REGISTERS_BYTES], 255),
        (vec![0xFF; REGISTERS_BYTES], 0),
        (old_registers(), 7),
        (old_registers(), 1),
        (random.bytes(REGISTERS_BYTES), 0),
        (random.bytes(REGISTERS_BYTES), 7),
    ] {
        let mut content = content;
        content[PENDING] = pending;
        all.push(content);
    }
    all
}

/// The L1 index and the L2 index of an address.
fn indices(address: u32) -> (usize, usize) {
    (address as usize >> 20, address as usize >> 12 & 0xFF)
}

/// An L1 entry that links to the last L2 table, in a region of so many blocks.
fn linked(blocks: usize, address: u32) -> Scene {
    let mut scene = tables(blocks);
    scene.put(4, indices(address).0, scene.link(8, 3));
    scene
}

/// A link and an L2 entry.
fn paged(address: u32, word: impl Fn(&Scene) -> u32) -> Scene {
    let mut scene = linked(16, address);
    scene.put(8, 768 + indices(address).1, word(&scene));
    scene
}

fn section(address: u32, low: u32) -> Scene {
    let mut scene = tables(256);
    scene.put(4, indices(address).0, scene.mapping(0, low));
    scene
}

fn page(address: u32, low: u32) -> Scene {
    paged(address, |scene| scene.mapping(10, low))
}

fn large_page(address: u32, low: u32) -> Scene {
    let mut scene = linked(32, address);
    scene.put_run(8, 768 + indices(address).1 / 16 * 16, scene.mapping(16, low));
    scene
}

/// Every way of an access to this address.
fn ways(kind: Kind, address: u32) -> Vec<Way> {
    let mut ways = vec![
        way("no entry in L1", tables(16), 22, Some(0x005)),
        way("no entry in L2", linked(16, address), 22, Some(0x007)),
    ];
    for (rights, of_section, of_page, of_large) in RIGHTS {
        let needed = match kind {
            Read => 1,
            Write => 2,
            _ => 4,
        };
        let (answer, is_fault) = if rights & needed != 0 { (0, false) } else { (23, true) };
        let mut mapped = |name: &str, scene: Scene, status: u32| {
            ways.push(way(&format!("{name} with rights {rights}"), scene, answer, is_fault.then_some(status)));
        };
        mapped("a section", section(address, of_section), 0x00D);
        mapped("a page", page(address, of_page), 0x00F);
        mapped("a large page", large_page(address, of_large), 0x00F);
    }
    ways.extend(without_table());
    ways.extend(broken_walks(address));
    ways.extend(misfits(address));
    ways
}

fn without_table() -> Vec<Way> {
    let active = |word: u32| {
        let mut scene = tables(16);
        scene.set_active(word);
        way(&format!("active {word:#x}"), scene, 21, None)
    };
    [NO_TABLE, 0x306, 0x310, 0].map(active).into()
}

fn broken_walks(address: u32) -> Vec<Way> {
    let first = |word: u32| {
        let mut scene = tables(16);
        scene.put(4, indices(address).0, word);
        way(&format!("L1 word {word:#x}"), scene, 24, None)
    };
    let second = |word: u32| way(&format!("L2 word {word:#x}"), paged(address, |_| word), 24, None);
    let firsts = [3, 0x0030_8005, 0x0031_0001, 0x0030_0000 | SECTION_NONE, 0x0040_0000 | SECTION_READ].map(first);
    let seconds = [0x0030_A202, 0x0031_0000 | PAGE_NONE, 0x0030_0000 | LARGE_READ, 0xFFFF_FFFF].map(second);
    firsts.into_iter().chain(seconds).collect()
}

/// Refusal 1, for an access that would be accepted, and for one that would fault.
fn misfits(address: u32) -> Vec<Way> {
    let mut ways = Vec::new();
    for (name, scene) in [("a page", page(address, PAGE_ALL)), ("no entry", tables(16))] {
        let spoilt = |what: &str, spoil: fn(&mut Scene)| {
            let mut scene = scene.clone();
            spoil(&mut scene);
            way(&format!("{name}, {what}"), scene, 1, None)
        };
        ways.push(spoilt("a short ledger", |scene| scene.store.ledger.truncate(40)));
        ways.push(spoilt("a long memory", |scene| Rc::make_mut(&mut scene.store.memory).push(0)));
        ways.push(spoilt("an odd B", |scene| put_word(&mut scene.store.ledger, 0, 0x301)));
        ways.push(spoilt("an unlawful kind", |scene| scene.set_kind(7, 0x80)));
    }
    ways
}

/// Each way with each content: a fault tells itself, and every other answer leaves all fault registers.
fn told_or_left(kind: Kind, comparer: &mut Comparer) -> Outcome {
    let contents = contents();
    for address in ADDRESSES {
        for Way { name, scene, answer, status } in ways(kind, address) {
            for before in &contents {
                let left = status.map_or(before.clone(), |status| told(kind, before, status, address));
                let mut store = Store { registers: before.clone(), ..scene.store.clone() };
                check(comparer, &name, call(kind, address), &mut store, answer, &left)?;
            }
        }
    }
    Ok(())
}

/// Whatever the access would have been answered, it is refused with 1, and nothing changes.
fn wrong_lengths(kind: Kind, comparer: &mut Comparer) -> Outcome {
    let mut random = Random::new(101);
    for address in [0, 0x1234_5678] {
        for Way { name, scene, .. } in ways(kind, address) {
            for length in LENGTHS {
                let before = random.bytes(length);
                let name = format!("{name}, {length} bytes of fault registers");
                let mut store = Store { registers: before.clone(), ..scene.store.clone() };
                check(comparer, &name, call(kind, address), &mut store, 1, &before)?;
            }
        }
    }
    Ok(())
}

/// Accesses of all sorts and acknowledges, each lent what the one before it left.
fn sequence(comparer: &mut Comparer) -> Outcome {
    let mut scene = linked(16, 0);
    scene.put(8, 768 + 5, scene.mapping(10, PAGE_READ));
    scene.put(8, 768 + 6, scene.mapping(11, PAGE_WRITE));
    // A call, its address, and its answer with the status that it tells; of an acknowledge the byte that it gives.
    let steps = [
        (Read, 0x0010_0123, 22, Some(0x005)),
        (Read, 0x0000_5000, 0, None),
        (Fetch, 0x0000_5004, 23, Some(0x00F)),
        (Write, 0x0000_6000, 0, None),
        (Acknowledge, 0, 1, None),
        (Acknowledge, 0, 0, None),
        (Write, 0x0000_5008, 23, Some(0x00F)),
        (Write, 0x0000_7FFF, 22, Some(0x007)),
        (Acknowledge, 0, 1, None),
        (Read, 0x0000_5001, 0, None),
        (Acknowledge, 0, 0, None),
        (Fetch, 0xFFFF_FFFF, 22, Some(0x005)),
        (Read, 0x0000_8000, 22, Some(0x007)),
        (Fetch, 0x0000_6002, 23, Some(0x00F)),
        (Acknowledge, 0, 1, None),
    ];
    scene.store.registers = vec![0; REGISTERS_BYTES];
    let store = &mut scene.store;
    for (number, (kind, address, answer_or_byte, status)) in steps.into_iter().enumerate() {
        let name = format!("a sequence, step {number}");
        let before = store.registers.clone();
        if kind == Acknowledge {
            acknowledged(comparer, &name, store, answer_or_byte as u8)?;
        } else {
            let left = status.map_or(before.clone(), |status| told(kind, &before, status, address));
            check(comparer, &name, call(kind, address), store, answer_or_byte, &left)?;
        }
    }
    Ok(())
}

/// Tables of words that are near to accepted ones, and any fault registers.
fn random_accesses(kind: Kind, comparer: &mut Comparer) -> Outcome {
    let mut random = Random::new(102);
    for _ in 0..150 {
        let blocks = 16 + random.below(9);
        let mut scene = Scene::new(256 * random.below(4) as u32, blocks);
        scene.activate(4 * random.below(3));
        for _ in 0..300 {
            let word = random_word(&scene, &mut random);
            scene.put(random.below(12), random.below(8), word);
        }
        for _ in 0..8 {
            let address = (random.below(8) << 20 | random.below(8) << 12 | random.below(4096)) as u32;
            scene.store.registers = random_registers(&mut random);
            let arguments = [address, random.next() as u32];
            comparer.check(scene.case("random tables and fault registers", kind, &arguments[..kind.arity()]))?;
        }
    }
    Ok(())
}

/// An acknowledge that is accepted: it gives this byte, and only the pending byte changes.
fn acknowledged(comparer: &mut Comparer, name: &str, store: &mut Store, pending: u8) -> Outcome {
    let mut left = store.clone();
    left.registers[PENDING] = 0;
    let call = Call::new(Acknowledge, &[]);
    let given = comparer.step(name, call, store)?;
    if (given.answer, given.byte) != (0, pending) {
        return Err(difference(
            name,
            call,
            format!("answer {}, byte {}, expected {pending}", given.answer, given.byte),
        ));
    }
    if *store != left {
        return Err(difference(name, call, "another byte than the pending byte changed".to_string()));
    }
    Ok(())
}

/// Every pending byte over every content, acknowledged twice. What lies in memory and ledger does not matter.
fn every_pending_byte(comparer: &mut Comparer) -> Outcome {
    let mut random = Random::new(103);
    for content in contents() {
        for pending in 0..=255 {
            let mut scene = Scene::new(0x100, 8);
            let length = random.below(300);
            scene.store.ledger = random.bytes(length);
            own(&mut scene.store.memory)[..8].copy_from_slice(&random.bytes(8));
            scene.store.registers.copy_from_slice(&content);
            scene.store.registers[PENDING] = pending;
            acknowledged(comparer, &format!("pending {pending}"), &mut scene.store, pending)?;
            acknowledged(comparer, &format!("pending {pending}, a second time"), &mut scene.store, 0)?;
        }
    }
    Ok(())
}

/// Another number of bytes: refused, the byte given is 0, and nothing changes.
fn wrong_lengths_acknowledged(comparer: &mut Comparer) -> Outcome {
    let mut random = Random::new(104);
    for length in LENGTHS {
        for round in 0..8 {
            let mut scene = Scene::new(0x100, 8);
            scene.store.registers = match round {
                0 => vec![0; length],
                1 => vec![1; length],
                _ => random.bytes(length),
            };
            let (mut left, call) = (scene.store.clone(), Call::new(Acknowledge, &[]));
            let name = format!("{length} bytes");
            let given = comparer.step(&name, call, &mut left)?;
            if (given.answer, given.byte) != (1, 0) || left != scene.store {
                let what = format!("answer {}, byte {}, or a byte changed", given.answer, given.byte);
                return Err(difference(&name, call, what));
            }
        }
    }
    Ok(())
}
