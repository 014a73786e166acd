//! What is measured: a prepared memory and ledger, and a batch of calls of one kind, all with the same answer.
use crate::baseline::COUNT;
use crate::digest::block_digest;
use crate::program::{Buffers, Given, Plain, Program};
use calls::random::Random;
use calls::{ledger_bytes, Kind, BLOCK, KINDS_BYTES, NUMBERS, REGISTERS_BYTES};
use Kind::*;

/// The region's first block.
pub const FIRST: u32 = 0x1000;

/// The tables of every workload lie in these blocks, the data behind them.
pub const TABLE_BLOCKS: usize = 16;
const L1_TABLE: u32 = FIRST;
const OTHER_L1_TABLE: u32 = FIRST + 4;
const L2_BLOCK: u32 = FIRST + 8;
const OTHER_L2_BLOCK: u32 = FIRST + 9;
const DATA: u32 = FIRST + TABLE_BLOCKS as u32;

const SECTION_BLOCKS: usize = 256;
const LARGE_BLOCKS: u32 = 16;
const READ_ONLY: u32 = 1;
const READ_WRITE: u32 = 3;
const READ_EXECUTE: u32 = 5;

/// The calls of a batch of cheap ones, the pages that a guest's accesses go to, and the executable targets.
const MANY: u32 = 1024;
const GUEST_PAGES: u32 = 32;
const TARGETS: u32 = 64;

pub struct Batch {
    pub kind: Kind,
    pub words: Vec<[u32; NUMBERS]>,
    /// The answer of each of its calls.
    pub answer: u32,
    /// How many blocks all of them hash.
    pub hashed: u32,
}

impl Batch {
    fn hashing(self, blocks: u32) -> Batch {
        Batch { hashed: blocks, ..self }
    }
}

pub struct Workload {
    pub name: &'static str,
    /// The smallest region in which it can be made, in blocks.
    pub least: usize,
    pub make: fn(&mut Scene) -> Batch,
}

/// Lent buffers on the way to a workload's start.
pub struct Scene {
    pub lent: Buffers,
    pub blocks: usize,
}

impl Scene {
    /// A memory of zeros after begin, and an empty golden image.
    pub fn new(blocks: usize) -> Scene {
        let lent = Buffers {
            memory: vec![0; BLOCK * blocks],
            ledger: vec![0; ledger_bytes(blocks)],
            golden: Vec::new(),
            kinds: (0..KINDS_BYTES as u8).map(|i| if i % 2 == 0 { 9 * i } else { 0 }).collect(),
            registers: vec![0; REGISTERS_BYTES],
            scratch: vec![0; COUNT * blocks],
        };
        let mut scene = Scene { lent, blocks };
        scene.accepted(Begin, &[[FIRST, 0, 0, 0]]);
        scene
    }

    fn accepted<const N: usize>(&mut self, kind: Kind, words: &[[u32; N]]) {
        let note = |given: Given| assert!(given.answer == 0, "{kind:?} answers {}", given.answer);
        Plain::batch(kind, &padded(words), &mut self.lent, note);
    }

    fn put_entry(&mut self, block: u32, index: u32, word: u32) {
        let at = BLOCK * (block - FIRST) as usize + 4 * index as usize;
        self.lent.memory[at..at + 4].copy_from_slice(&word.to_le_bytes());
    }

    /// The i-th data block, from the first again after the last.
    fn data(&self, i: u32) -> u32 {
        DATA + i % (self.blocks - TABLE_BLOCKS) as u32
    }

    /// The first of the i-th sixteen data blocks, from the first again after the last.
    fn sixteen(&self, i: u32) -> u32 {
        DATA + LARGE_BLOCKS * (i % ((self.blocks - TABLE_BLOCKS) as u32 / LARGE_BLOCKS))
    }

    /// The i-th section without tables.
    fn section(&self, i: u32) -> u32 {
        FIRST + SECTION_BLOCKS as u32 * (1 + i % (self.blocks / SECTION_BLOCKS - 1) as u32)
    }

    fn tables(&mut self) {
        self.accepted(CreateL1, &[[L1_TABLE, 0, 0, 0], [OTHER_L1_TABLE, 0, 0, 0]]);
        self.accepted(CreateL2, &[[L2_BLOCK, 0, 0, 0], [OTHER_L2_BLOCK, 0, 0, 0]]);
    }

    /// Different contents of the executable targets, and an image of 1,024 digests with theirs at its end.
    fn sign_targets(&mut self) {
        let others = (0..1024 - TARGETS).flat_map(|i| block_digest(i, &[0xFF; BLOCK]));
        self.lent.golden = others.collect();
        for i in 0..TARGETS {
            let at = BLOCK * (DATA - FIRST + i) as usize;
            let contents = [i as u8 + 1; BLOCK];
            self.lent.memory[at..at + BLOCK].copy_from_slice(&contents);
            self.lent.golden.extend(block_digest(DATA + i, &contents));
        }
    }

    /// Pages through which a guest reaches data blocks, in the active table.
    fn guest_pages(&mut self, rights: u32) {
        self.tables();
        self.accepted(Link, &[[L1_TABLE, 0, L2_BLOCK, 0]]);
        self.sign_zeros(DATA, GUEST_PAGES);
        let words: Vec<_> = (0..GUEST_PAGES).map(|i| [L2_BLOCK, i, DATA + i, rights]).collect();
        self.accepted(MapL2, &words);
        self.accepted(Switch, &[[L1_TABLE, 0, 0, 0]]);
    }

    fn written_pages(&mut self) {
        for i in 0..1024 {
            self.put_entry(L2_BLOCK, i, self.data(i) << 12 | 0x03F);
        }
    }

    /// Pages of all memory kinds that give nothing, read, or read and write, in no order.
    fn written_mixed_pages(&mut self) {
        let mut random = Random::new(1);
        for i in 0..1024 {
            let access = random.one_of(&[0x013, 0x023, 0x033, 0x213, 0x223, 0x233]);
            let kind = random.next() as u32 & 0x1CC;
            self.put_entry(L2_BLOCK, i, self.data(i) << 12 | kind | access);
        }
    }

    fn written_sections_and_links(&mut self) {
        self.accepted(CreateL2, &[[L2_BLOCK, 0, 0, 0]]);
        for i in 0..16 {
            let section = FIRST + SECTION_BLOCKS as u32 * (i % (self.blocks / SECTION_BLOCKS) as u32);
            self.put_entry(L1_TABLE, 16 * i, section << 12 | 0x81E);
        }
        for i in 0..64 {
            self.put_entry(L1_TABLE, 1024 + i, (4 * L2_BLOCK + i % 4) << 10 | 1);
        }
    }

    /// The words of a whole table, entry by entry.
    fn written(&mut self, block: u32, entries: u32, word: impl Fn(&Scene, u32) -> u32) {
        for i in 0..entries {
            let word = word(self, i);
            self.put_entry(block, i, word);
        }
    }

    fn pages(&mut self, word: impl Fn(&Scene, u32) -> u32) -> Vec<[u32; 4]> {
        self.written(L2_BLOCK, 1024, word);
        vec![[L2_BLOCK, 0, 0, 0]]
    }

    fn sections(&mut self, word: impl Fn(&Scene, u32) -> u32) -> Vec<[u32; 4]> {
        self.written(L1_TABLE, 4096, word);
        vec![[L1_TABLE, 0, 0, 0]]
    }

    /// Signs zeros in this many blocks from the first on, and nothing else.
    fn sign_zeros(&mut self, first: u32, blocks: u32) {
        let numbers = first..first + blocks;
        self.lent.golden = numbers.flat_map(|number| block_digest(number, &[0; BLOCK])).collect();
    }

    /// Signs zeros in the first section without tables, and nothing else.
    fn sign_section(&mut self) {
        self.sign_zeros(self.section(0), SECTION_BLOCKS as u32);
    }

    /// Executable pages, in turn of each target.
    fn written_targets(&mut self, pages: u32) {
        self.sign_targets();
        for i in 0..pages {
            self.put_entry(L2_BLOCK, i, (DATA + i % TARGETS) << 12 | 0x02E);
        }
    }

    /// Executable pages of all targets in the other L2 block, so that the targets are marked.
    fn mark_targets(&mut self) {
        let words: Vec<_> = (0..TARGETS).map(|i| [OTHER_L2_BLOCK, i, DATA + i, READ_EXECUTE]).collect();
        self.accepted(MapL2, &words);
    }
}

/// The words of a page, a large page and a section with some rights.
fn page(block: u32, rights: u32) -> u32 {
    let access = match rights {
        READ_ONLY => 0x02F,
        READ_WRITE => 0x03F,
        _ => 0x02E,
    };
    block << 12 | access
}

fn large_page(first: u32, rights: u32) -> u32 {
    let access = match rights {
        READ_ONLY => 0x802D,
        READ_WRITE => 0x803D,
        _ => 0x002D,
    };
    first << 12 | access
}

fn section(first: u32, rights: u32) -> u32 {
    let access = match rights {
        READ_ONLY => 0x81E,
        READ_WRITE => 0xC1E,
        _ => 0x80E,
    };
    first << 12 | access
}

/// Words with zeros behind them.
fn padded<const N: usize>(words: &[[u32; N]]) -> Vec<[u32; NUMBERS]> {
    words.iter().map(|words| std::array::from_fn(|i| words.get(i).copied().unwrap_or(0))).collect()
}

/// A batch of accepted calls that hash nothing.
fn accepted<const N: usize>(kind: Kind, words: Vec<[u32; N]>) -> Batch {
    Batch { kind, words: padded(&words), answer: 0, hashed: 0 }
}

/// A batch of calls that are refused with this number.
fn refused<const N: usize>(kind: Kind, words: Vec<[u32; N]>, answer: u32) -> Batch {
    Batch { kind, words: padded(&words), answer, hashed: 0 }
}

/// The addresses of a guest's accesses.
fn guest_addresses() -> Vec<[u32; 4]> {
    (0..MANY).map(|i| [(i % GUEST_PAGES) * 4096 + (97 * i) % 4096, i, 0, 0]).collect()
}

fn page_maps(scene: &Scene) -> Vec<[u32; 4]> {
    (0..1024).map(|i| [L2_BLOCK, i, scene.data(i), READ_WRITE]).collect()
}

fn large_maps(scene: &Scene, rights: u32) -> Vec<[u32; 4]> {
    (0..64).map(|i| [L2_BLOCK, LARGE_BLOCKS * i, scene.sixteen(i), rights]).collect()
}

fn section_maps(scene: &Scene) -> Vec<[u32; 4]> {
    (0..64).map(|i| [L1_TABLE, i, scene.section(i), READ_WRITE]).collect()
}

fn links() -> Vec<[u32; 4]> {
    (0..MANY).map(|i| [L1_TABLE, 4 * i, L2_BLOCK, i % 4]).collect()
}

const fn workload(name: &'static str, least: usize, make: fn(&mut Scene) -> Batch) -> Workload {
    Workload { name, least, make }
}

/// Calls that hash nothing.
pub static CALLS: [Workload; 53] = [
    workload("begin", 64, |_| accepted(Begin, vec![[FIRST, 0, 0, 0]; 64])),
    workload("begin with kinds", 64, |_| accepted(BeginKinds, vec![[FIRST]; 64])),
    workload("create L1, empty", 64, |_| accepted(CreateL1, vec![[L1_TABLE, 0, 0, 0]])),
    workload("create L1, 16 sections, 64 links", 512, |scene| {
        scene.written_sections_and_links();
        accepted(CreateL1, vec![[L1_TABLE, 0, 0, 0]])
    }),
    workload("create L2, empty", 64, |_| accepted(CreateL2, vec![[L2_BLOCK, 0, 0, 0]])),
    workload("create L2, 1,024 writable pages", 64, |scene| {
        scene.written_pages();
        accepted(CreateL2, vec![[L2_BLOCK, 0, 0, 0]])
    }),
    workload("create L2, 1,024 mixed pages", 64, |scene| {
        scene.written_mixed_pages();
        accepted(CreateL2, vec![[L2_BLOCK, 0, 0, 0]])
    }),
    workload("create L2, 1,024 read-only pages", 64, |scene| {
        accepted(CreateL2, scene.pages(|scene, i| page(scene.data(i), READ_ONLY)))
    }),
    workload("create L2, 64 scattered pages", 64, |scene| {
        let word = |scene: &Scene, i: u32| if i % 16 == 5 { page(scene.data(97 * i), READ_WRITE) } else { 0 };
        accepted(CreateL2, scene.pages(word))
    }),
    workload("create L2, 1,024 executable of 64, marked", 512, |scene| {
        scene.accepted(CreateL2, &[[OTHER_L2_BLOCK, 0, 0, 0]]);
        scene.written_targets(1024);
        scene.mark_targets();
        accepted(CreateL2, vec![[L2_BLOCK, 0, 0, 0]])
    }),
    workload("create L2, 64 read-only large pages", 64, |scene| {
        accepted(CreateL2, scene.pages(|scene, i| large_page(scene.sixteen(i / LARGE_BLOCKS), READ_ONLY)))
    }),
    workload("create L2, 64 writable large pages", 64, |scene| {
        accepted(CreateL2, scene.pages(|scene, i| large_page(scene.sixteen(i / LARGE_BLOCKS), READ_WRITE)))
    }),
    workload("create L1, 4,096 read-only sections", 512, |scene| {
        accepted(CreateL1, scene.sections(|scene, i| section(scene.section(i), READ_ONLY)))
    }),
    workload("create L1, 4,096 writable sections", 512, |scene| {
        accepted(CreateL1, scene.sections(|scene, i| section(scene.section(i), READ_WRITE)))
    }),
    workload("free L1, empty", 64, |scene| {
        scene.tables();
        accepted(FreeL1, vec![[L1_TABLE, 0, 0, 0]])
    }),
    workload("free L1, 16 sections, 64 links", 512, |scene| {
        scene.written_sections_and_links();
        scene.accepted(CreateL1, &[[L1_TABLE, 0, 0, 0]]);
        accepted(FreeL1, vec![[L1_TABLE, 0, 0, 0]])
    }),
    workload("free L2, empty", 64, |scene| {
        scene.tables();
        accepted(FreeL2, vec![[L2_BLOCK, 0, 0, 0]])
    }),
    workload("free L2, 1,024 writable pages", 64, |scene| {
        scene.written_pages();
        scene.accepted(CreateL2, &[[L2_BLOCK, 0, 0, 0]]);
        accepted(FreeL2, vec![[L2_BLOCK, 0, 0, 0]])
    }),
    workload("free L2, 64 writable large pages", 64, |scene| {
        let words = scene.pages(|scene, i| large_page(scene.sixteen(i / LARGE_BLOCKS), READ_WRITE));
        scene.accepted(CreateL2, &words);
        accepted(FreeL2, words)
    }),
    workload("map L1, writable section", 512, |scene| {
        scene.tables();
        accepted(MapL1, section_maps(scene))
    }),
    workload("map L1, read-only section", 512, |scene| {
        scene.tables();
        accepted(MapL1, (0..MANY).map(|i| [L1_TABLE, 4 * i, scene.section(i), READ_ONLY]).collect())
    }),
    workload("map L1, executable section, marked", 512, |scene| {
        scene.tables();
        scene.sign_section();
        scene.accepted(MapL1, &[[OTHER_L1_TABLE, 0, scene.section(0), READ_EXECUTE]]);
        accepted(MapL1, (0..64).map(|i| [L1_TABLE, i, scene.section(0), READ_EXECUTE]).collect())
    }),
    workload("map L2, writable page", 64, |scene| {
        scene.tables();
        accepted(MapL2, page_maps(scene))
    }),
    workload("map L2, writable page, each kind in turn", 64, |scene| {
        scene.tables();
        let maps = page_maps(scene).into_iter().zip(0..);
        accepted(
            MapL2Kind,
            maps.map(|([block, index, target, rights], i)| [block, index, target, rights, i % 8]).collect(),
        )
    }),
    workload("map L2, read-only page", 64, |scene| {
        scene.tables();
        accepted(MapL2, (0..1024).map(|i| [L2_BLOCK, i, scene.data(i), READ_ONLY]).collect())
    }),
    workload("map L2, executable page, marked", 512, |scene| {
        scene.tables();
        scene.sign_targets();
        scene.mark_targets();
        accepted(MapL2, (0..1024).map(|i| [L2_BLOCK, i, DATA + i % TARGETS, READ_EXECUTE]).collect())
    }),
    workload("map large, writable", 64, |scene| {
        scene.tables();
        accepted(MapLarge, large_maps(scene, READ_WRITE))
    }),
    workload("map large, read-only", 64, |scene| {
        scene.tables();
        accepted(MapLarge, large_maps(scene, READ_ONLY))
    }),
    workload("map large, executable, marked", 512, |scene| {
        scene.tables();
        scene.sign_targets();
        scene.mark_targets();
        let words = (0..64).map(|i| [L2_BLOCK, LARGE_BLOCKS * i, scene.sixteen(i % 4), READ_EXECUTE]);
        accepted(MapLarge, words.collect())
    }),
    workload("link", 64, |scene| {
        scene.tables();
        accepted(Link, links())
    }),
    workload("unmap L1, writable section", 512, |scene| {
        scene.tables();
        let maps = section_maps(scene);
        scene.accepted(MapL1, &maps);
        accepted(UnmapL1, maps)
    }),
    workload("unmap L1, link", 64, |scene| {
        scene.tables();
        scene.accepted(Link, &links());
        accepted(UnmapL1, links())
    }),
    workload("unmap L2, writable page", 64, |scene| {
        scene.tables();
        let maps = page_maps(scene);
        scene.accepted(MapL2, &maps);
        accepted(UnmapL2, maps)
    }),
    workload("unmap large, writable", 64, |scene| {
        scene.tables();
        let maps = large_maps(scene, READ_WRITE);
        scene.accepted(MapLarge, &maps);
        accepted(UnmapLarge, maps)
    }),
    workload("unmap large, read-only", 64, |scene| {
        scene.tables();
        let maps = large_maps(scene, READ_ONLY);
        scene.accepted(MapLarge, &maps);
        accepted(UnmapLarge, maps)
    }),
    workload("unmap L2, fault", 64, |scene| {
        scene.tables();
        accepted(UnmapL2, page_maps(scene))
    }),
    workload("switch", 64, |scene| {
        scene.tables();
        accepted(Switch, (0..MANY).map(|i| [L1_TABLE + 4 * (i % 2), 0, 0, 0]).collect())
    }),
    workload("read, page", 64, |scene| {
        scene.guest_pages(READ_WRITE);
        accepted(Read, guest_addresses())
    }),
    workload("read, large page", 64, |scene| {
        scene.tables();
        scene.accepted(Link, &[[L1_TABLE, 0, L2_BLOCK, 0]]);
        scene.accepted(MapLarge, &large_maps(scene, READ_ONLY)[..2]);
        scene.accepted(Switch, &[[L1_TABLE, 0, 0, 0]]);
        accepted(Read, guest_addresses())
    }),
    workload("read, section", 512, |scene| {
        scene.tables();
        scene.accepted(MapL1, &[[L1_TABLE, 0, FIRST, READ_ONLY]]);
        scene.accepted(Switch, &[[L1_TABLE, 0, 0, 0]]);
        accepted(Read, guest_addresses())
    }),
    workload("write, page", 64, |scene| {
        scene.guest_pages(READ_WRITE);
        accepted(Write, guest_addresses())
    }),
    workload("fetch, page", 64, |scene| {
        scene.guest_pages(READ_EXECUTE);
        accepted(Fetch, guest_addresses())
    }),
    workload("acknowledge", 64, |_| accepted(Acknowledge, vec![[0]; MANY as usize])),
    workload("forget, one block", 64, |scene| accepted(Forget, (0..MANY).map(|i| [scene.data(i), 1, 0, 0]).collect())),
    workload("forget, the whole region", 64, |scene| accepted(Forget, vec![[FIRST, scene.blocks as u32, 0, 0]; 64])),
    workload("map L2, refusal 2", 64, |scene| {
        scene.tables();
        let words = (0..MANY).map(|i| [FIRST - 1 - i, i, DATA, READ_WRITE]).collect();
        refused(MapL2, words, 2)
    }),
    workload("map L2, refusal 11", 64, |scene| {
        scene.guest_pages(READ_EXECUTE);
        let words = (0..MANY).map(|i| [OTHER_L2_BLOCK, i, DATA + i % GUEST_PAGES, READ_WRITE]).collect();
        refused(MapL2, words, 11)
    }),
    workload("create L2, refusal 2", 64, |_| {
        let words = (0..MANY).map(|i| [FIRST - 1 - i, 0, 0, 0]).collect();
        refused(CreateL2, words, 2)
    }),
    workload("create L2, refusal 11 at the last page", 64, |scene| {
        scene.guest_pages(READ_EXECUTE);
        let block = FIRST + 10;
        for i in 0..1023 {
            scene.put_entry(block, i, (DATA + GUEST_PAGES + i % 16) << 12 | 0x03F);
        }
        scene.put_entry(block, 1023, DATA << 12 | 0x03F);
        refused(CreateL2, vec![[block, 0, 0, 0]; 4], 11)
    }),
    workload("free L2, refusal 6", 64, |scene| {
        scene.guest_pages(READ_WRITE);
        refused(FreeL2, vec![[L2_BLOCK, 0, 0, 0]; MANY as usize], 6)
    }),
    workload("read, refusal 22", 64, |scene| {
        scene.guest_pages(READ_WRITE);
        refused(Read, (0..MANY).map(|i| [(GUEST_PAGES + i % 64) * 4096 + i, 0]).collect(), 22)
    }),
    workload("read, refusal 23", 64, |scene| {
        scene.guest_pages(0);
        refused(Read, guest_addresses(), 23)
    }),
    workload("write, refusal 23", 64, |scene| {
        scene.guest_pages(READ_EXECUTE);
        refused(Write, guest_addresses(), 23)
    }),
];

/// Calls whose time is that of hashing blocks.
pub static HASHING_CALLS: [Workload; 4] = [
    workload("create L2, 64 executable pages", 512, |scene| {
        scene.written_targets(TARGETS);
        accepted(CreateL2, vec![[L2_BLOCK, 0, 0, 0]]).hashing(TARGETS)
    }),
    workload("create L2, 1,024 executable pages of 64", 512, |scene| {
        scene.written_targets(1024);
        accepted(CreateL2, vec![[L2_BLOCK, 0, 0, 0]]).hashing(TARGETS)
    }),
    workload("map L2, executable page", 512, |scene| {
        scene.tables();
        scene.sign_targets();
        let words = (0..TARGETS).map(|i| [L2_BLOCK, i, DATA + i, READ_EXECUTE]);
        accepted(MapL2, words.collect()).hashing(TARGETS)
    }),
    workload("map large, executable", 512, |scene| {
        scene.tables();
        scene.sign_targets();
        let targets = TARGETS / LARGE_BLOCKS;
        let words = (0..targets).map(|i| [L2_BLOCK, LARGE_BLOCKS * i, scene.sixteen(i), READ_EXECUTE]);
        accepted(MapLarge, words.collect()).hashing(TARGETS)
    }),
];

/// Tables that a guest writes to make create slow: entries that write beside entries that execute, and many entries that execute the same.
/// Where 12 is the answer one block is hashed, where 11 none; else each different one that is executed.
pub static HOSTILE_TABLES: [Workload; 12] = [
    workload("create L2, 1,023 writable, 1 executable", 64, |scene| {
        let word = |scene: &Scene, i| {
            if i < 1023 {
                page(scene.data(i % 16), READ_WRITE)
            } else {
                page(scene.data(16), READ_EXECUTE)
            }
        };
        refused(CreateL2, scene.pages(word), 12)
    }),
    workload("create L2, half writable, half executable", 64, |scene| {
        let word = |scene: &Scene, i| {
            if i < 512 {
                page(scene.data(i % 16), READ_WRITE)
            } else {
                page(scene.data(16 + i % 16), READ_EXECUTE)
            }
        };
        refused(CreateL2, scene.pages(word), 12)
    }),
    workload("create L2, the same, but one clashes", 64, |scene| {
        let word = |scene: &Scene, i| match i {
            0..511 => page(scene.data(i % 16), READ_WRITE),
            511 => page(scene.data(16), READ_WRITE),
            _ => page(scene.data(16 + i % 16), READ_EXECUTE),
        };
        refused(CreateL2, scene.pages(word), 11)
    }),
    workload("create L2, executable, read-only in turn", 64, |scene| {
        scene.sign_zeros(DATA, 1);
        accepted(
            CreateL2,
            scene.pages(|scene, i| page(scene.data(0), if i % 2 == 0 { READ_EXECUTE } else { READ_ONLY })),
        )
        .hashing(1)
    }),
    workload("create L2, read-only, then executable", 64, |scene| {
        scene.sign_zeros(DATA, 1);
        accepted(CreateL2, scene.pages(|scene, i| page(scene.data(0), if i < 512 { READ_ONLY } else { READ_EXECUTE })))
            .hashing(1)
    }),
    workload("create L2, 1,024 executable pages of one", 64, |scene| {
        scene.sign_zeros(DATA, 1);
        accepted(CreateL2, scene.pages(|scene, _| page(scene.data(0), READ_EXECUTE))).hashing(1)
    }),
    workload("create L1, 4,095 writable, 1 executable", 512, |scene| {
        let word = |scene: &Scene, i| {
            if i < 4095 {
                section(scene.section(i), READ_WRITE)
            } else {
                section(FIRST, READ_EXECUTE)
            }
        };
        refused(CreateL1, scene.sections(word), 12)
    }),
    workload("create L1, half writable, half executable", 512, |scene| {
        let word = |scene: &Scene, i| {
            if i < 2048 {
                section(scene.section(i), READ_WRITE)
            } else {
                section(FIRST, READ_EXECUTE)
            }
        };
        refused(CreateL1, scene.sections(word), 12)
    }),
    workload("create L1, the same, but one clashes", 512, |scene| {
        let word = |scene: &Scene, i| match i {
            0..2048 => section(scene.section(i), READ_WRITE),
            2048 => section(scene.section(0), READ_EXECUTE),
            _ => section(FIRST, READ_EXECUTE),
        };
        refused(CreateL1, scene.sections(word), 11)
    }),
    workload("create L1, executable, read-only in turn", 512, |scene| {
        scene.sign_section();
        accepted(
            CreateL1,
            scene.sections(|scene, i| section(scene.section(0), if i % 2 == 0 { READ_EXECUTE } else { READ_ONLY })),
        )
        .hashing(SECTION_BLOCKS as u32)
    }),
    workload("create L1, read-only, then executable", 512, |scene| {
        scene.sign_section();
        accepted(
            CreateL1,
            scene.sections(|scene, i| section(scene.section(0), if i < 2048 { READ_ONLY } else { READ_EXECUTE })),
        )
        .hashing(SECTION_BLOCKS as u32)
    }),
    workload("create L1, 4,096 executable sections", 512, |scene| {
        // As many blocks as an image can sign.
        let blocks = (scene.blocks - SECTION_BLOCKS).min(1024) as u32;
        scene.sign_zeros(scene.section(0), blocks);
        let sections = blocks / SECTION_BLOCKS as u32;
        accepted(CreateL1, scene.sections(|scene, i| section(scene.section(i % sections), READ_EXECUTE)))
            .hashing(blocks)
    }),
];
