//! The guest's read, write and fetch.
use super::marks::random_mark;
use super::scene::*;
use super::Case;
use crate::compare::{Comparer, Outcome};
use crate::monitor::{Kind, MARKED};
use crate::random::Random;

pub fn run(kind: Kind, comparer: &mut Comparer) -> Outcome {
    let guest = Guest { kind };
    guest.rights(comparer)?;
    guest.bytes(comparer)?;
    guest.active(comparer)?;
    guest.page_codes(comparer)?;
    guest.links(comparer)?;
    guest.places(comparer)?;
    guest.types(comparer)?;
    guest.reasons(comparer)?;
    guest.section_words(comparer)?;
    guest.section_places(comparer)?;
    guest.address_ends(comparer)?;
    guest.random(comparer)
}

/// Of read, write and fetch, one.
struct Guest {
    kind: Kind,
}

/// An active L1 table in blocks 4 to 7 and an L2 block 8, both of zeros, and data with some bytes from block 9 on. All blocks are marked.
pub fn tables(blocks: usize) -> Scene {
    let mut scene = Scene::new(0x300, blocks);
    scene.set_marks(0..blocks, MARKED);
    let mut random = Random::new(20);
    scene.set_types(4..8, 1);
    scene.set_types(8..9, 2);
    scene.activate(4);
    for position in 9..blocks.min(20) {
        scene.fill(position, &mut random);
    }
    scene
}

impl Guest {
    /// The answer to an access through an entry with these rights (1, 2, 4).
    fn answer(&self, rights: u32) -> u32 {
        let needed = match self.kind {
            Kind::Read => 1,
            Kind::Write => 2,
            _ => 4,
        };
        if rights & needed != 0 {
            0
        } else {
            23
        }
    }

    fn expect(&self, scene: &Scene, name: &str, address: u32, answer: u32) -> Case {
        scene.expect(name, self.kind, &[address, 0x1A5][..self.kind.arity()], answer)
    }

    fn case(&self, scene: &Scene, name: &str, address: u32) -> Case {
        scene.case(name, self.kind, &[address, 0x1A5][..self.kind.arity()])
    }

    /// Each of the written rights, by page and by section.
    fn rights(&self, comparer: &mut Comparer) -> Outcome {
        let pages = [(PAGE_NONE, 0), (PAGE_READ, 1), (PAGE_WRITE, 3), (PAGE_EXECUTE, 5), (PAGE_ALL, 7)];
        for (low, rights) in pages {
            let mut scene = tables(16);
            scene.put(4, 0x123, scene.link(8, 2));
            scene.put(8, 512 + 0x45, scene.mapping(10, low));
            comparer.check(self.expect(&scene, "a page", 0x1234_5678, self.answer(rights)))?;
        }
        let sections =
            [(SECTION_NONE, 0), (SECTION_READ, 1), (SECTION_WRITE, 3), (SECTION_EXECUTE, 5), (SECTION_ALL, 7)];
        for (low, rights) in sections {
            let mut scene = tables(256);
            scene.put(4, 0xFFF, scene.mapping(0, low));
            comparer.check(self.expect(&scene, "a section", 0xFFF0_9ABC, self.answer(rights)))?;
        }
        Ok(())
    }

    /// Every byte of a word, at the ends of a block, with several values to write.
    fn bytes(&self, comparer: &mut Comparer) -> Outcome {
        let mut scene = tables(16);
        scene.put(4, 0, scene.link(8, 3));
        scene.put(8, 768, scene.mapping(15, PAGE_ALL));
        for offset in [0, 1, 2, 3, 4, 5, 0x7FF, 0xFFC, 0xFFD, 0xFFE, 0xFFF] {
            for value in [0, 65, 255, 256, 0x1FF, 0x8000_0042, u32::MAX] {
                comparer.check(scene.expect("a byte", self.kind, &[offset, value][..self.kind.arity()], 0))?;
            }
        }
        Ok(())
    }

    /// Active words at the region's edges.
    fn active(&self, comparer: &mut Comparer) -> Outcome {
        for blocks in [8, 9, 10, 11, 16] {
            for first in [0, 0x300, 0xFFF00] {
                for code in [0, 1, 7] {
                    self.active_words(comparer, first, blocks, code)?;
                }
            }
        }
        let mut scene = Scene::new(0, 16);
        scene.set_active(0);
        comparer.check(self.expect(&scene, "a ledger of zeros", 0x5000, 22))
    }

    fn active_words(&self, comparer: &mut Comparer, first: u32, blocks: usize, code: u32) -> Outcome {
        let mut scene = Scene::new(first, blocks);
        scene.set_types(0..blocks, code);
        let end = first + blocks as u32;
        let near = [0, 1, 2, 3, 4, 5, 8].map(|k| first + k);
        let far = [0, 1, 2, 3, 4, 5, 8].map(|k| end - k);
        let others = [end + 1, end + 3, first.wrapping_sub(4), 1 << 20, u32::MAX, u32::MAX - 3, u32::MAX - 2, 1 << 31];
        for active in near.into_iter().chain(far).chain(others) {
            scene.set_active(active);
            let inside = first <= active && u64::from(active) + 4 <= u64::from(end);
            let answer = if inside && active % 4 == 0 { 22 } else { 21 };
            comparer.check(self.expect(&scene, &format!("active {active:#x}"), 0, answer))?;
        }
        Ok(())
    }

    /// All low bits of a page, and words with a fault's low bits.
    fn page_codes(&self, comparer: &mut Comparer) -> Outcome {
        let mut random = Random::new(21);
        for low in 0..4096 {
            if low >= 1024 && random.below(8) > 0 {
                continue;
            }
            let address = random.next() as u32;
            let table = random.below(4);
            let mut scene = tables(12);
            scene.put(4, (address >> 20) as usize, scene.link(8, table as u32));
            scene.put(8, 256 * table + (address as usize >> 12 & 0xFF), scene.mapping(10, low));
            comparer.check(self.case(&scene, &format!("a page with low bits {low:#x}"), address))?;
        }
        Ok(())
    }

    /// Links with each single bit changed, and all four kinds of low bits.
    fn links(&self, comparer: &mut Comparer) -> Outcome {
        for bit in 0..12 {
            let mut scene = tables(12);
            scene.put(4, 1, scene.link(8, 1) ^ 1 << bit);
            for table in 0..4 {
                scene.put(8, 256 * table + 3, scene.mapping(9 + table % 3, PAGE_ALL));
            }
            comparer.check(self.case(&scene, &format!("a link with bit {bit} changed"), 0x0010_3004))?;
        }
        let mut scene = tables(12);
        scene.put(4, 1, 0xFFFF_FFFC);
        comparer.check(self.expect(&scene, "a fault in L1 with other bits", 0x0010_0000, 22))?;
        scene.put(4, 1, scene.link(8, 0));
        scene.put(8, 0, 0xFFFF_FFFC);
        comparer.check(self.expect(&scene, "a fault in L2 with other bits", 0x0010_0000, 22))?;
        scene.put(8, 255, scene.mapping(8, PAGE_ALL));
        scene.put(8, 0, scene.mapping(4, PAGE_ALL));
        comparer.check(self.expect(&scene, "a page of the table itself", 0x001F_F000, 0))?;
        comparer.check(self.expect(&scene, "a page of the L1 table", 0x0010_0007, 0))
    }

    /// Pages and links at the region's edges.
    fn places(&self, comparer: &mut Comparer) -> Outcome {
        let scene = tables(16);
        for block in [0, 1, 0x2FF, 0x300, 0x30F, 0x310, 0x311, 0x3FF, 0xFFFFF] {
            let inside = (0x300..0x310).contains(&block);
            for low in [PAGE_NONE, PAGE_ALL] {
                let mut scene = scene.clone();
                scene.put(4, 0, scene.link(8, 0));
                scene.put(8, 0, (block << 12) + low);
                let answer = if inside { self.answer(if low == PAGE_ALL { 7 } else { 0 }) } else { 24 };
                comparer.check(self.expect(&scene, &format!("a page at {block:#x}"), 0xABC, answer))?;
            }
            for table in [0, 3] {
                let mut scene = scene.clone();
                scene.put(4, 0, (block << 12) + (table << 10) + 1);
                let case = self.case(&scene, &format!("a link to {block:#x}"), 0xFF000);
                comparer.check(Case { expected: (!inside).then_some(24), ..case })?;
            }
        }
        Ok(())
    }

    /// Types are not read, counters and marks neither.
    fn types(&self, comparer: &mut Comparer) -> Outcome {
        for code in [0, 1, 2, 3, 0x100, u32::MAX] {
            let mut scene = tables(12);
            scene.set_types(0..12, code);
            for position in 0..12 {
                for which in [W, X, L, MARK] {
                    scene.set_record(position, which, code);
                }
            }
            scene.put(4, 0, scene.link(8, 0));
            scene.put(8, 0, scene.mapping(9, PAGE_ALL));
            comparer.check(self.expect(&scene, &format!("all types {code:#x}"), 0xFFF, 0))?;
        }
        Ok(())
    }

    /// Several reasons at once.
    fn reasons(&self, comparer: &mut Comparer) -> Outcome {
        let mut scene = tables(16);
        scene.set_active(0x305);
        comparer.check(self.expect(&scene, "no table, fault", 0, 21))?;
        scene.store.ledger.push(0);
        comparer.check(self.expect(&scene, "length and no table", 0, 1))?;
        let mut scene = Scene::new(0x301, 16);
        scene.set_active(0x305);
        comparer.check(self.expect(&scene, "B and no table", 0, 1))?;
        let mut scene = tables(16);
        scene.put(4, 0, (0x555 << 12) + 1);
        comparer.check(self.expect(&scene, "a link outside, before a fault there", 0, 24))?;
        scene.put(4, 0, (0x999 << 20) + SECTION_NONE);
        comparer.check(self.expect(&scene, "a section outside, before the right", 0, 24))?;
        scene.put(4, 0, scene.link(8, 0) | 4);
        comparer.check(self.expect(&scene, "an unaccepted link to a fault", 0, 24))
    }

    /// Each AP and XN of a section, with each single bit changed.
    fn section_words(&self, comparer: &mut Comparer) -> Outcome {
        let mut random = Random::new(22);
        let mut scene = tables(256);
        for position in 0..4 {
            scene.fill(position, &mut random);
        }
        for ap in 0..8 {
            for xn in 0..2 {
                let low = 2 | xn << 4 | (ap & 3) << 10 | (ap >> 2) << 15;
                for bit in 0..21 {
                    let word = if bit == 20 { low } else { low ^ 1 << bit };
                    let word = (scene.first << 12) + word;
                    let address = random.next() as u32 & !0xF_C000;
                    scene.put(4, address as usize >> 20, word);
                    comparer.check(self.case(&scene, &format!("L1 word {word:#x}"), address))?;
                    scene.put(4, address as usize >> 20, 0);
                }
            }
        }
        Ok(())
    }

    /// Sections at the region's edges, and partly outside.
    fn section_places(&self, comparer: &mut Comparer) -> Outcome {
        for (blocks, sections) in [(255, 0), (256, 1), (257, 1), (511, 1), (512, 2)] {
            for (low, rights) in [(SECTION_NONE, 0), (SECTION_ALL, 7)] {
                for place in 1..7u32 {
                    let mut scene = tables(blocks);
                    scene.put(4, 0x800, (place << 20) + low);
                    let inside = place >= 3 && place < 3 + sections;
                    let answer = if inside { self.answer(rights) } else { 24 };
                    for offset in [0, 0xF_FFFF, 0x0_9123] {
                        let name = format!("a section at {:#x} of {blocks} blocks", place << 8);
                        comparer.check(self.expect(&scene, &name, 0x8000_0000 | offset, answer))?;
                    }
                }
            }
        }
        Ok(())
    }

    /// Both ends of the address range, of an L1 entry's part of it and of a page, with all rights and with none.
    fn address_ends(&self, comparer: &mut Comparer) -> Outcome {
        let offsets = [0, 1, 0xFFF, 0x1000, 0xF_EFFF, 0xF_F000, 0xF_FFFE, 0xF_FFFF];
        for index in [0, 1, 4094, 4095] {
            for rights in [7, 0] {
                for (name, scene) in ends(index, rights == 7) {
                    for offset in offsets {
                        let address = (index as u32) << 20 | offset;
                        let mapped = name == "a section" || !(0x1000..0xF_F000).contains(&offset);
                        let answer = if mapped { self.answer(rights) } else { 22 };
                        let name = format!("{name} at L1 index {index}");
                        comparer.check(self.expect(&scene, &name, address, answer))?;
                    }
                }
            }
            let empty = tables(16);
            comparer.check(self.expect(&empty, "no entry", (index as u32) << 20, 22))?;
            comparer.check(self.expect(&empty, "no entry", (index as u32) << 20 | 0xF_FFFF, 22))?;
        }
        Ok(())
    }

    /// Tables of words that are near to accepted ones, in a small region and in one with room for a section.
    fn random(&self, comparer: &mut Comparer) -> Outcome {
        let mut random = Random::new(23);
        for round in 0..400 {
            let blocks = if round % 8 == 0 { 256 + random.below(3) } else { 8 + random.below(9) };
            let mut scene = Scene::new(256 * random.below(4) as u32, blocks);
            scene.set_active(scene.block(4 * random.below(blocks.min(16) / 4)));
            (0..blocks).for_each(|position| scene.set_record(position, MARK, random_mark(&mut random)));
            scene.draw_kinds(&mut random);
            for position in 0..blocks.min(12) {
                for _ in 0..40 {
                    let word = random_word(&scene, &mut random);
                    scene.put(position, random.below(8), word);
                }
            }
            for _ in 0..6 {
                let address = (random.below(8) << 20 | random.below(8) << 12 | random.below(4096)) as u32;
                comparer.check(self.case(&scene, "random tables", address))?;
            }
        }
        Ok(())
    }
}

/// A section at this L1 index, and a link there to the first or the last L2 table, whose entries 0 and 255 are pages. All blocks in which a walk can end
/// by these differ.
fn ends(index: usize, all: bool) -> [(&'static str, Scene); 3] {
    let mut random = Random::new(24);
    let mut section = tables(256);
    [0, 1, 254, 255].into_iter().for_each(|position| section.fill(position, &mut random));
    section.put(4, index, section.mapping(0, if all { SECTION_ALL } else { SECTION_NONE }));
    let linked = |table: usize| {
        let mut scene = tables(16);
        scene.put(4, index, scene.link(8, table as u32));
        for (entry, position) in [(0, 10), (255, 11)] {
            let low = if all { PAGE_ALL } else { PAGE_NONE };
            scene.put(8, 256 * table + entry, scene.mapping(position, low));
        }
        scene
    };
    [("a section", section), ("the first L2 table", linked(0)), ("the last L2 table", linked(3))]
}

/// A word that is likely to be an entry with a place in the region, of either level.
pub fn random_word(scene: &Scene, random: &mut Random) -> u32 {
    let near = scene.first.wrapping_add(random.below(scene.blocks().min(16) + 1) as u32) << 12;
    match random.below(8) {
        0 => random.next() as u32 & !3,
        1 => random.next() as u32,
        2 | 3 => near | (random.next() as u32 & 0xFFF),
        4 => near | [PAGE_NONE, PAGE_READ, PAGE_WRITE, PAGE_EXECUTE, PAGE_ALL][random.below(5)],
        5 => near | (random.next() as u32 & 0xC00) | 1,
        6 => (scene.first << 12) + [SECTION_NONE, SECTION_READ, SECTION_WRITE, SECTION_EXECUTE][random.below(4)],
        _ => (scene.first << 12) + (2 | random.next() as u32 & 0xFFFF),
    }
}
