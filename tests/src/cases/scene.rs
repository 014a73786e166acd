//! Building the buffers of a case.
use super::Case;
use crate::bytes::{put_word, word};
use crate::hasher::block_digest;
use crate::monitor::{
    own, Call, Kind, Store, BLOCK, KINDS_AT, LEDGER_HEAD, LEDGER_RECORD, NO_TABLE, PENDING, REGISTERS_BYTES,
};
use crate::random::Random;
use std::ops::Range;
use std::rc::Rc;

pub const TYPE: usize = 0;
pub const W: usize = 1;
pub const X: usize = 2;
pub const L: usize = 3;
pub const MARK: usize = 4;

/// Low bits of entries that give nothing, read, read and write, read and execute, or all three.
pub const PAGE_NONE: u32 = 0x01F;
pub const PAGE_READ: u32 = 0x02F;
pub const PAGE_WRITE: u32 = 0x03F;
pub const PAGE_EXECUTE: u32 = 0x02E;
pub const PAGE_ALL: u32 = 0x03E;
pub const LARGE_NONE: u32 = 0x801D;
pub const LARGE_READ: u32 = 0x802D;
pub const LARGE_WRITE: u32 = 0x803D;
pub const LARGE_EXECUTE: u32 = 0x002D;
pub const LARGE_ALL: u32 = 0x003D;
pub const SECTION_NONE: u32 = 0x41E;
pub const SECTION_READ: u32 = 0x81E;
pub const SECTION_WRITE: u32 = 0xC1E;
pub const SECTION_EXECUTE: u32 = 0x80E;
pub const SECTION_ALL: u32 = 0xC0E;

/// Memory kinds of a region, which all differ. The first is that of a begin that names none, and has the bits of the low bits above.
pub const KINDS: [u16; 8] = [0x03, 0x7F, 0x00, 0x15, 0x2A, 0x44, 0x31, 0x5B];
/// Others, for a begin that names them.
pub const NEW_KINDS: [u16; 8] = [0x12, 0x00, 0x7F, 0x03, 0x68, 0x25, 0x4C, 0x01];

/// Their bytes.
pub fn kind_bytes(kinds: &[u16]) -> Vec<u8> {
    kinds.iter().flat_map(|kind| kind.to_le_bytes()).collect()
}

/// Eight lawful kinds.
pub fn random_kinds(random: &mut Random) -> [u16; 8] {
    [(); 8].map(|()| random.below(128) as u16)
}

/// A kind that is not lawful.
pub fn random_unlawful(random: &mut Random) -> u16 {
    match random.below(4) {
        0 => random.next() as u16 | 0x80,
        1 => random.next() as u16 | 1 << (8 + random.below(8)),
        _ => random.one_of(&[0x80, 0x83, 0xFF, 0x100, 0x103, 0x8000, 0xFFFF]),
    }
}

/// Fault registers of 17 bytes that all differ. None of the words is a status, and the pending byte is neither 0 nor 1.
pub fn old_registers() -> Vec<u8> {
    (0..REGISTERS_BYTES as u8).map(|at| 0xA1 + 5 * at).collect()
}

/// Any fault registers, seldom not 17 bytes.
pub fn random_registers(random: &mut Random) -> Vec<u8> {
    let length = match random.below(16) {
        0 => random.one_of(&[0, 1, 8, 15, 16, 18, 34]),
        _ => REGISTERS_BYTES,
    };
    let (mut registers, pending) = (random.bytes(length), random.one_of(&[0, 1, 1, 7, 255]));
    registers.iter_mut().skip(PENDING).for_each(|byte| *byte = pending);
    registers
}

/// A region in the making. Blocks are counted from the region's start.
#[derive(Clone)]
pub struct Scene {
    pub first: u32,
    pub store: Store,
}

impl Scene {
    /// Memory of zeros, and the ledger that begin leaves with these kinds.
    pub fn new(first: u32, blocks: usize) -> Scene {
        let mut ledger = vec![0; LEDGER_HEAD + LEDGER_RECORD * blocks];
        put_word(&mut ledger, 0, first);
        put_word(&mut ledger, 4, NO_TABLE);
        let (memory, golden) = (Rc::new(vec![0; BLOCK * blocks]), Vec::new());
        let (kinds, registers) = (kind_bytes(&NEW_KINDS), old_registers());
        let mut scene = Scene { first, store: Store { memory, ledger, golden, kinds, registers } };
        scene.set_kinds(&KINDS);
        scene
    }

    pub fn blocks(&self) -> usize {
        self.store.memory.len() / BLOCK
    }

    /// The physical number of a block.
    pub fn block(&self, position: usize) -> u32 {
        self.first.wrapping_add(position as u32)
    }

    /// A word of a block's record: TYPE, W, X, L or MARK.
    pub fn record(&self, position: usize, which: usize) -> u32 {
        word(&self.store.ledger, LEDGER_HEAD + LEDGER_RECORD * position + 4 * which)
    }

    pub fn set_record(&mut self, position: usize, which: usize, value: u32) {
        put_word(&mut self.store.ledger, LEDGER_HEAD + LEDGER_RECORD * position + 4 * which, value);
    }

    pub fn set_types(&mut self, positions: Range<usize>, code: u32) {
        for position in positions {
            self.set_record(position, TYPE, code);
        }
    }

    pub fn set_marks(&mut self, positions: Range<usize>, mark: u32) {
        for position in positions {
            self.set_record(position, MARK, mark);
        }
    }

    pub fn set_kinds(&mut self, kinds: &[u16; 8]) {
        (0..8).for_each(|number| self.set_kind(number, kinds[number]));
    }

    pub fn set_kind(&mut self, number: usize, kind: u16) {
        let at = KINDS_AT + 2 * number;
        if let Some(place) = self.store.ledger.get_mut(at..at + 2) {
            place.copy_from_slice(&kind.to_le_bytes());
        }
    }

    /// Any kinds, seldom one that is not lawful.
    pub fn draw_kinds(&mut self, random: &mut Random) {
        self.set_kinds(&random_kinds(random));
        if random.below(30) == 0 {
            self.set_kind(random.below(8), random_unlawful(random));
        }
    }

    pub fn set_active(&mut self, word: u32) {
        put_word(&mut self.store.ledger, 4, word);
    }

    /// Makes the L1 table at this position the active one.
    pub fn activate(&mut self, position: usize) {
        self.set_active(self.block(position));
    }

    pub fn put(&mut self, position: usize, index: usize, word: u32) {
        put_word(own(&mut self.store.memory), BLOCK * position + 4 * index, word);
    }

    /// The same word in sixteen entries.
    pub fn put_run(&mut self, position: usize, index: usize, word: u32) {
        (index..index + 16).for_each(|index| self.put(position, index, word));
    }

    pub fn word(&self, position: usize, index: usize) -> u32 {
        word(&self.store.memory, BLOCK * position + 4 * index)
    }

    /// Where a block has words that are no faults.
    pub fn entries(&self, position: usize) -> impl Iterator<Item = usize> + '_ {
        (0..1024).filter(move |index| self.word(position, *index) & 3 != 0)
    }

    pub fn put_byte(&mut self, position: usize, offset: usize, byte: u8) {
        if let Some(place) = own(&mut self.store.memory).get_mut(BLOCK * position + offset) {
            *place = byte;
        }
    }

    /// The word of a page, large page or section at this block.
    pub fn mapping(&self, position: usize, low: u32) -> u32 {
        (self.block(position) << 12).wrapping_add(low)
    }

    pub fn link(&self, position: usize, table: u32) -> u32 {
        (self.block(position) << 12) + (table << 10) + 1
    }

    pub fn fill(&mut self, position: usize, random: &mut Random) {
        if let Some(block) = own(&mut self.store.memory).get_mut(BLOCK * position..BLOCK * (position + 1)) {
            block.copy_from_slice(&random.bytes(BLOCK));
        }
    }

    /// Adds the block's digest to the golden image.
    pub fn sign(&mut self, position: usize) {
        self.sign_as(self.block(position), position);
    }

    /// Adds the digest that the block's contents have under this number.
    pub fn sign_as(&mut self, number: u32, position: usize) {
        if let Some(contents) = self.store.memory.get(BLOCK * position..BLOCK * (position + 1)) {
            self.store.golden.extend_from_slice(&block_digest(number, contents));
        }
    }

    /// Adds to the golden image the digests of the blocks with these numbers and nothing but zeros.
    pub fn sign_zeros(&mut self, numbers: impl IntoIterator<Item = u32>) {
        self.store.golden.extend(numbers.into_iter().flat_map(|number| block_digest(number, &[0; BLOCK])));
    }

    /// Adds those of all blocks of the region, of which there are at most 1,024.
    pub fn sign_all_zeros(&mut self) {
        assert!(self.blocks() <= 1024, "no image has as many digests");
        self.sign_zeros(self.block(0)..self.block(self.blocks()));
    }

    pub fn case(&self, name: &str, kind: Kind, arguments: &[u32]) -> Case {
        let (call, store) = (Call::new(kind, arguments), self.store.clone());
        Case { name: name.to_string(), call, store, expected: None, hashed: None }
    }

    pub fn expect(&self, name: &str, kind: Kind, arguments: &[u32], answer: u32) -> Case {
        Case { expected: Some(answer), ..self.case(name, kind, arguments) }
    }
}
