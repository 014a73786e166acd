//! RULES, memory and signature.
use super::View;
use crate::bytes::word;
use crate::hasher::digest;
use crate::monitor::{Kind, BLOCK};

impl View<'_> {
    /// n (memory 1).
    pub fn blocks(&self) -> u64 {
        (self.memory.len() / BLOCK) as u64
    }

    /// memory 1, broken.
    pub fn memory_wrong(&self) -> bool {
        self.blocks() < 8 || self.blocks() > 4096 || self.memory.len() % BLOCK != 0
    }

    /// B (ledger 2), in begin the one that it is given (begin 1).
    pub fn first(&self) -> u64 {
        u64::from(if self.kind == Kind::BeginKinds { self.arguments[0] } else { word(self.ledger, 0) })
    }

    /// memory 2, broken.
    pub fn first_wrong(&self) -> bool {
        self.first() % 256 != 0 || self.first() + self.blocks() > 1 << 20
    }

    /// Are all of these blocks in the region (memory 3)?
    pub fn inside(&self, first: u64, count: u64) -> bool {
        self.first() <= first && first + count <= self.first() + self.blocks()
    }

    /// The block's number in the region, counted from 0.
    pub fn position(&self, block: u64) -> Option<usize> {
        self.inside(block, 1).then(|| (block - self.first()) as usize)
    }

    /// Where the block's bytes start in memory (memory 3), or memory's end for a block outside.
    pub fn offset(&self, block: u64) -> usize {
        self.position(block).map_or(self.memory.len(), |position| BLOCK * position)
    }

    /// The block in which a byte of memory lies (memory 3).
    pub fn block_of(&self, at: usize) -> u64 {
        self.first() + (at / BLOCK) as u64
    }

    /// signature 2, broken.
    pub fn golden_wrong(&self) -> bool {
        self.golden.len() % 32 != 0 || self.golden.len() / 32 > 1024
    }

    /// signature 1 and 3
    pub fn signed(&self, block: u64) -> bool {
        let at = self.offset(block);
        let Some(contents) = self.memory.get(at..at + BLOCK) else { return false };
        let number = (block as u32).to_be_bytes().to_vec();
        let digest = digest(&[&number[..], contents].concat());
        self.golden.chunks_exact(32).any(|known| known == digest)
    }
}
