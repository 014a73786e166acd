//! The two programs do the same: answers, bytes and numbers given, memory, ledger and fault registers, for every workload and for random calls.
use crate::baseline::COUNT;
use crate::digest::block_digest;
use crate::program::{Buffers, Given, Monitor, Plain, Program};
use crate::workloads::Batch;
use calls::random::Random;
use calls::{
    ledger_bytes, Kind, BLOCK, KINDS_AT, KINDS_BYTES, LEDGER_HEAD, LEDGER_RECORD, MARKED, NUMBERS, REGISTERS_BYTES,
};
use std::collections::BTreeSet;

fn given<P: Program>(kind: Kind, words: &[[u32; NUMBERS]], lent: &mut Buffers) -> Vec<Given> {
    let mut all = Vec::new();
    P::batch(kind, words, lent, |given| all.push(given));
    all
}

/// Makes the calls with both programs on equal buffers, and gives what both gave.
fn both(kind: Kind, words: &[[u32; NUMBERS]], lent: &mut Buffers) -> Vec<Given> {
    let mut other = lent.clone();
    let ours = given::<Monitor>(kind, words, lent);
    let plain = given::<Plain>(kind, words, &mut other);
    assert!(ours == plain, "{kind:?} {words:x?}: the monitor gives {ours:?}, the plain program {plain:?}");
    assert!(lent.memory == other.memory, "{kind:?} {words:x?}: the memory differs");
    assert!(lent.ledger == other.ledger, "{kind:?} {words:x?}: the ledger differs");
    assert!(lent.registers == other.registers, "{kind:?} {words:x?}: the fault registers differ");
    let cleared = other.scratch.chunks_exact(COUNT).all(|count| count[4..] == [0; COUNT - 4]);
    assert!(cleared, "{kind:?} {words:x?}: counts are left in the scratch bytes");
    ours
}

pub fn check_workload(name: &str, batch: &Batch, lent: &Buffers) {
    let all = both(batch.kind, &batch.words, &mut lent.clone());
    assert!(all.iter().all(|given| given.answer == batch.answer), "{name}: other answers than {}", batch.answer);
    let hashed: u32 = all.iter().map(|given| given.hashed).sum();
    assert!(hashed == batch.hashed, "{name}: {hashed} blocks hashed, not {}", batch.hashed);
}

/// The indices that are used.
const L1_INDICES: [u32; 5] = [0, 1, 2, 1024, 4095];
const L2_INDICES: [u32; 7] = [0, 1, 5, 255, 256, 270, 1023];
const RUNS: [u32; 4] = [0, 240, 256, 1008];

/// Calls drawn at random, on a memory and a ledger into which odd words are put on the way.
struct Drawn {
    random: Random,
    lent: Buffers,
    first: u32,
    blocks: usize,
}

impl Drawn {
    fn new(seed: u64, blocks: usize) -> Drawn {
        let lent = Buffers {
            memory: vec![0; BLOCK * blocks],
            ledger: vec![0; ledger_bytes(blocks)],
            golden: (0..1024).flat_map(|number| block_digest(number, &[0; BLOCK])).collect(),
            kinds: vec![0; KINDS_BYTES],
            registers: vec![0; REGISTERS_BYTES],
            scratch: vec![0; COUNT * blocks],
        };
        let mut random = Random::new(seed);
        let first = 256 * random.below(4) as u32;
        let mut drawn = Drawn { random, lent, first, blocks };
        both(Kind::Begin, &[[first, 0, 0, 0, 0]], &mut drawn.lent);
        drawn
    }

    /// A block near the region's start or end, or any number.
    fn block(&mut self) -> u32 {
        let near = self.first + self.random.below(self.blocks.min(24)) as u32;
        let last = self.first + self.blocks as u32 - 1 - self.random.below(5) as u32;
        let any = self.random.next() as u32 >> self.random.below(32);
        self.random.one_of(&[near, near, near, near, near, last, last, any])
    }

    /// A block at which an L1 table may stand, or any other.
    fn l1_table(&mut self) -> u32 {
        let other = self.block();
        self.random.one_of(&[self.first, self.first, self.first, self.first, self.first + 8, other])
    }

    /// A block that may be an L2 block, or any other.
    fn l2_block(&mut self) -> u32 {
        let (some, other) = (self.first + 4 + self.random.below(3) as u32, self.block());
        self.random.one_of(&[some, some, some, some, other])
    }

    fn section(&mut self) -> u32 {
        let other = self.block();
        self.random.one_of(&[self.first, self.first + 256, self.first + 256, self.first + 512, other])
    }

    fn l1_word(&mut self) -> u32 {
        let low = self.random.one_of(&[0x41E, 0x81E, 0xC1E, 0xC1E, 0x80E, 0xC0E]);
        match self.random.below(20) {
            0..=7 => self.l2_block() << 12 | (self.random.below(4) as u32) << 10 | 1,
            8..=13 => self.section() >> 8 << 20 | low,
            14..=18 => 0,
            _ => self.random.next() as u32,
        }
    }

    fn l2_word(&mut self) -> u32 {
        let low = self.random.one_of(&[0x01F, 0x02F, 0x02F, 0x03F, 0x03F, 0x02E, 0x03E]);
        match self.random.below(20) {
            0..=13 => self.block() << 12 | low,
            14..=18 => 0,
            _ => self.random.next() as u32,
        }
    }

    /// Sixteen blocks near the region's start or at its end, or any other.
    fn sixteen(&mut self) -> u32 {
        let near = self.first + 16 * self.random.below(self.blocks.min(64) / 16 + 1) as u32;
        let other = self.block();
        self.random.one_of(&[near, near, near, near, near, other])
    }

    fn large_word(&mut self) -> u32 {
        let low = self.random.one_of(&[0x801D, 0x802D, 0x802D, 0x803D, 0x803D, 0x002D, 0x003D]);
        match self.random.below(20) {
            0 => self.random.next() as u32 & !3 | 1,
            1 => self.sixteen() >> 4 << 16 | self.random.next() as u32 & 0xFFFC | 1,
            2 | 3 => 0,
            _ => self.sixteen() >> 4 << 16 | low,
        }
    }

    /// An entry at an index that calls use too, or a run of sixteen.
    fn poke_memory(&mut self) {
        let l2_block = 1024 * (4 + self.random.below(3));
        let (at, count, word) = match self.random.below(4) {
            0 | 1 => (self.random.one_of(&L1_INDICES) as usize, 1, self.l1_word()),
            2 => (l2_block + self.random.one_of(&L2_INDICES) as usize, 1, self.l2_word()),
            _ => (l2_block + self.random.one_of(&RUNS) as usize, 16, self.large_word()),
        };
        self.lent.memory[4 * at..4 * (at + count)].as_chunks_mut().0.fill(word.to_le_bytes());
    }

    /// The mark of a block near the region's start or end: marked, not marked, or neither 0 nor 1.
    fn poke_mark(&mut self) {
        let near = self.random.below(self.blocks.min(24));
        let block = self.random.one_of(&[near, near, near, self.blocks - 1]);
        let mark = self.random.one_of(&[0, MARKED, MARKED, 2, 0x101, u32::MAX]);
        let at = LEDGER_HEAD + LEDGER_RECORD * block + 16;
        self.lent.ledger[at..at + 4].copy_from_slice(&mark.to_le_bytes());
    }

    /// Eight kinds, now and then one of them not lawful.
    fn draw_kinds(&mut self) {
        let odd = self.random.below(8 * 8);
        for i in 0..8 {
            let kind = self.random.next() as u16 & 0x7F;
            let kind = if i == odd { self.random.one_of(&[0x80, 0x100, 0x8000]) } else { kind };
            self.lent.kinds[2 * i..2 * i + 2].copy_from_slice(&kind.to_le_bytes());
        }
    }

    /// A stored kind, seldom one that is not lawful.
    fn poke_kind(&mut self) {
        let kind = self.random.one_of(&[0, 1, 2, 3, 4, 7, 0x1C, 0x20, 0x23, 0x40, 0x47, 0x7F, 0x7F, 0x80, 0x100]);
        let at = KINDS_AT + 2 * self.random.below(8);
        self.lent.ledger[at..at + 2].copy_from_slice(&u16::to_le_bytes(kind));
    }

    /// A word of a record, or now and then the first block or the active table.
    fn poke_ledger(&mut self) {
        let words = LEDGER_RECORD / 4;
        let near = LEDGER_HEAD / 4 + self.random.below(words * self.blocks.min(16));
        let last = self.lent.ledger.len() / 4 - 1 - self.random.below(words);
        let at = match self.random.below(20) {
            0 => self.random.below(2),
            1..=4 => last,
            _ => near,
        };
        let limit = 1 << 22;
        let odd = [0, 0, 0, 0, 0, 1, 1, 2, 3, limit - 1, limit, limit, limit + 1, limit + 2, u32::MAX, self.first];
        let word = if at == 0 { self.random.one_of(&[self.first, self.first, 1]) } else { self.random.one_of(&odd) };
        self.lent.ledger[4 * at..4 * at + 4].copy_from_slice(&word.to_le_bytes());
    }

    fn words(&mut self, kind: Kind) -> [u32; NUMBERS] {
        let rights = self.random.one_of(&[0, 1, 3, 3, 3, 5, 5, 7, 2, 8]);
        let (l1_index, l2_index) = (self.random.one_of(&L1_INDICES), self.random.one_of(&L2_INDICES));
        let beyond = u32::from(self.random.below(20) == 0);
        let run = self.random.one_of(&RUNS) + u32::from(self.random.below(20) == 0);
        let number = self.random.one_of(&[0, 0, 1, 2, 3, 4, 5, 6, 7, 7, 8, u32::MAX]);
        let [a, b, c, d] = match kind {
            Kind::Begin | Kind::BeginKinds => {
                [self.random.one_of(&[0, 256, 512, 768, 1, 0xFFF00, 0xFFFFFF00]), 0, 0, 0]
            }
            Kind::CreateL1 | Kind::FreeL1 | Kind::Switch => [self.l1_table(), 0, 0, 0],
            Kind::CreateL2 | Kind::FreeL2 => [self.l2_block(), 0, 0, 0],
            Kind::MapL1 | Kind::MapL1Kind => [self.l1_table(), l1_index + 4096 * beyond, self.section(), rights],
            Kind::MapL2 | Kind::MapL2Kind => [self.l2_block(), l2_index + 1024 * beyond, self.block(), rights],
            Kind::Link => [self.l1_table(), l1_index, self.l2_block(), self.random.below(4) as u32 + 4 * beyond],
            Kind::UnmapL1 => [self.l1_table(), l1_index + 4096 * beyond, 0, 0],
            Kind::UnmapL2 => [self.l2_block(), l2_index + 1024 * beyond, 0, 0],
            Kind::MapLarge | Kind::MapLargeKind => [self.l2_block(), run + 16 * beyond, self.sixteen(), rights],
            Kind::UnmapLarge => [self.l2_block(), run + 16 * beyond, 0, 0],
            Kind::Read | Kind::Write | Kind::Fetch => {
                let address = l1_index << 20 | (l2_index % 256) << 12 | self.random.below(4096) as u32;
                [address, self.random.next() as u32, 0, 0]
            }
            Kind::Forget => {
                let any = self.random.next() as u32 >> self.random.below(32);
                let count = self.random.one_of(&[0, 1, 1, 2, 4, self.blocks as u32, any]);
                let block = self.block();
                [self.random.one_of(&[self.first, block]), count, 0, 0]
            }
            Kind::Acknowledge => [0; 4],
        };
        [a, b, c, d, number]
    }

    /// Any fault registers.
    fn draw_registers(&mut self) {
        self.lent.registers = self.random.bytes(REGISTERS_BYTES);
    }

    /// One call, at times with a buffer of another length.
    fn call(&mut self, kind: Kind) -> u32 {
        let words = [self.words(kind)];
        if self.random.below(50) > 0 {
            let answer = both(kind, &words, &mut self.lent)[0].answer;
            if matches!(kind, Kind::Begin | Kind::BeginKinds) && answer == 0 {
                self.first = words[0][0];
            }
            return answer;
        }
        let mut lent = self.lent.clone();
        match self.random.below(7) {
            0 => lent.memory.truncate(BLOCK * self.random.below(9) + self.random.below(2)),
            1 => lent.ledger.push(0),
            2 => lent.ledger.truncate(self.random.below(LEDGER_HEAD + 1)),
            3 => lent.kinds.push(0),
            4 => lent.registers.push(0),
            5 => lent.registers.truncate(self.random.below(REGISTERS_BYTES)),
            _ => lent.golden.push(0),
        }
        both(kind, &words, &mut lent)[0].answer
    }
}

/// Compares random calls, and gives the number of pairs of a kind of call and an answer among them.
pub fn check_random(calls: usize) -> usize {
    let sizes = [8, 12, 24, 40, 260, 512, 512];
    let lists = 8;
    let begins = [Kind::Begin, Kind::BeginKinds];
    let others: Vec<Kind> = Kind::ALL.into_iter().filter(|kind| !begins.contains(kind)).collect();
    let mut pairs = BTreeSet::new();
    for (seed, blocks) in sizes.into_iter().enumerate() {
        for list in 0..lists {
            let mut drawn = Drawn::new(100 * seed as u64 + list, blocks);
            for _ in 0..calls / sizes.len() / lists as usize {
                if drawn.random.below(4) == 0 {
                    drawn.poke_memory();
                }
                if list % 2 == 1 && drawn.random.below(4) == 0 {
                    drawn.poke_ledger();
                }
                if list % 4 >= 2 && drawn.random.below(4) == 0 {
                    drawn.poke_mark();
                }
                if drawn.random.below(100) == 0 {
                    drawn.poke_kind();
                }
                if drawn.random.below(4) == 0 {
                    drawn.draw_registers();
                }
                let kind = match drawn.random.below(100) {
                    0 => Kind::Begin,
                    1 => Kind::BeginKinds,
                    _ => drawn.random.one_of(&others),
                };
                drawn.draw_kinds();
                pairs.insert((kind, drawn.call(kind)));
            }
        }
    }
    pairs.len()
}
