//! Lists 7 to 12 and 14 to 16, held against every step of a list by what is told alone (lists 4 to 6). The ledger is looked at only to compare its w, x
//! and l and its kinds, for its marks, and to see that an acknowledge leaves it. Nothing is shared with the reference but SHA-256.
use crate::hasher::block_digest;
use crate::monitor::{Call, Given, Kind, Store, BLOCK, KINDS_AT, LEDGER_HEAD, LEDGER_RECORD};
use std::collections::BTreeSet;
use std::fmt;
use std::rc::Rc;

/// What an entry gives: its blocks, and write, execute or a link.
struct Gives {
    first: usize,
    count: usize,
    write: bool,
    execute: bool,
    link: bool,
}

/// What AP 000 to 111 give: 'n' nothing, 'r' read, 'w' read and write, '-' not accepted.
const AP: [u8; 8] = *b"nnrw-nrr";

fn l1_gives(word: u32) -> Option<Gives> {
    match word % 4 {
        1 if word / 4 % 256 == 0 => {
            Some(Gives { first: word as usize / 4096, count: 1, write: false, execute: false, link: true })
        }
        2 if word & 0x000C_03E0 == 0 => {
            let ap = AP[((word >> 13 & 4) + (word >> 10 & 3)) as usize];
            mapping(word as usize / (1 << 20) * 256, 256, ap, word & 0x10 == 0)
        }
        _ => None,
    }
}

/// Of an L2 table or block, the entry at an index. One of a large page gives a block of its own.
fn l2_gives(table: &[u8], index: usize) -> Option<Gives> {
    let entry = word(table, index);
    let ap = AP[((entry >> 7 & 4) + (entry >> 4 & 3)) as usize];
    match entry % 4 {
        0 => None,
        1 if entry & 0x1C0 != 0 || !is_repeated(table, index) => None,
        1 => mapping(entry as usize / 65536 * 16 + index % 16, 1, ap, entry & 0x8000 == 0),
        _ => mapping(entry as usize / 4096, 1, ap, entry % 2 == 0),
    }
}

/// Does the word at an index stand in all sixteen entries around it?
fn is_repeated(table: &[u8], index: usize) -> bool {
    let sixteen = table.chunks(64).nth(index / 16).unwrap_or_default();
    sixteen.chunks(4).all(|bytes| bytes == &table[4 * index..4 * index + 4])
}

fn mapping(first: usize, count: usize, ap: u8, may_execute: bool) -> Option<Gives> {
    let execute = may_execute && (ap == b'r' || ap == b'w');
    (ap != b'-').then_some(Gives { first, count, write: ap == b'w', execute, link: false })
}

fn answer_allowed(given: Given) -> Result<(), String> {
    match given.answer {
        13 | 24 => Err(format!("the answer is {}", given.answer)),
        _ => Ok(()),
    }
}

fn unaltered(before: &Before, after: &Store) -> Result<(), String> {
    match (before.memory == after.memory, before.ledger == after.ledger) {
        (true, true) => Ok(()),
        (false, _) => Err("an acknowledge altered the memory".to_string()),
        _ => Err("an acknowledge altered the ledger".to_string()),
    }
}

fn word(bytes: &[u8], index: usize) -> u32 {
    (0..4).map(|k| u32::from(bytes[4 * index + k]) << (8 * k)).sum()
}

/// The five words of a block's record.
fn record(ledger: &[u8], position: usize) -> &[u8] {
    &ledger[LEDGER_HEAD..][LEDGER_RECORD * position..][..LEDGER_RECORD]
}

/// Memory and ledger as a step was lent them.
pub struct Before {
    memory: Rc<Vec<u8>>,
    ledger: Vec<u8>,
}

impl From<&Store> for Before {
    fn from(store: &Store) -> Before {
        Before { memory: store.memory.clone(), ledger: store.ledger.clone() }
    }
}

/// A clause of lists that a step breaks, and how.
pub struct Breach {
    pub clause: u32,
    what: String,
}

impl fmt::Display for Breach {
    fn fmt(&self, f: &mut fmt::Formatter) -> fmt::Result {
        write!(f, "lists {}: {}", self.clause, self.what)
    }
}

/// What the steps and answers since the last accepted begin tell.
pub struct Told {
    pub first: usize,
    /// 0, 1 or 2 for each block: no table, L1, L2.
    pub tables: Vec<u8>,
    /// The table of the last accepted switch.
    pub switched: Option<usize>,
    /// The bytes of the memory kinds.
    kinds: Vec<u8>,
}

/// The kinds of a begin that names none.
const WRITE_BACK: [u8; 16] = [3, 0, 3, 0, 3, 0, 3, 0, 3, 0, 3, 0, 3, 0, 3, 0];

impl Told {
    /// After an accepted begin with this B, which names no kinds.
    pub fn new(first: u32, blocks: usize) -> Told {
        let first = first as usize;
        Told { first, tables: vec![0; blocks], switched: None, kinds: WRITE_BACK.to_vec() }
    }

    /// Notes what a step tells, if it was accepted. It was lent these kinds, if it takes any.
    pub fn note(&mut self, call: Call, given: Given, kinds: &[u8]) {
        if given.answer != 0 {
            return;
        }
        let at = call.arguments[0] as usize;
        let position = at.wrapping_sub(self.first);
        let mut set = |count: usize, code: u8| {
            if let Some(blocks) = self.tables.get_mut(position..position.saturating_add(count)) {
                blocks.fill(code);
            }
        };
        match call.kind {
            Kind::Begin | Kind::BeginKinds => {
                self.first = at;
                self.tables.fill(0);
                self.switched = None;
                self.kinds = if call.kind == Kind::Begin { WRITE_BACK.to_vec() } else { kinds.to_vec() };
            }
            Kind::CreateL1 => set(4, 1),
            Kind::CreateL2 => set(1, 2),
            Kind::FreeL1 => set(4, 0),
            Kind::FreeL2 => set(1, 0),
            Kind::Switch => self.switched = Some(at),
            _ => {}
        }
    }

    /// The blocks to which the entries of an accepted create or map give write: the first and the number of each entry's.
    pub fn granted_to_write(&self, call: Call, memory: &[u8]) -> BTreeSet<(usize, usize)> {
        let [block, index, ..] = call.arguments.map(|number| number as usize);
        let (is_l1, indices) = match call.kind {
            Kind::CreateL1 => (true, 0..4096),
            Kind::CreateL2 => (false, 0..1024),
            Kind::MapL1 | Kind::MapL1Kind => (true, index..index + 1),
            Kind::MapL2 | Kind::MapL2Kind => (false, index..index + 1),
            Kind::MapLarge | Kind::MapLargeKind => (false, index..index + 16),
            _ => return BTreeSet::new(),
        };
        let table = &memory[BLOCK * (block - self.first)..];
        let gives = |index| if is_l1 { l1_gives(word(table, index)) } else { l2_gives(table, index) };
        indices.filter_map(gives).filter(|gives| gives.write).map(|gives| (gives.first, gives.count)).collect()
    }

    /// Holds a step against lists 7 to 12 and 14 to 16.
    pub fn step(&mut self, call: Call, given: Given, before: &Before, store: &Store) -> Vec<Breach> {
        let mut held = vec![(12, answer_allowed(given))];
        if matches!(call.kind, Kind::Read | Kind::Write | Kind::Fetch) {
            held.push((10, self.tables_unaltered(&before.memory, &store.memory)));
        }
        if call.kind == Kind::Acknowledge {
            held.push((16, unaltered(before, store)));
        }
        if call.kind == Kind::Fetch && given.answer == 0 {
            held.push((11, self.fetched(call.arguments[0] as usize, given.byte, store)));
        }
        self.note(call, given, &store.kinds);
        let counts = self.counts(&store.memory);
        held.push((9, self.ledger_agrees(&counts, &store.ledger)));
        held.push((7, self.never_both(&counts)));
        held.push((8, self.executable_is_signed(&counts, store)));
        held.push((14, self.marked_is_signed(store)));
        held.push((15, self.kinds_are_kept(&store.ledger)));
        held.into_iter().filter_map(|(clause, outcome)| outcome.err().map(|what| Breach { clause, what })).collect()
    }

    fn tables_unaltered(&self, before: &[u8], after: &[u8]) -> Result<(), String> {
        let altered = self.tables.iter().enumerate().find(|(position, code)| {
            let block = BLOCK * position..BLOCK * (position + 1);
            **code != 0 && before[block.clone()] != after[block]
        });
        altered.map_or(Ok(()), |(position, _)| Err(format!("a guest step altered the table block {position}")))
    }

    /// w, x and l of each block, read afresh from the tables in memory.
    fn counts(&self, memory: &[u8]) -> Vec<[u32; 3]> {
        let mut counts = vec![[0; 3]; self.tables.len()];
        for (position, code) in self.tables.iter().enumerate().filter(|(_, code)| **code != 0) {
            let block = &memory[BLOCK * position..BLOCK * (position + 1)];
            for index in (0..1024).filter(|index| word(block, *index) % 4 != 0) {
                let gives = if *code == 1 { l1_gives(word(block, index)) } else { l2_gives(block, index) };
                let Some(gives) = gives else { continue };
                for block in gives.first..gives.first + gives.count {
                    if let Some(count) = block.checked_sub(self.first).and_then(|at| counts.get_mut(at)) {
                        count[0] += u32::from(gives.write);
                        count[1] += u32::from(gives.execute);
                        count[2] += u32::from(gives.link);
                    }
                }
            }
        }
        counts
    }

    fn ledger_agrees(&self, counts: &[[u32; 3]], ledger: &[u8]) -> Result<(), String> {
        for (position, count) in counts.iter().enumerate() {
            let record = record(ledger, position);
            for which in 0..3 {
                let kept = word(record, 1 + which);
                if kept != count[which] {
                    let name = ["w", "x", "l"][which];
                    return Err(format!("{name} of block {position} is {kept}, afresh {}", count[which]));
                }
            }
        }
        Ok(())
    }

    fn never_both(&self, counts: &[[u32; 3]]) -> Result<(), String> {
        let both = counts.iter().position(|count| count[0] > 0 && count[1] > 0);
        both.map_or(Ok(()), |position| Err(format!("block {position} is writable and executable")))
    }

    fn executable_is_signed(&self, counts: &[[u32; 3]], store: &Store) -> Result<(), String> {
        let unsigned = (0..counts.len()).find(|&position| counts[position][1] > 0 && !self.signed(position, store));
        unsigned.map_or(Ok(()), |position| Err(format!("block {position} is executable and not signed")))
    }

    fn marked_is_signed(&self, store: &Store) -> Result<(), String> {
        let marked = (0..self.tables.len()).filter(|&position| word(record(&store.ledger, position), 4) == 1);
        let unsigned = marked.into_iter().find(|&position| !self.signed(position, store));
        unsigned.map_or(Ok(()), |position| Err(format!("block {position} is marked and not signed")))
    }

    fn kinds_are_kept(&self, ledger: &[u8]) -> Result<(), String> {
        match &ledger[KINDS_AT..LEDGER_HEAD] {
            kept if kept == self.kinds => Ok(()),
            kept => Err(format!("the kinds are {kept:02x?}, and begin had {:02x?}", self.kinds)),
        }
    }

    fn signed(&self, position: usize, store: &Store) -> bool {
        let block = &store.memory[BLOCK * position..BLOCK * (position + 1)];
        let digest = block_digest((self.first + position) as u32, block);
        store.golden.chunks_exact(32).any(|known| known == digest)
    }

    /// The block and offset at which a walk from the last switched table ends, if it ends in the region.
    pub fn walk(&self, address: usize, memory: &[u8]) -> Option<(usize, usize)> {
        let table = self.position(self.switched?)?;
        let entry = word(memory.get(BLOCK * table..BLOCK * (table + 4))?, address >> 20);
        let gives = l1_gives(entry)?;
        if !gives.link {
            return Some((self.position(gives.first + (address >> 12) % 256)?, address % BLOCK));
        }
        let place = BLOCK * self.position(gives.first)? + 1024 * (entry as usize >> 10 & 3);
        let page = l2_gives(&memory[place..place + 1024], (address >> 12) % 256)?;
        Some((self.position(page.first)?, address % BLOCK))
    }

    /// The block's number in the region, counted from 0.
    fn position(&self, block: usize) -> Option<usize> {
        block.checked_sub(self.first).filter(|position| *position < self.tables.len())
    }

    /// Lists 11; and the block in which the walk ends is executable and not writable.
    fn fetched(&self, address: usize, byte: u8, store: &Store) -> Result<(), String> {
        let (position, offset) =
            self.walk(address, &store.memory).ok_or("a fetch was accepted, and its walk has no end")?;
        let counts = self.counts(&store.memory);
        if store.memory[BLOCK * position + offset] != byte {
            return Err(format!("the byte fetched is not at the walk's end in block {position}"));
        }
        if counts[position][1] == 0 || counts[position][0] > 0 || !self.signed(position, store) {
            return Err(format!("the byte fetched came from block {position}: not executable, writable or not signed"));
        }
        Ok(())
    }
}
