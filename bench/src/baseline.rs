//! The calls in plain Rust, written for speed: what a good program without proofs would be. Safe Rust, every index checked.
//! Create and free count a table's entries in lent scratch bytes first, COUNT for each block; their counts are 0 before and after each call.
use crate::digest::block_digest;

const BLOCK: usize = 4096;
const LEDGER_HEAD: usize = 24;
/// Where the ledger has its memory kinds.
const KINDS_AT: usize = 8;
const KINDS: u32 = 8;
const KINDS_BYTES: usize = 16;
/// B and C.
const CACHED: u16 = 0b11;
const RECORD: usize = 20;
/// The scratch bytes of a block.
pub const COUNT: usize = 16;
const DIGEST: usize = 32;

const DATA: u32 = 0;
const L1: u32 = 1;
const L2: u32 = 2;

const READ: u32 = 1;
const WRITE: u32 = 2;
const EXECUTE: u32 = 4;

const NO_TABLE: u32 = 0xFFFF_FFFF;
const LIMIT: u32 = 1 << 22;
const L1_BLOCKS: u32 = 4;
const SECTION_BLOCKS: u32 = 256;
const LARGE_BLOCKS: u32 = 16;
/// The bytes of a large page's sixteen entries.
const RUN: usize = 64;

/// Where the fault registers have the status and the address of a data fault and of a fetch's, and the pending byte.
const DATA_FAULT: usize = 0;
const FETCH_FAULT: usize = 8;
const PENDING: usize = 16;
type Registers = [u8; 17];

/// Nothing, or the number of a refusal. Of creates and maps: how many blocks were hashed, or that number.
type Judged<T = ()> = Result<T, u32>;

#[inline(always)]
fn answer(judged: Judged) -> u32 {
    match judged {
        Ok(()) => 0,
        Err(number) => number,
    }
}

#[inline(always)]
fn answer_and_hashed(judged: Judged<u32>, hashed: &mut u32) -> u32 {
    *hashed = judged.unwrap_or(0);
    answer(judged.map(|_| ()))
}

#[inline(always)]
fn refuse_if(refused: bool, number: u32) -> Judged {
    if refused {
        return Err(number);
    }
    Ok(())
}

#[inline(always)]
fn word(bytes: &[u8], at: usize) -> u32 {
    u32::from_le_bytes(bytes[at..at + 4].try_into().unwrap())
}

#[inline(always)]
fn put_word(bytes: &mut [u8], at: usize, word: u32) {
    bytes[at..at + 4].copy_from_slice(&word.to_le_bytes());
}

/// A block's record in the ledger.
type Record = [u8; RECORD];

/// Where its words stand.
const TYPE: usize = 0;
const W: usize = 4;
const X: usize = 8;
const L: usize = 12;
const MARK: usize = 16;

const MARKED: u32 = 1;

#[inline(always)]
fn is_marked(record: &Record) -> bool {
    word(record, MARK) == MARKED
}

/// Clears the mark of the block in which a byte of memory lies.
#[inline(always)]
fn unmark(ledger: &mut [u8], at: usize) {
    put_word(&mut records_mut(ledger)[at / BLOCK], MARK, 0);
}

/// The records of all blocks.
#[inline(always)]
fn records(ledger: &[u8]) -> &[Record] {
    ledger[LEDGER_HEAD..].as_chunks().0
}

#[inline(always)]
fn records_mut(ledger: &mut [u8]) -> &mut [Record] {
    ledger[LEDGER_HEAD..].as_chunks_mut().0
}

/// The records of M blocks.
#[inline(always)]
fn records_of<const M: u32>(ledger: &[u8], t: usize) -> &[Record] {
    &records(ledger)[t..t + M as usize]
}

#[derive(Clone, Copy)]
struct Region {
    first: u32,
    blocks: u32,
}

impl Region {
    #[inline(always)]
    fn starting(first: u32, memory: &[u8], ledger: &[u8]) -> Judged<Region> {
        let blocks = memory.len() / BLOCK;
        refuse_if(memory.len() % BLOCK != 0 || !(8..=4096).contains(&blocks), 1)?;
        refuse_if(ledger.len() != LEDGER_HEAD + RECORD * blocks, 1)?;
        refuse_if(first % SECTION_BLOCKS != 0 || first as usize + blocks > 1 << 20, 1)?;
        Ok(Region { first, blocks: blocks as u32 })
    }

    #[inline(always)]
    fn stored(memory: &[u8], ledger: &[u8]) -> Judged<Region> {
        refuse_if(ledger.len() < LEDGER_HEAD, 1)?;
        let region = Region::starting(word(ledger, 0), memory, ledger)?;
        judge_kinds(&ledger[KINDS_AT..LEDGER_HEAD])?;
        Ok(region)
    }

    /// The first of m blocks, counted from the region's first, if they lie in the region.
    #[inline(always)]
    fn place(self, block: u32, m: u32) -> Option<usize> {
        let b = block.wrapping_sub(self.first);
        (b as u64 + m as u64 <= self.blocks as u64).then_some(b as usize)
    }

    #[inline(always)]
    fn l1_place(self, block: u32) -> Judged<usize> {
        let b = self.place(block, L1_BLOCKS).ok_or(2u32)?;
        refuse_if(block % L1_BLOCKS != 0, 3)?;
        Ok(b)
    }
}

/// The kinds have no bit above bit 6.
#[inline(always)]
fn judge_kinds(kinds: &[u8]) -> Judged {
    let words = kinds.as_chunks().0.iter().map(|word| u32::from_le_bytes(*word));
    refuse_if(words.fold(0, |all, word| all | word) & 0xFF80_FF80 != 0, 1)
}

/// The kind under a number.
#[inline(always)]
fn stored_kind(ledger: &[u8], number: u32) -> u32 {
    let at = KINDS_AT + 2 * number as usize;
    u16::from_le_bytes([ledger[at], ledger[at + 1]]) as u32
}

/// Its bits in a word, TEX from bit `tex` on, S and nG from bit `s` on.
#[inline(always)]
fn kind_bits(kind: u32, tex: u32, s: u32) -> u32 {
    (kind & 3) << 2 | (kind >> 2 & 7) << tex | (kind >> 5 & 3) << s
}

#[inline(always)]
fn judge_image(golden: &[u8]) -> Judged {
    refuse_if(golden.len() % DIGEST != 0 || golden.len() > 1024 * DIGEST, 1)
}

fn is_signed(memory: &[u8], region: Region, b: usize, golden: &[u8]) -> bool {
    let digest = block_digest(region.first + b as u32, &memory.as_chunks().0[b]);
    golden.chunks_exact(DIGEST).any(|listed| listed == digest)
}

#[derive(Clone, Copy)]
enum Entry {
    Fault,
    Unaccepted,
    /// The number of an L2 table: its address / 1,024.
    Link(u32),
    /// The first block, the number of blocks, and the rights.
    Mapping(u32, u32, u32),
}

const FAULT: u8 = 0;
const WHOLE_WORD: u8 = 6;
const UNACCEPTED: u8 = 7;
const ACCEPTED: u8 = 8;

/// By AP and XN.
const fn rights_code(ap: usize, xn: usize) -> u8 {
    let read = matches!(ap, 0b010 | 0b011 | 0b110 | 0b111);
    if ap == 0b100 {
        return UNACCEPTED;
    }
    ACCEPTED + read as u8 + 2 * (ap == 0b011) as u8 + 4 * (read && xn == 0) as u8
}

/// By AP and XN: 2 * AP + XN.
static CODES: [u8; 16] = {
    let mut codes = [0; 16];
    let mut at = 0;
    while at < 16 {
        codes[at] = rights_code(at / 2, at % 2);
        at += 1;
    }
    codes
};

/// By bits 9..0 of a page's word.
static PAGE_CODES: [u8; 1024] = {
    let mut codes = [FAULT; 1024];
    let mut low = 0;
    while low < 1024 {
        if low % 4 == 1 {
            codes[low] = WHOLE_WORD;
        }
        if low % 4 >= 2 {
            codes[low] = rights_code((low >> 9) * 4 + (low >> 4) % 4, low % 2);
        }
        low += 1;
    }
    codes
};

#[inline(always)]
fn l1_entry(word: u32) -> Entry {
    match word & 3 {
        0 => Entry::Fault,
        1 if word & 0x3FC == 0 => Entry::Link(word >> 10),
        2 if word & 0xC_03E0 == 0 => {
            let code = CODES[((word >> 12 & 8) | (word >> 9 & 6) | (word >> 4 & 1)) as usize];
            if code == UNACCEPTED {
                return Entry::Unaccepted;
            }
            Entry::Mapping(word >> 20 << 8, SECTION_BLOCKS, (code - ACCEPTED) as u32)
        }
        _ => Entry::Unaccepted,
    }
}

/// A fault, a page, or what is accepted in a run at most.
#[inline(always)]
fn l2_entry(word: u32) -> Entry {
    match PAGE_CODES[word as usize % 1024] {
        FAULT => Entry::Fault,
        WHOLE_WORD | UNACCEPTED => Entry::Unaccepted,
        code => Entry::Mapping(word >> 12, 1, (code - ACCEPTED) as u32),
    }
}

/// Sixteen entries, of which the first has low bits 01, as one mapping.
#[inline(always)]
fn large_entry(run: &[u8; RUN]) -> Entry {
    let word = word(run, 0);
    let code = CODES[((word >> 6 & 8) | (word >> 3 & 6) | (word >> 15 & 1)) as usize];
    if word & 0x1C0 != 0 || code == UNACCEPTED || run[4..] != run[..RUN - 4] {
        return Entry::Unaccepted;
    }
    Entry::Mapping(word >> 16 << 4, LARGE_BLOCKS, (code - ACCEPTED) as u32)
}

#[inline(always)]
fn judge_begin(memory: &[u8], ledger: &mut [u8], kinds: &[u8], first: u32) -> Judged {
    Region::starting(first, memory, ledger)?;
    refuse_if(kinds.len() != KINDS_BYTES, 1)?;
    judge_kinds(kinds)?;
    ledger[LEDGER_HEAD..].fill(0);
    ledger[KINDS_AT..LEDGER_HEAD].copy_from_slice(kinds);
    put_word(ledger, 0, first);
    put_word(ledger, 4, NO_TABLE);
    Ok(())
}

#[inline(never)]
pub fn begin_kinds(memory: &[u8], ledger: &mut [u8], kinds: &[u8], first: u32) -> u32 {
    answer(judge_begin(memory, ledger, kinds, first))
}

#[inline(never)]
pub fn begin(memory: &[u8], ledger: &mut [u8], first: u32) -> u32 {
    answer(judge_begin(memory, ledger, [CACHED.to_le_bytes(); 8].as_flattened(), first))
}

/// A table's level: its blocks, its type, whether sixteen words may be one large page, and what a word means otherwise.
trait Level {
    const BLOCKS: u32;
    const TYPE: u32;
    const LARGE_PAGES: bool;
    fn entry(word: u32) -> Entry;
}

struct Sections;
struct Pages;

impl Level for Sections {
    const BLOCKS: u32 = L1_BLOCKS;
    const TYPE: u32 = L1;
    const LARGE_PAGES: bool = false;
    #[inline(always)]
    fn entry(word: u32) -> Entry {
        l1_entry(word)
    }
}

impl Level for Pages {
    const BLOCKS: u32 = 1;
    const TYPE: u32 = L2;
    const LARGE_PAGES: bool = true;
    #[inline(always)]
    fn entry(word: u32) -> Entry {
        l2_entry(word)
    }
}

/// The bytes of the table at b.
#[inline(always)]
fn table_bytes<V: Level>(memory: &[u8], b: usize) -> &[u8] {
    &memory[BLOCK * b..BLOCK * (b + V::BLOCKS as usize)]
}

#[inline(always)]
fn words(bytes: &[u8]) -> impl Iterator<Item = u32> + '_ {
    bytes.as_chunks().0.iter().map(|bytes| u32::from_le_bytes(*bytes))
}

/// The scratch bytes of a block: its counts in the places of the ledger's record.
type Count = [u8; COUNT];

/// What a table's entries give to each block. Count b of the scratch bytes is that of block b; the first word of count i is the block that was the
/// i-th to be counted.
struct Counts<'a> {
    scratch: &'a mut [Count],
    counted: usize,
}

impl Counts<'_> {
    /// Adds one to a count of block b, and gives the counts as they are then.
    #[inline(always)]
    fn add(&mut self, b: usize, k: usize) -> [u32; 3] {
        let record = &mut self.scratch[b];
        let mut counts = [W, X, L].map(|k| word(record, k));
        let counted = counts != [0, 0, 0];
        counts[k / 4 - 1] += 1;
        put_word(record, k, counts[k / 4 - 1]);
        if !counted {
            put_word(&mut self.scratch[self.counted], TYPE, b as u32);
            self.counted += 1;
        }
        counts
    }

    /// The i-th block that was counted.
    #[inline(always)]
    fn block(&self, i: usize) -> usize {
        word(&self.scratch[i], TYPE) as usize
    }

    #[inline(never)]
    fn clear(&mut self) {
        for i in 0..self.counted {
            let b = self.block(i);
            self.scratch[b][W..].fill(0);
        }
    }
}

/// Would a counter end above its limit?
#[inline(always)]
fn added_overruns(old: u32, count: u32) -> bool {
    old.saturating_add(count) > LIMIT
}

/// Above every number of a refusal.
const NONE: u32 = 99;

/// What the first pass over a new table finds: the lowest of the refusals 10, 11 and 13, and whether an entry executes.
/// Counts only grow, so that a clash or an overrun on the way is one at the end.
struct New {
    refusal: u32,
    executes: bool,
}

impl New {
    #[inline(always)]
    fn refuse_if(&mut self, refused: bool, number: u32) {
        if refused {
            self.refusal = self.refusal.min(number);
        }
    }

    #[inline(always)]
    fn link(&mut self, t: usize, ledger: &[Record], counts: &mut Counts) {
        let old = &ledger[t];
        let [_, _, l] = counts.add(t, L);
        self.refuse_if(word(old, TYPE) != L2, 10);
        self.refuse_if(added_overruns(word(old, L), l), 13);
    }

    #[inline(always)]
    fn written(&mut self, t: usize, ledger: &[Record], counts: &mut Counts) {
        let old = &ledger[t];
        let [w, x, _] = counts.add(t, W);
        self.refuse_if(word(old, TYPE) != DATA, 10);
        self.refuse_if(word(old, X) | x != 0, 11);
        self.refuse_if(added_overruns(word(old, W), w), 13);
    }

    #[inline(never)]
    fn executed(&mut self, t: usize, ledger: &[Record], counts: &mut Counts) {
        let old = &ledger[t];
        let [w, x, _] = counts.add(t, X);
        self.refuse_if(word(old, W) | w != 0, 11);
        self.refuse_if(added_overruns(word(old, X), x), 13);
        self.executes = true;
    }

    /// Refusal 8 is given at once.
    #[inline(always)]
    fn count<V: Level>(
        &mut self,
        memory: &[u8],
        ledger: &[Record],
        region: Region,
        block: u32,
        b: usize,
        counts: &mut Counts,
    ) -> Judged {
        for run in table_bytes::<V>(memory, b).as_chunks().0 {
            if V::LARGE_PAGES && run[0] & 3 == 1 {
                self.add::<V>(large_entry(run), ledger, region, block, counts)?;
                continue;
            }
            for word in words(run) {
                self.add::<V>(V::entry(word), ledger, region, block, counts)?;
            }
        }
        Ok(())
    }

    #[inline(always)]
    fn add<V: Level>(
        &mut self,
        entry: Entry,
        ledger: &[Record],
        region: Region,
        block: u32,
        counts: &mut Counts,
    ) -> Judged {
        match entry {
            Entry::Fault => {}
            Entry::Unaccepted => return Err(8),
            Entry::Link(place) => match region.place(place / 4, 1) {
                Some(t) => self.link(t, ledger, counts),
                None => self.refuse_if(true, 10),
            },
            Entry::Mapping(first, m, rights) => match region.place(first, m) {
                Some(t) => {
                    if rights & WRITE != 0 {
                        self.refuse_if(first < block + V::BLOCKS && block < first + m, 10);
                        (t..t + m as usize).for_each(|t| self.written(t, ledger, counts));
                    }
                    if rights & EXECUTE != 0 {
                        (t..t + m as usize).for_each(|t| self.executed(t, ledger, counts));
                    }
                }
                None => self.refuse_if(true, 10),
            },
        }
        Ok(())
    }

    /// Refusals 10 to 13.
    #[inline(always)]
    fn judge(&self, memory: &[u8], ledger: &[Record], golden: &[u8], region: Region, counts: &Counts) -> Judged<u32> {
        refuse_if(self.refusal < 12, self.refusal)?;
        let mut hashed = 0;
        if self.executes {
            for i in 0..counts.counted {
                let b = counts.block(i);
                if word(&counts.scratch[b], X) > 0 && !is_marked(&ledger[b]) {
                    refuse_if(!is_signed(memory, region, b, golden), 12)?;
                    hashed += 1;
                }
            }
        }
        refuse_if(self.refusal < NONE, self.refusal)?;
        Ok(hashed)
    }
}

/// Would the counter end below 0 or above its limit?
#[inline(always)]
fn taken_overruns(old: u32, count: u32) -> bool {
    count > 0 && (old < count || old - count > LIMIT)
}

#[inline(always)]
fn put_types<V: Level>(ledger: &mut [Record], b: usize, kind: u32) {
    for record in &mut ledger[b..b + V::BLOCKS as usize] {
        put_word(record, TYPE, kind);
    }
}

#[inline(always)]
fn create<V: Level>(
    memory: &[u8],
    ledger: &mut [u8],
    golden: &[u8],
    scratch: &mut [u8],
    region: Region,
    block: u32,
    b: usize,
) -> Judged<u32> {
    let ledger = records_mut(ledger);
    let own = &ledger[b..b + V::BLOCKS as usize];
    refuse_if(own.iter().any(|record| word(record, TYPE) != DATA), 5)?;
    refuse_if(own.iter().any(|record| word(record, W) | word(record, X) | word(record, L) != 0), 6)?;
    let mut counts = Counts { scratch: scratch.as_chunks_mut().0, counted: 0 };
    let mut new = New { refusal: NONE, executes: false };
    let judged = new
        .count::<V>(memory, ledger, region, block, b, &mut counts)
        .and_then(|()| new.judge(memory, ledger, golden, region, &counts));
    if judged.is_err() {
        counts.clear();
        return judged;
    }
    for i in 0..counts.counted {
        let t = counts.block(i);
        let (count, record) = (&mut counts.scratch[t], &mut ledger[t]);
        if word(count, X) > 0 {
            put_word(record, MARK, MARKED);
        }
        for k in [W, X, L] {
            let sum = word(record, k) + word(count, k);
            put_word(record, k, sum);
            put_word(count, k, 0);
        }
    }
    put_types::<V>(ledger, b, V::TYPE);
    judged
}

#[inline(always)]
fn judge_create_l1(memory: &[u8], ledger: &mut [u8], golden: &[u8], scratch: &mut [u8], block: u32) -> Judged<u32> {
    let region = Region::stored(memory, ledger)?;
    judge_image(golden)?;
    let b = region.l1_place(block)?;
    create::<Sections>(memory, ledger, golden, scratch, region, block, b)
}

#[inline(always)]
fn judge_create_l2(memory: &[u8], ledger: &mut [u8], golden: &[u8], scratch: &mut [u8], block: u32) -> Judged<u32> {
    let region = Region::stored(memory, ledger)?;
    judge_image(golden)?;
    let b = region.place(block, 1).ok_or(2u32)?;
    create::<Pages>(memory, ledger, golden, scratch, region, block, b)
}

#[inline(never)]
pub fn create_l1(
    memory: &[u8],
    ledger: &mut [u8],
    golden: &[u8],
    scratch: &mut [u8],
    block: u32,
    hashed: &mut u32,
) -> u32 {
    answer_and_hashed(judge_create_l1(memory, ledger, golden, scratch, block), hashed)
}

#[inline(never)]
pub fn create_l2(
    memory: &[u8],
    ledger: &mut [u8],
    golden: &[u8],
    scratch: &mut [u8],
    block: u32,
    hashed: &mut u32,
) -> u32 {
    answer_and_hashed(judge_create_l2(memory, ledger, golden, scratch, block), hashed)
}

/// Refusals 8 and 10 of an old table's entries, which are counted on the way.
#[inline(always)]
fn count_old<V: Level>(memory: &[u8], region: Region, b: usize, counts: &mut Counts) -> Judged {
    let mut inside = true;
    for run in table_bytes::<V>(memory, b).as_chunks().0 {
        if V::LARGE_PAGES && run[0] & 3 == 1 {
            inside &= add_old(large_entry(run), region, counts)?;
            continue;
        }
        for word in words(run) {
            inside &= add_old(V::entry(word), region, counts)?;
        }
    }
    refuse_if(!inside, 10)
}

/// Is the entry's place inside? Refusal 8 is given at once.
#[inline(always)]
fn add_old(entry: Entry, region: Region, counts: &mut Counts) -> Judged<bool> {
    match entry {
        Entry::Fault => {}
        Entry::Unaccepted => return Err(8),
        Entry::Link(place) => match region.place(place / 4, 1) {
            Some(t) => _ = counts.add(t, L),
            None => return Ok(false),
        },
        Entry::Mapping(first, m, rights) => match region.place(first, m) {
            Some(t) => {
                for (right, k) in [(WRITE, W), (EXECUTE, X)] {
                    if rights & right != 0 {
                        (t..t + m as usize).for_each(|t| _ = counts.add(t, k));
                    }
                }
            }
            None => return Ok(false),
        },
    }
    Ok(true)
}

/// Refusal 13 of the counted blocks.
#[inline(always)]
fn judge_taken(ledger: &[Record], counts: &Counts) -> Judged {
    for i in 0..counts.counted {
        let b = counts.block(i);
        let (count, record) = (&counts.scratch[b], &ledger[b]);
        let overruns = |k: usize| taken_overruns(word(record, k), word(count, k));
        refuse_if(overruns(W) || overruns(X) || overruns(L), 13)?;
    }
    Ok(())
}

#[inline(always)]
fn free<V: Level>(memory: &[u8], ledger: &mut [u8], scratch: &mut [u8], region: Region, b: usize) -> Judged {
    let ledger = records_mut(ledger);
    let mut counts = Counts { scratch: scratch.as_chunks_mut().0, counted: 0 };
    let judged = count_old::<V>(memory, region, b, &mut counts).and_then(|()| judge_taken(ledger, &counts));
    if judged.is_err() {
        counts.clear();
        return judged;
    }
    for i in 0..counts.counted {
        let t = counts.block(i);
        let (count, record) = (&mut counts.scratch[t], &mut ledger[t]);
        for k in [W, X, L] {
            let rest = word(record, k) - word(count, k);
            put_word(record, k, rest);
            put_word(count, k, 0);
        }
    }
    put_types::<V>(ledger, b, DATA);
    Ok(())
}

#[inline(always)]
fn judge_free_l1(memory: &[u8], ledger: &mut [u8], scratch: &mut [u8], block: u32) -> Judged {
    let region = Region::stored(memory, ledger)?;
    let b = region.l1_place(block)?;
    judge_l1_types(ledger, b)?;
    refuse_if(word(ledger, 4) == block, 6)?;
    free::<Sections>(memory, ledger, scratch, region, b)
}

#[inline(always)]
fn judge_free_l2(memory: &[u8], ledger: &mut [u8], scratch: &mut [u8], block: u32) -> Judged {
    let region = Region::stored(memory, ledger)?;
    let b = region.place(block, 1).ok_or(2u32)?;
    let own = &records(ledger)[b];
    refuse_if(word(own, TYPE) != L2, 5)?;
    refuse_if(word(own, L) > 0, 6)?;
    free::<Pages>(memory, ledger, scratch, region, b)
}

#[inline(never)]
pub fn free_l1(memory: &[u8], ledger: &mut [u8], scratch: &mut [u8], block: u32) -> u32 {
    answer(judge_free_l1(memory, ledger, scratch, block))
}

#[inline(never)]
pub fn free_l2(memory: &[u8], ledger: &mut [u8], scratch: &mut [u8], block: u32) -> u32 {
    answer(judge_free_l2(memory, ledger, scratch, block))
}

#[inline(always)]
fn judge_l1_types(ledger: &[u8], b: usize) -> Judged {
    refuse_if(records(ledger)[b..b + L1_BLOCKS as usize].iter().any(|record| word(record, TYPE) != L1), 5)
}

/// The place in memory of an L1 entry, if the table or the kind that the call names exists: refusals 2, 3, 4, 5 and 7.
#[inline(always)]
fn l1_slot(region: Region, ledger: &[u8], block: u32, index: u32, aligned: bool, named: bool) -> Judged<usize> {
    let b = region.l1_place(block)?;
    refuse_if(!aligned, 3)?;
    refuse_if(index > 4095 || !named, 4)?;
    judge_l1_types(ledger, b)?;
    refuse_if(word(&records(ledger)[b + index as usize / 1024], X) > 0, 7)?;
    Ok(BLOCK * b + 4 * index as usize)
}

/// The place in memory of an L2 entry, if the kind that the call names exists: refusals 2, 3, 4, 5 and 7.
#[inline(always)]
fn l2_slot(region: Region, ledger: &[u8], block: u32, index: u32, aligned: bool, named: bool) -> Judged<usize> {
    let b = region.place(block, 1).ok_or(2u32)?;
    refuse_if(!aligned, 3)?;
    refuse_if(index > 1023 || !named, 4)?;
    let holder = &records(ledger)[b];
    refuse_if(word(holder, TYPE) != L2, 5)?;
    refuse_if(word(holder, X) > 0, 7)?;
    Ok(BLOCK * b + 4 * index as usize)
}

/// Refusal 9.
#[inline(always)]
fn judge_rights(rights: u32) -> Judged {
    refuse_if(rights > 7 || (rights & READ == 0 && rights != 0), 9)
}

/// Refusals 8 and 9 of a new mapping.
#[inline(always)]
fn judge_request(memory: &[u8], at: usize, rights: u32) -> Judged {
    refuse_if(word(memory, at) & 3 != 0, 8)?;
    judge_rights(rights)
}

/// By the rights 0, 1, 3 and 5.
const SECTION_BITS: [u32; 8] = [0x412, 0x812, 0, 0xC12, 0, 0x802, 0, 0];
const PAGE_BITS: [u32; 8] = [0x013, 0x023, 0, 0x033, 0, 0x022, 0, 0];
const LARGE_BITS: [u32; 8] = [0x8011, 0x8021, 0, 0x8031, 0, 0x0021, 0, 0];

#[allow(clippy::too_many_arguments)]
#[inline(always)]
fn judge_map_l1(
    memory: &mut [u8],
    ledger: &mut [u8],
    golden: &[u8],
    block: u32,
    index: u32,
    target: u32,
    rights: u32,
    kind: u32,
) -> Judged<u32> {
    let region = Region::stored(memory, ledger)?;
    judge_image(golden)?;
    let at = l1_slot(region, ledger, block, index, target % SECTION_BLOCKS == 0, kind < KINDS)?;
    judge_request(memory, at, rights)?;
    let hashed = map_blocks::<SECTION_BLOCKS>(memory, ledger, golden, region, block + index / 1024, target, rights)?;
    put_word(memory, at, target << 12 | SECTION_BITS[rights as usize] | kind_bits(stored_kind(ledger, kind), 12, 16));
    unmark(ledger, at);
    Ok(hashed)
}

#[allow(clippy::too_many_arguments)]
#[inline(always)]
fn judge_map_large(
    memory: &mut [u8],
    ledger: &mut [u8],
    golden: &[u8],
    block: u32,
    index: u32,
    target: u32,
    rights: u32,
    kind: u32,
) -> Judged<u32> {
    let region = Region::stored(memory, ledger)?;
    judge_image(golden)?;
    let at = l2_slot(region, ledger, block, index, (index | target) % LARGE_BLOCKS == 0, kind < KINDS)?;
    let low = memory[at..at + RUN].iter().step_by(4).fold(0, |low, byte| low | byte);
    refuse_if(low & 3 != 0, 8)?;
    judge_rights(rights)?;
    let hashed = map_blocks::<LARGE_BLOCKS>(memory, ledger, golden, region, block, target, rights)?;
    let word =
        (target << 12 | LARGE_BITS[rights as usize] | kind_bits(stored_kind(ledger, kind), 12, 10)).to_le_bytes();
    memory[at..at + RUN].as_chunks_mut().0.fill(word);
    unmark(ledger, at);
    Ok(hashed)
}

/// Refusals 10 to 13 of a mapping of M blocks, their counters, and with execute their marks.
#[inline(always)]
fn map_blocks<const M: u32>(
    memory: &[u8],
    ledger: &mut [u8],
    golden: &[u8],
    region: Region,
    holder: u32,
    target: u32,
    rights: u32,
) -> Judged<u32> {
    let t = region.place(target, M).ok_or(10u32)?;
    let mut hashed = 0;
    let target_records = records_of::<M>(ledger, t);
    if rights & WRITE != 0 {
        let (mut types, mut executed, mut most) = (0, 0, 0);
        for record in target_records {
            types |= word(record, TYPE);
            executed |= word(record, X);
            most = word(record, W).max(most);
        }
        refuse_if(types != DATA, 10)?;
        refuse_if(rights & EXECUTE != 0 || executed != 0, 11)?;
        refuse_if(most >= LIMIT, 13)?;
        change_blocks::<M>(ledger, t, W, 1);
    } else if rights & EXECUTE != 0 {
        refuse_if((target..target + M).contains(&holder), 10)?;
        refuse_if(target_records.iter().any(|record| word(record, W) > 0), 11)?;
        for (b, _) in (t..).zip(target_records).filter(|(_, record)| !is_marked(record)) {
            refuse_if(!is_signed(memory, region, b, golden), 12)?;
            hashed += 1;
        }
        refuse_if(target_records.iter().any(|record| word(record, X) >= LIMIT), 13)?;
        change_blocks::<M>(ledger, t, X, 1);
        put_marks(ledger, t, M, MARKED);
    }
    Ok(hashed)
}

#[inline(always)]
fn put_marks(ledger: &mut [u8], t: usize, m: u32, mark: u32) {
    for record in &mut records_mut(ledger)[t..t + m as usize] {
        put_word(record, MARK, mark);
    }
}

/// Adds to a word of the records of M blocks, modulo 2^32.
#[inline(always)]
fn change_blocks<const M: u32>(ledger: &mut [u8], t: usize, k: usize, change: u32) {
    for record in &mut records_mut(ledger)[t..t + M as usize] {
        let changed = word(record, k).wrapping_add(change);
        put_word(record, k, changed);
    }
}

#[allow(clippy::too_many_arguments)]
#[inline(always)]
fn judge_map_l2(
    memory: &mut [u8],
    ledger: &mut [u8],
    golden: &[u8],
    block: u32,
    index: u32,
    target: u32,
    rights: u32,
    kind: u32,
) -> Judged<u32> {
    let region = Region::stored(memory, ledger)?;
    judge_image(golden)?;
    let at = l2_slot(region, ledger, block, index, true, kind < KINDS)?;
    judge_request(memory, at, rights)?;
    let t = region.place(target, 1).ok_or(10u32)?;
    let record = &mut records_mut(ledger)[t];
    let (w, x) = (word(record, W), word(record, X));
    let mut hashed = 0;
    if rights & WRITE != 0 {
        refuse_if(word(record, TYPE) != DATA, 10)?;
        refuse_if(rights & EXECUTE != 0 || x > 0, 11)?;
        refuse_if(w >= LIMIT, 13)?;
        put_word(record, W, w + 1);
    } else if rights & EXECUTE != 0 {
        refuse_if(target == block, 10)?;
        refuse_if(w > 0, 11)?;
        if !is_marked(record) {
            refuse_if(!is_signed(memory, region, t, golden), 12)?;
            hashed = 1;
        }
        refuse_if(x >= LIMIT, 13)?;
        put_word(record, X, x + 1);
        put_word(record, MARK, MARKED);
    }
    put_word(memory, at, target << 12 | PAGE_BITS[rights as usize] | kind_bits(stored_kind(ledger, kind), 6, 10));
    unmark(ledger, at);
    Ok(hashed)
}

#[allow(clippy::too_many_arguments)]
#[inline(never)]
pub fn map_l1(
    memory: &mut [u8],
    ledger: &mut [u8],
    golden: &[u8],
    block: u32,
    index: u32,
    target: u32,
    rights: u32,
    hashed: &mut u32,
) -> u32 {
    answer_and_hashed(judge_map_l1(memory, ledger, golden, block, index, target, rights, 0), hashed)
}

#[allow(clippy::too_many_arguments)]
#[inline(never)]
pub fn map_l1_kind(
    memory: &mut [u8],
    ledger: &mut [u8],
    golden: &[u8],
    block: u32,
    index: u32,
    target: u32,
    rights: u32,
    kind: u32,
    hashed: &mut u32,
) -> u32 {
    answer_and_hashed(judge_map_l1(memory, ledger, golden, block, index, target, rights, kind), hashed)
}

#[allow(clippy::too_many_arguments)]
#[inline(never)]
pub fn map_l2(
    memory: &mut [u8],
    ledger: &mut [u8],
    golden: &[u8],
    block: u32,
    index: u32,
    target: u32,
    rights: u32,
    hashed: &mut u32,
) -> u32 {
    answer_and_hashed(judge_map_l2(memory, ledger, golden, block, index, target, rights, 0), hashed)
}

#[allow(clippy::too_many_arguments)]
#[inline(never)]
pub fn map_l2_kind(
    memory: &mut [u8],
    ledger: &mut [u8],
    golden: &[u8],
    block: u32,
    index: u32,
    target: u32,
    rights: u32,
    kind: u32,
    hashed: &mut u32,
) -> u32 {
    answer_and_hashed(judge_map_l2(memory, ledger, golden, block, index, target, rights, kind), hashed)
}

#[allow(clippy::too_many_arguments)]
#[inline(never)]
pub fn map_large(
    memory: &mut [u8],
    ledger: &mut [u8],
    golden: &[u8],
    block: u32,
    index: u32,
    target: u32,
    rights: u32,
    hashed: &mut u32,
) -> u32 {
    answer_and_hashed(judge_map_large(memory, ledger, golden, block, index, target, rights, 0), hashed)
}

#[allow(clippy::too_many_arguments)]
#[inline(never)]
pub fn map_large_kind(
    memory: &mut [u8],
    ledger: &mut [u8],
    golden: &[u8],
    block: u32,
    index: u32,
    target: u32,
    rights: u32,
    kind: u32,
    hashed: &mut u32,
) -> u32 {
    answer_and_hashed(judge_map_large(memory, ledger, golden, block, index, target, rights, kind), hashed)
}

#[inline(always)]
fn judge_link(memory: &mut [u8], ledger: &mut [u8], block: u32, index: u32, target: u32, table: u32) -> Judged {
    let region = Region::stored(memory, ledger)?;
    let at = l1_slot(region, ledger, block, index, true, table < 4)?;
    refuse_if(word(memory, at) & 3 != 0, 8)?;
    let t = region.place(target, 1).ok_or(10u32)?;
    let record = &mut records_mut(ledger)[t];
    let l = word(record, L);
    refuse_if(word(record, TYPE) != L2, 10)?;
    refuse_if(l >= LIMIT, 13)?;
    put_word(record, L, l + 1);
    put_word(memory, at, target << 12 | table << 10 | 1);
    unmark(ledger, at);
    Ok(())
}

#[inline(never)]
pub fn link(memory: &mut [u8], ledger: &mut [u8], block: u32, index: u32, target: u32, table: u32) -> u32 {
    answer(judge_link(memory, ledger, block, index, target, table))
}

#[inline(always)]
fn judge_unmap_l1(memory: &mut [u8], ledger: &mut [u8], block: u32, index: u32) -> Judged {
    let region = Region::stored(memory, ledger)?;
    let at = l1_slot(region, ledger, block, index, true, true)?;
    match l1_entry(word(memory, at)) {
        Entry::Fault => {}
        Entry::Unaccepted => return Err(8),
        Entry::Link(place) => {
            let t = region.place(place / 4, 1).ok_or(10u32)?;
            let record = &mut records_mut(ledger)[t];
            let l = word(record, L);
            refuse_if(taken_overruns(l, 1), 13)?;
            put_word(record, L, l - 1);
        }
        Entry::Mapping(first, _, rights) => unmap_blocks::<SECTION_BLOCKS>(ledger, region, first, rights)?,
    }
    put_word(memory, at, 0);
    unmark(ledger, at);
    Ok(())
}

#[inline(always)]
fn judge_unmap_large(memory: &mut [u8], ledger: &mut [u8], block: u32, index: u32) -> Judged {
    let region = Region::stored(memory, ledger)?;
    let at = l2_slot(region, ledger, block, index, index % LARGE_BLOCKS == 0, true)?;
    let run = memory[at..].first_chunk_mut::<RUN>().ok_or(8u32)?;
    refuse_if(run[0] & 3 != 1, 8)?;
    let Entry::Mapping(first, _, rights) = large_entry(run) else { return Err(8) };
    unmap_blocks::<LARGE_BLOCKS>(ledger, region, first, rights)?;
    run.fill(0);
    unmark(ledger, at);
    Ok(())
}

/// Refusals 10 and 13 of a mapping of M blocks that is taken away, and their counters.
#[inline(always)]
fn unmap_blocks<const M: u32>(ledger: &mut [u8], region: Region, first: u32, rights: u32) -> Judged {
    let t = region.place(first, M).ok_or(10u32)?;
    let counted = [(WRITE, W), (EXECUTE, X)];
    for (right, k) in counted {
        let overruns = |record: &Record| taken_overruns(word(record, k), 1);
        refuse_if(rights & right != 0 && records_of::<M>(ledger, t).iter().any(overruns), 13)?;
    }
    for (right, k) in counted {
        if rights & right != 0 {
            change_blocks::<M>(ledger, t, k, 1u32.wrapping_neg());
        }
    }
    Ok(())
}

#[inline(always)]
fn judge_unmap_l2(memory: &mut [u8], ledger: &mut [u8], block: u32, index: u32) -> Judged {
    let region = Region::stored(memory, ledger)?;
    let at = l2_slot(region, ledger, block, index, true, true)?;
    match l2_entry(word(memory, at)) {
        Entry::Mapping(first, _, rights) => {
            let t = region.place(first, 1).ok_or(10u32)?;
            let (w, x) = (rights >> 1 & 1, rights >> 2);
            if w | x != 0 {
                let record = &mut records_mut(ledger)[t];
                let (old_w, old_x) = (word(record, W), word(record, X));
                refuse_if(taken_overruns(old_w, w) | taken_overruns(old_x, x), 13)?;
                put_word(record, W, old_w - w);
                put_word(record, X, old_x - x);
            }
        }
        Entry::Fault => {}
        _ => return Err(8),
    }
    put_word(memory, at, 0);
    unmark(ledger, at);
    Ok(())
}

#[inline(never)]
pub fn unmap_l1(memory: &mut [u8], ledger: &mut [u8], block: u32, index: u32) -> u32 {
    answer(judge_unmap_l1(memory, ledger, block, index))
}

#[inline(never)]
pub fn unmap_l2(memory: &mut [u8], ledger: &mut [u8], block: u32, index: u32) -> u32 {
    answer(judge_unmap_l2(memory, ledger, block, index))
}

#[inline(never)]
pub fn unmap_large(memory: &mut [u8], ledger: &mut [u8], block: u32, index: u32) -> u32 {
    answer(judge_unmap_large(memory, ledger, block, index))
}

#[inline(always)]
fn judge_switch(memory: &[u8], ledger: &mut [u8], block: u32) -> Judged {
    let region = Region::stored(memory, ledger)?;
    let b = region.l1_place(block)?;
    judge_l1_types(ledger, b)?;
    put_word(ledger, 4, block);
    Ok(())
}

#[inline(never)]
pub fn switch(memory: &[u8], ledger: &mut [u8], block: u32) -> u32 {
    answer(judge_switch(memory, ledger, block))
}

/// In the number of a refusal: the walk stopped or ended at an L2 entry.
const AT_L2: u32 = 1 << 8;
/// In a status: the access was a write.
const OF_WRITE: u32 = 1 << 11;

/// Stores what a fault tells, and gives the answer.
#[cold]
#[inline(never)]
fn tell(registers: &mut Registers, place: usize, access: u32, address: u32, number: u32) -> u32 {
    let answer = number & !AT_L2;
    let code = match answer {
        22 => 0b00101,
        23 => 0b01101,
        _ => return answer,
    };
    let level = if number & AT_L2 != 0 { 0b10 } else { 0 };
    put_word(registers, place, code | level | access);
    put_word(registers, place + 4, address);
    registers[PENDING] = 1;
    answer
}

/// The block to which an L2 entry that is no page leads, and its rights: one of a large page, or refusal 24.
#[inline(always)]
fn walk_large(memory: &[u8], region: Region, at: usize) -> Judged<(usize, u32)> {
    let run = memory[at - at % RUN..].first_chunk().ok_or(24u32)?;
    match large_entry(run) {
        Entry::Mapping(first, m, rights) if memory[at] & 3 == 1 => {
            let b = region.place(first, m).ok_or(24u32)?;
            Ok((b + at % RUN / 4, rights))
        }
        _ => Err(24),
    }
}

/// The place in memory to which the address leads, if all rights are there. A fault at an L2 entry has AT_L2.
#[inline(always)]
fn walk(memory: &[u8], ledger: &[u8], address: u32, needed: u32) -> Judged<usize> {
    let region = Region::stored(memory, ledger)?;
    let active = word(ledger, 4);
    let table = region.place(active, L1_BLOCKS).filter(|_| active % L1_BLOCKS == 0).ok_or(21u32)?;
    let index = (address >> 20) as usize;
    let (b, rights, level) = match l1_entry(word(memory, BLOCK * table + 4 * index)) {
        Entry::Fault => return Err(22),
        Entry::Unaccepted => return Err(24),
        Entry::Mapping(first, m, rights) => {
            let b = region.place(first, m).ok_or(24u32)?;
            (b + (address as usize >> 12) % 256, rights, 0)
        }
        Entry::Link(place) => {
            let b = region.place(place / 4, 1).ok_or(24u32)?;
            let at = BLOCK * b + 1024 * (place as usize % 4) + 4 * ((address as usize >> 12) % 256);
            let (b, rights) = match l2_entry(word(memory, at)) {
                Entry::Fault => return Err(22 | AT_L2),
                Entry::Mapping(first, m, rights) => (region.place(first, m).ok_or(24u32)?, rights),
                _ => walk_large(memory, region, at)?,
            };
            (b, rights, AT_L2)
        }
    };
    refuse_if(rights & needed == 0, 23 | level)?;
    Ok(BLOCK * b + address as usize % BLOCK)
}

#[inline(always)]
fn load(
    memory: &[u8],
    ledger: &[u8],
    registers: &mut [u8],
    place: usize,
    address: u32,
    needed: u32,
    byte: &mut u8,
) -> u32 {
    let Ok(registers) = registers.try_into() else {
        *byte = 0;
        return 1;
    };
    match walk(memory, ledger, address, needed) {
        Ok(at) => {
            *byte = memory[at];
            0
        }
        Err(number) => {
            *byte = 0;
            tell(registers, place, 0, address, number)
        }
    }
}

#[inline(never)]
pub fn read(memory: &[u8], ledger: &[u8], registers: &mut [u8], address: u32, byte: &mut u8) -> u32 {
    load(memory, ledger, registers, DATA_FAULT, address, READ, byte)
}

#[inline(never)]
pub fn fetch(memory: &[u8], ledger: &[u8], registers: &mut [u8], address: u32, byte: &mut u8) -> u32 {
    load(memory, ledger, registers, FETCH_FAULT, address, EXECUTE, byte)
}

#[inline(never)]
pub fn write(memory: &mut [u8], ledger: &mut [u8], registers: &mut [u8], address: u32, byte: u32) -> u32 {
    let Ok(registers) = registers.try_into() else { return 1 };
    match walk(memory, ledger, address, WRITE) {
        Ok(at) => {
            memory[at] = byte as u8;
            unmark(ledger, at);
            0
        }
        Err(number) => tell(registers, DATA_FAULT, OF_WRITE, address, number),
    }
}

#[inline(never)]
pub fn acknowledge(registers: &mut [u8], pending: &mut u8) -> u32 {
    let Ok(registers): Result<&mut Registers, _> = registers.try_into() else {
        *pending = 0;
        return 1;
    };
    *pending = std::mem::take(&mut registers[PENDING]);
    0
}

#[inline(always)]
fn judge_forget(memory: &[u8], ledger: &mut [u8], block: u32, count: u32) -> Judged {
    let region = Region::stored(memory, ledger)?;
    if count == 0 {
        return Ok(());
    }
    let t = region.place(block, count).ok_or(2u32)?;
    put_marks(ledger, t, count, 0);
    Ok(())
}

#[inline(never)]
pub fn forget(memory: &[u8], ledger: &mut [u8], block: u32, count: u32) -> u32 {
    answer(judge_forget(memory, ledger, block, count))
}
