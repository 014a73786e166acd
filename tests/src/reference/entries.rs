//! RULES, entries: what a word of a table means, and what word is written.
use crate::monitor::Kind;
use std::ops::{Range, RangeInclusive};

#[derive(Clone, Copy, PartialEq, Eq, Debug)]
pub enum Level {
    L1,
    L2,
}

impl Level {
    /// The type of the table's blocks (ledger 4).
    pub fn code(self) -> u32 {
        match self {
            Level::L1 => 1,
            Level::L2 => 2,
        }
    }

    /// Blocks of a table (entries 1 and 2).
    pub fn blocks(self) -> u64 {
        match self {
            Level::L1 => 4,
            Level::L2 => 1,
        }
    }

    pub fn entries(self) -> u32 {
        1024 * self.blocks() as u32
    }
}

/// entries 12
#[derive(Clone, Copy, PartialEq, Eq, Debug)]
pub struct Rights {
    pub read: bool,
    pub write: bool,
    pub execute: bool,
}

#[derive(Clone, Copy, PartialEq, Eq, Debug)]
pub struct Mapping {
    pub first: u64,
    pub rights: Rights,
}

/// entries 4: five sorts, or not accepted.
#[derive(Clone, Copy, PartialEq, Eq, Debug)]
pub enum Entry {
    Fault,
    Unaccepted,
    Link {
        block: u64,
        table: u32,
    },
    Section(Mapping),
    Page(Mapping),
    /// One entry of a large page, and its position among the sixteen.
    Large(Mapping, u64),
}

/// Blocks that must lie in the region.
#[derive(Clone, Copy, PartialEq, Eq, PartialOrd, Ord, Debug)]
pub struct Place {
    pub first: u64,
    pub count: u64,
}

impl Place {
    pub fn blocks(self) -> Range<u64> {
        self.first..self.first + self.count
    }
}

/// Bits high..low of a word, as a number.
pub fn bits(word: u32, high: u32, low: u32) -> u32 {
    word >> low & ((1 << (high - low + 1)) - 1)
}

/// The entry at an index of a table that has these words.
pub fn decode(level: Level, words: impl Fn(u32) -> u32, index: u32) -> Entry {
    match level {
        Level::L1 => l1_entry(words(index)),
        Level::L2 => l2_entry(words, index),
    }
}

fn l1_entry(word: u32) -> Entry {
    match bits(word, 1, 0) {
        // entries 5
        0b00 => Entry::Fault,
        // entries 6
        0b01 if bits(word, 9, 2) == 0 => Entry::Link { block: u64::from(word >> 12), table: bits(word, 11, 10) },
        // entries 7
        0b10 if bits(word, 19, 18) == 0 && bits(word, 9, 5) == 0 => section(word),
        _ => Entry::Unaccepted,
    }
}

/// entries 7
fn section(word: u32) -> Entry {
    let (ap, xn) = (bits(word, 15, 15) << 2 | bits(word, 11, 10), bits(word, 4, 4));
    let first = 256 * u64::from(bits(word, 31, 20));
    rights(ap, xn).map_or(Entry::Unaccepted, |rights| Entry::Section(Mapping { first, rights }))
}

fn l2_entry(words: impl Fn(u32) -> u32, index: u32) -> Entry {
    let word = words(index);
    match bits(word, 1, 0) {
        // entries 5
        0b00 => Entry::Fault,
        // entries 20 and 21
        0b01 if bits(word, 8, 6) == 0 && run(index).all(|other| words(other) == word) => large(word, index % 16),
        0b01 => Entry::Unaccepted,
        // entries 8
        _ => page(word),
    }
}

/// entries 21: of the sixteen entries from a multiple of 16 on, those among which an index is.
pub fn run(index: u32) -> RangeInclusive<u32> {
    let first = index - index % 16;
    first..=first + 15
}

/// entries 8
fn page(word: u32) -> Entry {
    let (ap, xn) = (bits(word, 9, 9) << 2 | bits(word, 5, 4), bits(word, 0, 0));
    let first = u64::from(bits(word, 31, 12));
    rights(ap, xn).map_or(Entry::Unaccepted, |rights| Entry::Page(Mapping { first, rights }))
}

/// entries 20
fn large(word: u32, position: u32) -> Entry {
    let (ap, xn) = (bits(word, 9, 9) << 2 | bits(word, 5, 4), bits(word, 15, 15));
    let first = 16 * u64::from(bits(word, 31, 16));
    rights(ap, xn).map_or(Entry::Unaccepted, |rights| Entry::Large(Mapping { first, rights }, u64::from(position)))
}

fn rights(ap: u32, xn: u32) -> Option<Rights> {
    let (read, write) = match ap {
        // entries 9
        0b100 => return None,
        // entries 10
        0b010 | 0b110 | 0b111 => (true, false),
        0b011 => (true, true),
        _ => (false, false),
    };
    // entries 11
    Some(Rights { read, write, execute: read && xn == 0 })
}

/// The rights in a call's argument (entries 12).
pub fn asked(rights: u32) -> Rights {
    Rights { read: rights & 1 != 0, write: rights & 2 != 0, execute: rights & 4 != 0 }
}

/// The page rights of a word that stands in all sixteen entries of its run (entries 13).
pub fn page_rights(word: u32) -> u32 {
    match decode(Level::L2, |_| word, 0) {
        Entry::Fault => 0,
        Entry::Page(Mapping { rights, .. }) | Entry::Large(Mapping { rights, .. }, _) => {
            8 + u32::from(rights.read) + 2 * u32::from(rights.write) + 4 * u32::from(rights.execute)
        }
        _ => 7,
    }
}

/// The number of the table of page rights at this index, bits 9..0 of a word (entries 22).
pub fn page_number(low: u32) -> u32 {
    match bits(low, 1, 0) {
        0b01 => 6,
        _ => page_rights(low),
    }
}

/// entries 15, by the call that maps
pub fn mapping_word(call: Kind, target: u32, rights: u32, kind: u32) -> u32 {
    target << 12 | access_bits(call, rights) | kind_bits(call, kind)
}

/// entries 15
fn access_bits(call: Kind, rights: u32) -> u32 {
    match (call, rights) {
        (Kind::MapL1Kind, 0) => 0x412,
        (Kind::MapL1Kind, 1) => 0x812,
        (Kind::MapL1Kind, 3) => 0xC12,
        (Kind::MapL1Kind, _) => 0x802,
        (Kind::MapLargeKind, 0) => 0x8011,
        (Kind::MapLargeKind, 1) => 0x8021,
        (Kind::MapLargeKind, 3) => 0x8031,
        (Kind::MapLargeKind, _) => 0x0021,
        (_, 0) => 0x013,
        (_, 1) => 0x023,
        (_, 3) => 0x033,
        (_, _) => 0x022,
    }
}

/// The fields of a memory kind, each at its place in the word (entries 15).
fn kind_bits(call: Kind, kind: u32) -> u32 {
    kind_fields(kind).into_iter().zip(kind_places(call)).map(|(field, place)| field << place).sum()
}

/// ledger 12: B, C, TEX, S and nG
fn kind_fields(kind: u32) -> [u32; 5] {
    [bits(kind, 0, 0), bits(kind, 1, 1), bits(kind, 4, 2), bits(kind, 5, 5), bits(kind, 6, 6)]
}

/// entries 15: the lowest bit of each of these
fn kind_places(call: Kind) -> [u32; 5] {
    match call {
        Kind::MapL1Kind => [2, 3, 12, 16, 17],
        Kind::MapLargeKind => [2, 3, 12, 10, 11],
        _ => [2, 3, 6, 10, 11],
    }
}

/// entries 16
pub fn link_word(block: u32, table: u32) -> u32 {
    block << 12 | table << 10 | 1
}

impl Entry {
    /// entries 17
    pub fn place(self) -> Option<Place> {
        match self {
            Entry::Fault | Entry::Unaccepted => None,
            Entry::Link { block, .. } => Some(Place { first: block, count: 1 }),
            Entry::Section(mapping) => Some(Place { first: mapping.first, count: 256 }),
            Entry::Page(mapping) => Some(Place { first: mapping.first, count: 1 }),
            Entry::Large(mapping, _) => Some(Place { first: mapping.first, count: 16 }),
        }
    }

    /// entries 18: of its place all blocks, but of a large page's the one at its own position.
    pub fn covered(self) -> Option<Place> {
        match self {
            Entry::Large(mapping, position) => Some(Place { first: mapping.first + position, count: 1 }),
            _ => self.place(),
        }
    }

    pub fn covers(self) -> Range<u64> {
        self.covered().map_or(0..0, Place::blocks)
    }

    pub fn links(self) -> bool {
        matches!(self, Entry::Link { .. })
    }

    pub fn is_large(self) -> bool {
        matches!(self, Entry::Large(..))
    }

    pub fn writable(self) -> bool {
        matches!(self, Entry::Section(m) | Entry::Page(m) | Entry::Large(m, _) if m.rights.write)
    }

    pub fn executable(self) -> bool {
        matches!(self, Entry::Section(m) | Entry::Page(m) | Entry::Large(m, _) if m.rights.execute)
    }
}
