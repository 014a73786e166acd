//! Copies of buffers between canaries, in one stretch of memory.
use crate::mapping::Mapping;
use std::ops::Range;

const CANARY: u8 = 0xC5;
/// The fewest canaries before a copy, and behind it.
const GUARD: usize = 256;

/// Room for all that a call on the largest region is lent.
pub const ROOM: usize = 20 << 20;

/// Where a copy stands. None stands at the start: 0 is NULL.
#[derive(Clone, Copy)]
pub struct Place {
    pub start: usize,
    pub length: usize,
}

impl Place {
    pub const NULL: Place = Place { start: 0, length: 0 };

    fn content(self) -> Range<usize> {
        self.start..self.start + self.length
    }

    /// The canaries before it and behind it. They start and end at multiples of 8.
    fn canaries(self) -> [Range<usize>; 2] {
        let Range { start, end } = self.content();
        [start / 8 * 8 - GUARD..start, end..(end + GUARD).next_multiple_of(8)]
    }
}

/// Copies of the buffers of a call, one behind the other.
pub struct Guarded {
    mapping: Mapping,
    /// Where the canaries of the last copy end.
    end: usize,
    /// How many copies there ever were.
    copies: usize,
}

impl Guarded {
    pub fn new(mapping: Mapping) -> Guarded {
        Guarded { mapping, end: 0, copies: 0 }
    }

    /// Takes all copies away.
    pub fn clear(&mut self) {
        self.end = 0;
    }

    /// Puts a copy behind the others, at each alignment in turn, of which only multiples of the unit count. One of no bytes is NULL at times.
    pub fn put(&mut self, content: &[u8], unit: usize) -> Place {
        self.copies += 1;
        let (turn, length) = (self.copies % 5, content.len());
        if length == 0 && turn == 0 {
            return Place::NULL;
        }
        let place = Place { start: self.end + GUARD + turn / unit * unit, length };
        let (bytes, [before, behind]) = (self.mapping.bytes_mut(), place.canaries());
        assert!(behind.end <= bytes.len(), "there is no room for the buffers");
        self.end = behind.end;
        bytes[before].fill(CANARY);
        bytes[place.content()].copy_from_slice(content);
        bytes[behind].fill(CANARY);
        place
    }

    pub fn pointer(&self, place: Place) -> *mut u8 {
        match place.start {
            0 => std::ptr::null_mut(),
            start => self.mapping.pointer().wrapping_add(start),
        }
    }

    /// What stands in a copy, whose canaries must be as they were.
    pub fn guarded_content(&self, place: Place) -> &[u8] {
        if place.start == 0 {
            return &[];
        }
        let bytes = self.mapping.bytes();
        let mut outside = place.canaries().into_iter().flat_map(|canaries| &bytes[canaries]);
        assert!(outside.all(|canary| *canary == CANARY), "a byte outside of a buffer was changed");
        &bytes[place.content()]
    }

    pub fn must_equal(&self, place: Place, content: &[u8]) {
        assert!(self.guarded_content(place) == content, "a const buffer was changed");
    }
}
