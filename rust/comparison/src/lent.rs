//! Memory around what a call is lent, so that a byte read or written out of place shows.

use samples::Random;
use std::fmt::Debug;

/// The bytes kept before and after a lent part.
const MARGIN: usize = 16;

/// Memory of random bytes with a lent buffer in it.
#[derive(Clone, PartialEq)]
pub struct Lent {
    bytes: Vec<u8>,
    start: usize,
    length: usize,
}

impl Lent {
    /// A buffer that is empty, too short, just long enough or up to `more` bytes longer than an
    /// answer that needs so many, at any alignment.
    pub fn new(random: &mut Random, needed: usize, more: usize) -> Lent {
        let length = match random.index(8) {
            0 if random.once_in(4) => 0,
            0 => random.index(needed + 1),
            1 => needed.saturating_sub(1),
            2..=4 => needed,
            5 => needed + 1,
            _ => needed + random.index(more + 1),
        };
        Lent::of_length(random, length)
    }

    /// A buffer of this length at any alignment.
    pub fn of_length(random: &mut Random, length: usize) -> Lent {
        let mut bytes = vec![0; length + 2 * MARGIN];
        random.fill(&mut bytes);
        Lent { bytes, start: 1 + random.index(MARGIN), length }
    }

    pub fn buffer(&mut self) -> &mut [u8] {
        &mut self.bytes[self.start..self.start + self.length]
    }
}

/// The same length of buffer, and the same bytes in it and around it.
pub fn same_bytes(name: &str, lent: &Lent, expected: &Lent, input: &dyn Debug) {
    if lent != expected {
        let differs = |&at: &usize| lent.bytes[at] != expected.bytes[at];
        let at = (0..lent.bytes.len()).find(differs).expect("some byte differs");
        let place = at as isize - lent.start as isize;
        panic!(
            "{name}: byte {place} of a buffer of {} bytes is {}, expected {}; input {input:?}",
            lent.length, lent.bytes[at], expected.bytes[at]
        );
    }
}

/// Bytes to be read within others, so that a read before or after them meets random bytes.
pub struct Held {
    bytes: Vec<u8>,
    before: Vec<u8>,
    start: usize,
    length: usize,
}

impl Held {
    pub fn new(random: &mut Random, part: &[u8]) -> Held {
        let start = random.index(MARGIN);
        let mut bytes = vec![0; start + part.len() + MARGIN];
        random.fill(&mut bytes);
        bytes[start..start + part.len()].copy_from_slice(part);
        Held { before: bytes.clone(), bytes, start, length: part.len() }
    }

    pub fn part(&self) -> &[u8] {
        &self.bytes[self.start..self.start + self.length]
    }

    /// Whether nobody has written to the bytes, which were lent for reading only.
    pub fn is_unchanged(&self) -> bool {
        self.bytes == self.before
    }
}
