//! A lookup in segment tables, in parts that a library could get wrong one by one.

use reference::Answer;
use std::ops::Range;

/// The parts. A wrong lookup is `Search { part: .., ..RIGHT }`.
pub struct Search {
    /// The least entries of the first table.
    pub first_least: usize,
    pub is_plain: fn(u16) -> bool,
    /// Whether a store of so many words has a block of this size at this offset.
    pub has_block: fn(usize, usize, usize) -> bool,
    /// What the bits of a codeword make of the entry with this number in it.
    pub ones: fn(u16, usize) -> u32,
    /// The index that a base and those ones make, and the indexes that are taken.
    pub index: fn(u16, u32) -> i32,
    pub indexes: Range<i32>,
    /// Reads that a codeword counts as.
    pub codeword_reads: u32,
    /// The number of a last block, of the entry that names it.
    pub last_number: fn(u16) -> u16,
    /// The port that an entry is; none where it is wrong.
    pub port: fn(u16) -> Option<u16>,
    pub last_port: fn(u16) -> Option<u16>,
    /// Reads that a block past its store counts as.
    pub past_reads: u32,
}

pub const RIGHT: Search = Search {
    first_least: 65_536,
    is_plain: |entry| entry >= 49_152,
    has_block: |words, size, offset| offset + size <= words,
    ones: |bits, entry| (bits >> (7 - entry)).count_ones(),
    index: |base, ones| i32::from(base) + ones as i32 - 1,
    indexes: 0..64,
    codeword_reads: 1,
    last_number: |entry| entry - 32_768,
    port: |entry| Some(entry).filter(|port| *port <= 4094),
    last_port: |entry| Some(entry).filter(|port| *port <= 4094),
    past_reads: 0,
};

impl Search {
    pub fn lookup(&self, stores: [&[u16]; 4], address: u32) -> Answer<3> {
        let mut reads = 0;
        match self.found(stores, address, &mut reads) {
            Some(port) => Answer { number: 0, answer: [0, u32::from(port), reads] },
            None => Answer { number: 11, answer: [0, 0, reads] },
        }
    }

    /// None where the tables are not in order.
    fn found(&self, [first, packed, plain, last]: [&[u16]; 4], address: u32, reads: &mut u32) -> Option<u16> {
        let [a, b, third, fourth] = address.to_be_bytes().map(usize::from);
        let first_bits = 256 * a + b;
        if first.len() < self.first_least || first_bits >= first.len() {
            return None;
        }
        *reads += 1;
        let entry = first[first_bits];
        if entry < 32_768 {
            return (self.port)(entry);
        }
        let number = usize::from(entry % 16_384);
        let entry = if (self.is_plain)(entry) {
            let entry = *self.block(plain, 256, number, reads)?.get(third)?;
            *reads += 1;
            entry
        } else {
            let block = self.block(packed, 96, number, reads)?;
            let codeword = *block.get(third / 8)?;
            *reads += self.codeword_reads;
            let index = (self.index)(codeword % 256, (self.ones)(codeword >> 8, third % 8));
            // Before the first entry stands the last codeword, and after the last one the next block.
            let entry = *block.get(self.indexes.contains(&index).then_some((32 + index) as usize)?)?;
            *reads += 1;
            entry
        };
        if entry < 32_768 {
            return (self.port)(entry);
        }
        let ports = self.block(last, 256, usize::from((self.last_number)(entry)), reads)?;
        *reads += 1;
        (self.last_port)(*ports.get(fourth)?)
    }

    /// The store from the block on.
    fn block<'a>(&self, store: &'a [u16], size: usize, number: usize, reads: &mut u32) -> Option<&'a [u16]> {
        if !(self.has_block)(store.len(), size, size * number) {
            *reads += self.past_reads;
            return None;
        }
        store.get(size * number..)
    }
}
