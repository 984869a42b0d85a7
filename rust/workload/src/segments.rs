//! Segment tables as they lie in memory, routes that crowd in one segment, and noise that passes for tables.

use crate::random::Random;
use crate::routes::{first_bits_of, Held};
use std::collections::BTreeSet;

/// The stores of segment tables: first, packed, plain, last.
pub type Stores = [Vec<u16>; 4];

/// Entries of the first table.
pub const FIRST_ENTRIES: usize = 1 << 16;
/// Words of a packed block: its codewords, then its entries.
pub const PACKED_WORDS: usize = 96;
pub const CODEWORDS: usize = 32;
/// Entries of a plain block, and of a last block.
pub const OCTET_ENTRIES: usize = 256;

/// Block 0 of each store, as an entry names it.
pub const PACKED_POINTER: u16 = 1 << 15;
pub const PLAIN_POINTER: u16 = PACKED_POINTER + (1 << 14);
pub const LAST_POINTER: u16 = 1 << 15;

/// Enough room for the tables of so many routes: every segment has a route of its own, and so has every last block.
pub fn room_for(routes: usize) -> [usize; 4] {
    [FIRST_ENTRIES, PACKED_WORDS * routes, OCTET_ENTRIES * routes, OCTET_ENTRIES * routes]
}

/// Cuts stores that have room to spare to the blocks that a build has answered: packed, plain, last.
pub fn cut_to(stores: &mut Stores, [packed, plain, last]: [u32; 3]) {
    let sizes =
        [FIRST_ENTRIES, PACKED_WORDS * packed as usize, OCTET_ENTRIES * plain as usize, OCTET_ENTRIES * last as usize];
    stores.iter_mut().zip(sizes).for_each(|(store, size)| store.truncate(size));
}

/// Ones of a bitmap: about the most of a packed segment, and at both ends.
const ONES: [usize; 12] = [1, 2, 8, 9, 63, 64, 64, 65, 65, 66, 255, 256];

/// Routes of 24 bits that begin with these sixteen, and often a few longer ones. Without those, and where no shorter
/// route matches, the ones of the segment's bitmap are at an edge: 1, 2, 8, 9, 63 to 66, 255 or 256.
pub fn crowded_segment(random: &mut Random, first_bits: u16) -> Held {
    let ones = random.pick(&ONES);
    let mut changes = BTreeSet::from([0]);
    while changes.len() < ones {
        changes.insert(random.below(256));
    }
    let segment = u32::from(first_bits) << 16;
    let (mut held, mut port) = (Held::new(), 0);
    for octet in 0..256 {
        if changes.contains(&octet) {
            // Another one of 0..3, and not 0 at first, so that there is a segment.
            port = (port + 1 + random.below(3)) % 4;
        }
        if port != 0 {
            held.insert((segment | octet << 8, 24), port);
        }
    }
    // In one last block, side by side, or apart.
    let (first, step) = (random.below(256), random.pick(&[0, 1, 1, 77]));
    for number in 0..random.pick(&[0, 0, 1, 3]) {
        let (octet, length) = ((first + number * step) % 256, 25 + random.below(8));
        let address = segment | octet << 8 | random.below(256);
        held.insert((first_bits_of(address, length), length), random.port());
    }
    held
}

/// Words that pass for segment tables: entries that are ports or lead to a block about the end of its store, and
/// codewords whose index is about 0..63. Many a store ends within a block.
pub fn noise_stores(random: &mut Random) -> Stores {
    let [packed_blocks, plain_blocks, last_blocks] = [(); 3].map(|()| random.below(4));
    let first = words(random, FIRST_ENTRIES, |random, _| match random.below(5) {
        0 => any_port(random),
        1..=2 => pointer(random, PACKED_POINTER, packed_blocks),
        _ => pointer(random, PLAIN_POINTER, plain_blocks),
    });
    let segment_entry = |random: &mut Random, _| match random.below(8) {
        0..=2 => any_port(random),
        // In a segment the bit after the top one is part of the number, and leads past the store.
        3 => pointer(random, PLAIN_POINTER, last_blocks),
        _ => pointer(random, LAST_POINTER, last_blocks),
    };
    let packed_word = |random: &mut Random, place: usize| match place % PACKED_WORDS {
        0..CODEWORDS => (random.word() << 8) as u16 | random.below(70) as u16,
        _ => segment_entry(random, place),
    };
    let packed = blocks(random, packed_blocks, PACKED_WORDS, packed_word);
    let plain = blocks(random, plain_blocks, OCTET_ENTRIES, segment_entry);
    let last = blocks(random, last_blocks, OCTET_ENTRIES, |random, _| any_port(random));
    [first, packed, plain, last]
}

fn words(random: &mut Random, size: usize, word: impl Fn(&mut Random, usize) -> u16) -> Vec<u16> {
    (0..size).map(|place| word(random, place)).collect()
}

/// So many blocks, and perhaps a part of one more.
fn blocks(random: &mut Random, count: u32, size: usize, word: impl Fn(&mut Random, usize) -> u16) -> Vec<u16> {
    let part = random.index(3) * random.index(size / 2);
    words(random, size * count as usize + part, word)
}

/// Now and then above 4094.
fn any_port(random: &mut Random) -> u16 {
    let any = random.word() as u16;
    random.pick(&[0, 1, 4094, any % 4095, any % 4095, 4095, any])
}

/// A pointer to one of so many blocks, or to the one past them.
fn pointer(random: &mut Random, to_0: u16, blocks: u32) -> u16 {
    to_0 + random.below(blocks + 1) as u16
}
