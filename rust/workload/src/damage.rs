//! Damage to lists, files, rows, counts, images, segment tables and messages, of the kinds that a check could overlook:
//! one thing made another that could pass for it, parts exchanged, ends cut off.

use crate::messages::{prefix_bytes, BYTES_FIRST, LENGTH_AT, TYPE_AT, WITHDRAWN_AT, WITHDRAWN_LENGTH_AT};
use crate::random::Random;
use crate::routes::COUNTS;
use crate::segments::{Stores, LAST_POINTER, PACKED_POINTER, PLAIN_POINTER};
use crate::segments::{CODEWORDS, OCTET_ENTRIES, PACKED_WORDS};
use crate::spare::{set_spare_bits, shorten_prefix};
use std::ops::Range;

const ROUTE_WORDS: usize = 3;
const ROW_WORDS: usize = 5;
const NODE_WORDS: usize = 2;
const FILE_HEAD_BYTES: usize = 5;

/// Damages a list in one place, or cuts it, or makes it longer.
pub fn damage_list(list: &mut Vec<u32>, random: &mut Random) {
    let routes = list.len() / ROUTE_WORDS;
    if routes == 0 {
        list.push(random.any_size());
        return;
    }
    let route = ROUTE_WORDS * random.index(routes);
    let other = ROUTE_WORDS * random.index(routes);
    match random.below(8) {
        0 => flip_bit(list, random),
        1 => list[route + 1] = random.pick(&[31, 32, 33, 255, u32::MAX]),
        2 => list[route + 2] = random.pick(&[0, 1, 4094, 4095, 65536, u32::MAX]),
        3 => exchange(list, route, other, ROUTE_WORDS),
        4 => list.copy_within(route..route + ROUTE_WORDS, other),
        5 => list.truncate(random.index(list.len())),
        6 => list.extend((0..=random.below(3)).map(|_| random.any_size())),
        _ => list[route] |= 1 << random.below(32),
    }
}

/// Damages a file in one place, or cuts it, or makes it longer; sometimes the stated size follows. Spare bits alone do
/// no harm; with other damage they may hide that the routes do not rise.
pub fn damage_file(file: &mut Vec<u8>, random: &mut Random) {
    if file.is_empty() {
        file.push(1);
        return;
    }
    let [at, other] = [random.index(file.len()), random.index(file.len())];
    match random.below(9) {
        0 => file[at] ^= 1 << random.below(8),
        1 => file[at] = random.pick(&[0, 1, 15, 16, 32, 33, 255]),
        2 => file.swap(at, other),
        3 => file.truncate(at),
        4 => file.extend((0..=random.below(4)).map(|_| random.word() as u8)),
        5 => file.drain(at.min(other)..at.max(other)).for_each(drop),
        6 => set_spare_bits(file, random),
        7 => shorten_prefix(file, random),
        _ => file[0] = random.pick(&[0, 2, 255]),
    }
    if random.below(2) == 0 {
        restate_size(file);
    }
}

fn restate_size(file: &mut [u8]) {
    if file.len() >= FILE_HEAD_BYTES {
        let size = (file.len() - FILE_HEAD_BYTES) as u32;
        file[1..FILE_HEAD_BYTES].copy_from_slice(&size.to_be_bytes());
    }
}

/// Damages a message in one place, or cuts it, or makes it longer; sometimes its length follows. An inner length comes to
/// end its part in a prefix or at another one, and a prefix to run past its part.
pub fn damage_message(message: &mut Vec<u8>, random: &mut Random) {
    if message.is_empty() {
        message.push(255);
        return;
    }
    let [at, other] = [random.index(message.len()), random.index(message.len())];
    match random.below(12) {
        0 => message[at] ^= 1 << random.below(8),
        1 => message[at] = random.pick(&[0, 1, 2, 8, 24, 32, 33, 255]),
        2 => message.swap(at, other),
        3 => message.truncate(at),
        4 => message.extend((0..=random.below(4)).map(|_| random.word() as u8)),
        5 => message.drain(at.min(other)..at.max(other)).for_each(drop),
        6 => put_byte(message, random.index(WITHDRAWN_AT + 2), random.pick(&[0, 1, 3, 254])),
        7 => put_byte(message, TYPE_AT, random.pick(&[0, 1, 3, 4, 5, 255])),
        8..=9 => damage_length(message, random),
        _ => damage_prefix_length(message, random),
    }
    if random.below(2) == 0 {
        restate_length(message);
    }
}

/// Past the end nothing is put.
fn put_byte(message: &mut [u8], at: usize, byte: u8) {
    if let Some(place) = message.get_mut(at) {
        *place = byte;
    }
}

fn length_at(message: &[u8], at: usize) -> Option<usize> {
    Some(usize::from(u16::from_be_bytes([*message.get(at)?, *message.get(at + 1)?])))
}

/// Makes one of the three lengths another: one more or less, or one at an edge of what it may say.
fn damage_length(message: &mut [u8], random: &mut Random) {
    let Some(withdrawn) = length_at(message, WITHDRAWN_LENGTH_AT) else { return };
    let attribute_length_at = WITHDRAWN_AT + withdrawn;
    let at = random.pick(&[LENGTH_AT, WITHDRAWN_LENGTH_AT, WITHDRAWN_LENGTH_AT, attribute_length_at]);
    let Some(length) = length_at(message, at) else { return };
    // Up to the end of the message there are as many bytes, and two less where another length is to follow.
    let left = message.len().saturating_sub(at + 2) as u16;
    let length = length as u16;
    let about = [length.wrapping_sub(1), length.wrapping_add(1), length.wrapping_add(256)];
    let edges = [0, left, left.wrapping_add(1), left.wrapping_sub(1), left.wrapping_sub(2), 22, 23, 4096, 4097];
    let length = if random.below(2) == 0 { random.pick(&about) } else { random.pick(&edges) };
    message[at..at + 2].copy_from_slice(&length.to_be_bytes());
}

/// Makes the length of a prefix another, with as many bytes, with more or with fewer, or above 32.
fn damage_prefix_length(message: &mut [u8], random: &mut Random) {
    let places = prefix_places(message);
    if places.is_empty() {
        return;
    }
    let place = random.pick(&places);
    let length = message[place];
    message[place] = random.pick(&[0, 32, 33, 255, length.wrapping_add(8), length.wrapping_add(1), length / 2]);
}

/// Where each prefix begins, as far as the lengths lead. In a damaged message the last one may run past the end.
fn prefix_places(message: &[u8]) -> Vec<usize> {
    let mut places = Vec::new();
    let mut add = |mut place: usize, end: usize| {
        while place < end.min(message.len()) {
            places.push(place);
            place += 1 + prefix_bytes(message[place].into());
        }
    };
    let Some(withdrawn) = length_at(message, WITHDRAWN_LENGTH_AT) else { return places };
    let attribute_length_at = WITHDRAWN_AT + withdrawn;
    add(WITHDRAWN_AT, attribute_length_at);
    if let Some(attributes) = length_at(message, attribute_length_at) {
        add(attribute_length_at + 2 + attributes, message.len());
    }
    places
}

fn restate_length(message: &mut [u8]) {
    if message.len() >= BYTES_FIRST {
        let length = message.len() as u16;
        message[LENGTH_AT..LENGTH_AT + 2].copy_from_slice(&length.to_be_bytes());
    }
}

/// Damages one word of the rows, or exchanges two rows or their routes. A child may come to name a row above it.
pub fn damage_rows(rows: &mut [u32], random: &mut Random) {
    let count = rows.len() / ROW_WORDS;
    if count == 0 {
        return;
    }
    let [from, to] = [ROW_WORDS * random.index(count), ROW_WORDS * random.index(count)];
    let word = random.index(ROW_WORDS);
    match random.below(6) {
        0 => exchange(rows, from, to, ROW_WORDS),
        1 => exchange(rows, from, to, ROUTE_WORDS),
        2 => rows[to + word] = rows[from + word],
        3 => rows[to + 3 + word % 2] = random.below(count as u32 + 1),
        4 => flip_bit(rows, random),
        _ => rows[to + word] = random.any_size(),
    }
}

/// Damages a count by one, in a bit or in whole, moves an address from one to another, so that the total stays,
/// exchanges two, or cuts them to 4,094 or to fewer. What is added past them, or is another there, does no harm.
pub fn damage_counts(counts: &mut Vec<u64>, random: &mut Random) {
    if counts.is_empty() {
        counts.push(random.any_size().into());
        return;
    }
    let [count, other] = [any_count(counts, random), any_count(counts, random)];
    match random.below(9) {
        0 => counts[count] = counts[count].wrapping_add(1),
        1 => counts[count] = counts[count].wrapping_sub(1),
        2 => counts[count] ^= 1 << random.below(64),
        3 => counts[count] = random.any_size().into(),
        4 => move_address(counts, count, other),
        5 => counts.swap(count, other),
        6 => counts.truncate(COUNTS - 1),
        7 => counts.truncate(random.index(counts.len())),
        _ => counts.extend((0..=random.below(4)).map(|_| u64::from(random.any_size()))),
    }
}

/// One that is not 0, if there is one, the one without a route, the last port's, or any, also past them.
fn any_count(counts: &[u64], random: &mut Random) -> usize {
    let any = random.index(counts.len());
    let last = counts.len().min(COUNTS) - 1;
    let nonzero: Vec<usize> = (0..=last).filter(|count| counts[*count] != 0).collect();
    let nonzero = if nonzero.is_empty() { any } else { random.pick(&nonzero) };
    random.pick(&[nonzero, nonzero, 0, last, any])
}

fn move_address(counts: &mut [u64], from: usize, to: usize) {
    counts[from] = counts[from].wrapping_sub(1);
    counts[to] = counts[to].wrapping_add(1);
}

/// Damages a bitmap, an offset or a port of an image at this stride, exchanges two nodes, cuts nodes or ports short or
/// makes them longer, or lays the nodes out in three words. The root stays whole.
pub fn damage_image(stride: u32, nodes: &mut Vec<u32>, ports: &mut Vec<u16>, random: &mut Random) {
    let count = nodes.len() / NODE_WORDS;
    if count == 0 || ports.is_empty() {
        return;
    }
    let [node, other] = [NODE_WORDS * random.index(count), NODE_WORDS * random.index(count)];
    let port = random.index(ports.len());
    match random.below(12) {
        0 => flip_bit(nodes, random),
        1 => nodes[node] = random.pick(&[0, 1, 3, 4, 15, 16, 0xFFFF, 0x1_0000, u32::MAX]),
        2 => nodes[node + 1] = random.pick(&[0, 1, count as u32, u32::MAX - 1, u32::MAX]),
        3..=5 => damage_offset(stride, nodes, random),
        6 => exchange(nodes, node, other, NODE_WORDS),
        7 => ports[port] = random.pick(&[0, 4094, 4095, u16::MAX]),
        8 => nodes[node + random.index(NODE_WORDS)] = random.any_size(),
        9 => *nodes = with_leaf_bases(stride, nodes),
        10 => cut_or_extend(nodes, NODE_WORDS, random),
        _ => cut_or_extend(ports, 0, random),
    }
}

/// Makes an offset one at an edge of what a lookup allows, or one that could pass for it. Node a and its offset make 2
/// at least, so that 0 is wrong at node 1 alone, and 2^s (a-1) + 2 at most, where the leaf base is 0. From a non-leaf
/// an offset of 0 leads back to its own node.
fn damage_offset(stride: u32, nodes: &mut [u32], random: &mut Random) {
    let count = nodes.len() / NODE_WORDS;
    // Most lookups read the first nodes, so these are damaged more often.
    let among = random.pick(&[1, 2, count]).min(count);
    let node = random.index(among);
    let (number, other) = (node as u32 + 1, random.index(count) as u32 + 1);
    let offset = nodes[NODE_WORDS * node + 1];
    let last = ((number - 1) << stride) + 2 - number;
    // To a node before its own an offset leads only where a sum wraps.
    let to_other = other.wrapping_sub(number);
    let choices = [0, last, last + 1, u32::MAX, offset.wrapping_sub(1), offset.wrapping_add(1), to_other];
    nodes[NODE_WORDS * node + 1] = random.pick(&choices);
}

/// The nodes as they were laid out in three words: with the leaf base, and with offset 0 where every slot is a leaf.
fn with_leaf_bases(stride: u32, nodes: &[u32]) -> Vec<u32> {
    let mut leaf_base = 0;
    let three_words = |node: &[u32]| {
        let (leaves, base) = (node[0].count_ones(), leaf_base);
        leaf_base += leaves;
        [node[0], if leaves == 1 << stride { 0 } else { node[1] }, base]
    };
    nodes.chunks_exact(NODE_WORDS).flat_map(three_words).collect()
}

/// Damages a word of segment tables, exchanges two, cuts a store or makes it longer. In the first table it takes an
/// entry that names a segment, if there is one, or the entry of the first or of the last addresses.
pub fn damage_segments(stores: &mut Stores, random: &mut Random) {
    let [first, packed, plain, last] = stores;
    let segments = [(PACKED_POINTER, packed.len() / PACKED_WORDS), (PLAIN_POINTER, plain.len() / OCTET_ENTRIES)];
    let last_blocks = (LAST_POINTER, last.len() / OCTET_ENTRIES);
    match random.below(12) {
        0..=2 => put(first, edge_entry(random.pick(&segments), random), |first| place_in_first(first, random)),
        3..=4 => put(packed, edge_codeword(random), |packed| place_in_packed(packed, 0..CODEWORDS, random)),
        5 => put(packed, edge_entry(last_blocks, random), |packed| {
            place_in_packed(packed, CODEWORDS..PACKED_WORDS, random)
        }),
        6 => put(plain, edge_entry(last_blocks, random), |plain| any_place(plain, random)),
        7 => put(last, edge_entry(last_blocks, random), |last| any_place(last, random)),
        8 => flip_bit_of_any(stores, random),
        9 => exchange_two(&mut stores[1 + random.index(3)], random),
        10 => cut_or_extend(&mut stores[1 + random.index(3)], 0, random),
        _ => cut_by_one(&mut stores[random.index(4)]),
    }
}

/// A store without such a place stays as it is.
fn put(store: &mut [u16], word: u16, place: impl FnOnce(&[u16]) -> Option<usize>) {
    if let Some(place) = place(store) {
        store[place] = word;
    }
}

fn any_place(store: &[u16], random: &mut Random) -> Option<usize> {
    (!store.is_empty()).then(|| random.index(store.len()))
}

fn place_in_first(first: &[u16], random: &mut Random) -> Option<usize> {
    let mut places: Vec<usize> = (0..first.len()).filter(|place| first[*place] >= PACKED_POINTER).collect();
    if places.is_empty() && !first.is_empty() {
        places = vec![0, first.len() - 1];
    }
    (!places.is_empty()).then(|| random.pick(&places))
}

/// A word of a packed block: one of its codewords, or one of its entries.
fn place_in_packed(packed: &[u16], words: Range<usize>, random: &mut Random) -> Option<usize> {
    let blocks = packed.len() / PACKED_WORDS;
    (blocks > 0).then(|| PACKED_WORDS * random.index(blocks) + words.start + random.index(words.len()))
}

/// A port about 4094, a number between ports and pointers, a pointer about the end of its store, or one of another.
fn edge_entry((pointer, blocks): (u16, usize), random: &mut Random) -> u16 {
    let past = pointer.wrapping_add(blocks as u16);
    let ports = [0, 1, 4094, 4095, 1 << 14, PACKED_POINTER - 1];
    let about_the_end = [pointer, past.wrapping_sub(1), past, past.wrapping_add(1)];
    let of_any_store = [PACKED_POINTER, PLAIN_POINTER - 1, PLAIN_POINTER, u16::MAX];
    match random.below(4) {
        0 => random.pick(&ports),
        1 => random.pick(&of_any_store),
        _ => random.pick(&about_the_end),
    }
}

/// No bit, the first, the last or all of them, with a base that takes the index to an edge of 0..63 or past it.
fn edge_codeword(random: &mut Random) -> u16 {
    let bits = random.pick(&[0, 0x80, 0x01, 0xFF]);
    let base = random.pick(&[0, 0, 1, 55, 56, 57, 62, 63, 64, 65, 255]);
    bits << 8 | base
}

fn flip_bit_of_any(stores: &mut Stores, random: &mut Random) {
    let store = random.index(stores.len());
    let words = &mut stores[store];
    let place = if store == 0 { place_in_first(words, random) } else { any_place(words, random) };
    if let Some(place) = place {
        words[place] ^= 1 << random.below(16);
    }
}

fn exchange_two(store: &mut [u16], random: &mut Random) {
    if let (Some(a), Some(b)) = (any_place(store, random), any_place(store, random)) {
        store.swap(a, b);
    }
}

/// The last block is then lent in part, and the first table is too short.
fn cut_by_one(store: &mut Vec<u16>) {
    store.pop();
}

/// Leaves that many elements at least.
fn cut_or_extend<T: Copy>(elements: &mut Vec<T>, least: usize, random: &mut Random) {
    if random.below(2) == 0 {
        elements.truncate(least + random.index(elements.len() - least + 1));
    } else {
        elements.extend_from_within(..random.index(elements.len() + 1));
    }
}

fn flip_bit(words: &mut [u32], random: &mut Random) {
    words[random.index(words.len())] ^= 1 << random.below(32);
}

fn exchange(words: &mut [u32], a: usize, b: usize, size: usize) {
    (0..size).for_each(|word| words.swap(a + word, b + word));
}
