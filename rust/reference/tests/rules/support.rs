//! What the tests share: prefixes written as bits, tables, images and segment tables of lists, updates of tables with
//! their counts, and a plain scan of the tests' own.

use reference::{counted_announce, counted_message, counted_withdraw, counts_make};
use reference::{image_build, segments_build, segments_lookup, table_build, Answer};
pub use workload::segments::Stores;
pub use workload::{first_bits_of, full_length_list, list_of, Held, Prefix, Random};

/// What a lent word, byte or port holds before a call, to see what is written.
pub const UNTOUCHED: u32 = 0xDEAD_BEEF;
pub const UNTOUCHED_BYTE: u8 = 0xA5;
pub const UNTOUCHED_PORT: u16 = 0xA5A5;
pub const UNTOUCHED_COUNT: u64 = 0xDEAD_BEEF_A5A5_A5A5;

pub const STRIDES: [u32; 3] = [1, 2, 4];
pub const NODE_WORDS: usize = 2;
/// The counts that a table has: ports 0..4094.
pub const COUNTS: usize = 4095;

pub fn done<const N: usize>(answer: [u32; N]) -> Answer<N> {
    Answer { number: 0, answer }
}

pub fn refused<const N: usize>(number: u32, answer: [u32; N]) -> Answer<N> {
    Answer { number, answer }
}

/// "Addresses below go on with zeros."
pub fn address(bits: &str) -> u32 {
    format!("{bits:0<32}").chars().fold(0, |value, bit| value << 1 | u32::from(bit == '1'))
}

pub fn prefix(bits: &str) -> Prefix {
    (address(bits), bits.len() as u32)
}

/// The list of these prefixes with ports 1, 2, .. in the order given.
pub fn list_of_bits(prefixes: &[&str]) -> Vec<u32> {
    let with_port = |(port, bits): (usize, &&str)| (prefix(bits), port as u32 + 1);
    list_of(&prefixes.iter().enumerate().map(with_port).collect())
}

/// The rows of a table built from a list, with exactly as many rows lent as it has routes.
pub fn table_of(list: &[u32]) -> (Vec<u32>, u32) {
    let n = list.len() / 3;
    let mut rows = vec![UNTOUCHED; 5 * n];
    assert_eq!(table_build(list, &mut rows), done([0, n as u32]));
    (rows, n as u32)
}

/// The counts of a table, and two elements more that never belong to it. Where the table is not in good order, no
/// element is written.
pub fn counts_of(rows: &[u32], n: u32) -> Vec<u64> {
    let mut counts = vec![UNTOUCHED_COUNT; COUNTS + 2];
    counts_make(rows, n, &mut counts);
    counts
}

/// Updates a table with its counts. They are then those of the table that is left, and as they were on a refusal.
fn in_step(rows: &mut [u32], n: u32, update: impl FnOnce(&mut [u32], &mut [u64]) -> Answer<2>) -> Answer<2> {
    let before = counts_of(rows, n);
    let mut counts = before.clone();
    let answer = update(rows, &mut counts);
    let expected = if answer.number == 0 { counts_of(rows, answer.answer[1]) } else { before };
    assert!(counts == expected, "the counts are not in step with {answer:?}");
    answer
}

/// [`counted_announce`] on a table with its counts.
pub fn announce(rows: &mut [u32], n: u32, value: u32, length: u32, port: u32) -> Answer<2> {
    in_step(rows, n, |rows, counts| counted_announce(rows, n, value, length, port, counts))
}

/// [`counted_withdraw`] on a table with its counts.
pub fn withdraw(rows: &mut [u32], n: u32, value: u32, length: u32) -> Answer<2> {
    in_step(rows, n, |rows, counts| counted_withdraw(rows, n, value, length, counts))
}

/// [`counted_message`] on a table with its counts.
pub fn apply(message: &[u8], port: u32, rows: &mut [u32], n: u32) -> Answer<2> {
    in_step(rows, n, |rows, counts| counted_message(message, port, rows, n, counts))
}

/// The nodes and ports of an image built with room to spare, cut to what was written.
pub fn image_of(stride: u32, list: &[u32]) -> (Vec<u32>, Vec<u16>) {
    let nodes_most = 2 + list.len() / 3 * 32;
    let mut nodes = vec![UNTOUCHED; NODE_WORDS * nodes_most];
    let mut ports = vec![UNTOUCHED_PORT; 16 * nodes_most];
    let answer = image_build(stride, list, &mut nodes, &mut ports);
    assert_eq!((answer.number, answer.answer[0]), (0, 0));
    let [_, node_count, port_count] = answer.answer.map(|count| count as usize);
    assert!(nodes[NODE_WORDS * node_count..].iter().all(|word| *word == UNTOUCHED));
    assert!(ports[port_count..].iter().all(|port| *port == UNTOUCHED_PORT));
    nodes.truncate(NODE_WORDS * node_count);
    ports.truncate(port_count);
    (nodes, ports)
}

/// What a build answers, lent so many entries of each store, and what it leaves in them.
pub fn build_segments(list: &[u32], room: [usize; 4]) -> (Answer<4>, Stores) {
    let mut stores = room.map(|size| vec![UNTOUCHED_PORT; size]);
    let [first, packed, plain, last] = &mut stores;
    let answer = segments_build(list, first, packed, plain, last);
    (answer, stores)
}

/// The stores of segment tables built with room to spare, cut to what was written.
pub fn segments_of(list: &[u32]) -> Stores {
    let blocks_most = 1 + list.len() / 3;
    let room = [65_536 + 1, 96 * blocks_most, 256 * blocks_most, 256 * blocks_most];
    let (answer, mut stores) = build_segments(list, room);
    assert_eq!((answer.number, answer.answer[0]), (0, 0));
    let [_, packed, plain, last] = answer.answer.map(|count| count as usize);
    for (store, size) in stores.iter_mut().zip([65_536, 96 * packed, 256 * plain, 256 * last]) {
        assert!(store[size..].iter().all(|entry| *entry == UNTOUCHED_PORT));
        store.truncate(size);
    }
    stores
}

pub fn look_up_segments([first, packed, plain, last]: &Stores, address: u32) -> Answer<3> {
    segments_lookup(first, packed, plain, last, address)
}

/// Whether the first `count` bits of two addresses agree, bit by bit.
pub fn agree(a: u32, b: u32, count: u32) -> bool {
    (0..count).all(|index| a << index >> 31 == b << index >> 31)
}

pub fn scan(held: &Held, address: u32) -> u32 {
    let matching = held.iter().filter(|((value, length), _)| agree(*value, address, *length));
    matching.max_by_key(|((_, length), _)| *length).map_or(0, |(_, port)| *port)
}
