//! Rules, "Segment tables" and "Numbers on the refusal lamp": refusals of the build and of the lookup, each with its
//! reads, and the call for the debug page on stores that are short.

use crate::support::{
    build_segments, done, full_length_list, list_of, look_up_segments, refused, Held, Stores, UNTOUCHED_PORT,
};
use reference::{segments_entries, Answer};

/// A list with one packed segment, one plain segment and one last block, in the packed segment.
fn one_of_each() -> Vec<u32> {
    let plain = (1..64).step_by(2).map(|octet| ((0x0002_0000 | octet << 8, 24), 1));
    list_of(&plain.chain([((0x0001_0000, 25), 7)]).collect::<Held>())
}

/// Just enough room for it.
const ROOM: [usize; 4] = [65_536, 96, 256, 256];

fn untouched(stores: &Stores) -> bool {
    stores.iter().flatten().all(|entry| *entry == UNTOUCHED_PORT)
}

#[test]
fn build_refuses_9_where_a_store_is_one_entry_short_and_writes_none() {
    assert_eq!(build_segments(&one_of_each(), ROOM).0, done([0, 1, 1, 1]));
    for store in 0..4 {
        for size in [ROOM[store] - 1, 0] {
            let mut room = ROOM;
            room[store] = size;
            let (answer, stores) = build_segments(&one_of_each(), room);
            assert_eq!(answer, refused(9, [0, 0, 0, 0]), "store {store}, {size} entries");
            assert!(untouched(&stores), "store {store}, {size} entries");
        }
    }
    let (answer, stores) = build_segments(&one_of_each(), [0; 4]);
    assert!(answer == refused(9, [0, 0, 0, 0]) && untouched(&stores));
}

#[test]
fn build_without_a_block_needs_the_first_table_alone() {
    assert_eq!(build_segments(&[], [65_536, 0, 0, 0]).0, done([0, 0, 0, 0]));
    assert_eq!(build_segments(&[], [65_535, 96, 256, 256]).0, refused(9, [0, 0, 0, 0]));
}

#[test]
fn build_refuses_as_the_list_checks_do_before_9() {
    let too_many = full_length_list(4097);
    for (list, number, place) in [
        (&[0][..], 3, 0),
        (&too_many, 8, 0),
        (&[0, 33, 1], 4, 0),
        (&[0, 0, 1, 1, 31, 1], 5, 1),
        (&[0, 0, 4095], 6, 0),
        (&[0, 0, 1, 0, 0, 1], 7, 1),
    ] {
        for room in [[0; 4], ROOM] {
            let (answer, stores) = build_segments(list, room);
            assert_eq!(answer, refused(number, [place, 0, 0, 0]));
            assert!(untouched(&stores), "refusal {number}");
        }
    }
}

const FIRST: usize = 0;
const PACKED: usize = 1;
const PLAIN: usize = 2;
const LAST: usize = 3;

/// An entry of either segment that leads to the last block, and one with port 7.
const POINTER: u32 = 1 << 8;
const PORT: u32 = 2 << 8;
/// The packed segment and the plain one.
const IN_PACKED: u32 = 0x0001_0000;
const IN_PLAIN: u32 = 0x0002_0000;

/// 0.1.0.0 leads to packed block 0 and 0.2.0.0 to plain block 0. Of either, entry 1 leads to last block 0, whose ports
/// are 11, entry 2 has port 7, and the others have port 0. The packed one has ones at 0, 1, 2 and 3.
fn stores() -> Stores {
    let mut first = vec![0; 65_536];
    first[1..4].copy_from_slice(&[32_768, 49_152, 4094]);
    let packed = [&[0xF000][..], &[4; 31], &[0, 32_768, 7, 0], &[0; 60]].concat();
    let plain = [&[0, 32_768, 7][..], &[0; 253]].concat();
    [first, packed, plain, vec![11; 256]]
}

/// The lookup where one word is another.
fn lookup_with(store: usize, at: usize, word: u16, address: u32) -> Answer<3> {
    let mut stores = stores();
    stores[store][at] = word;
    look_up_segments(&stores, address)
}

/// The lookup where a store has another size.
fn lookup_sized(store: usize, size: usize, address: u32) -> Answer<3> {
    let mut stores = stores();
    stores[store].resize(size, 0);
    look_up_segments(&stores, address)
}

/// Refused 11 with so many reads.
fn wrong(reads: u32) -> Answer<3> {
    refused(11, [0, 0, reads])
}

#[test]
fn whole_stores_are_looked_up_with_1_to_4_reads() {
    for (address, port, reads) in [
        (0, 0, 1),
        (0x0003_FFFF, 4094, 1),
        (IN_PACKED, 0, 3),
        (IN_PACKED | PORT, 7, 3),
        (IN_PACKED | 255 << 8, 0, 3),
        (IN_PACKED | POINTER | 99, 11, 4),
        (IN_PLAIN | PORT, 7, 2),
        (IN_PLAIN | POINTER | 99, 11, 3),
    ] {
        assert_eq!(look_up_segments(&stores(), address), done([0, port, reads]), "address {address:x}");
    }
}

#[test]
fn a_first_table_under_65536_entries_is_refused_11_with_no_read() {
    for size in [0, 1, 4, 65_535] {
        assert_eq!(lookup_sized(FIRST, size, 0), wrong(0), "{size} entries");
        assert_eq!(lookup_sized(FIRST, size, IN_PLAIN | PORT), wrong(0), "{size} entries");
    }
    assert_eq!(lookup_sized(FIRST, 65_537, IN_PLAIN | PORT), done([0, 7, 2]));
}

#[test]
fn a_port_above_4094_in_the_first_table_is_refused_11_with_1_read() {
    // With the top bit clear and the next one set it is no pointer, but a port above 4094.
    for entry in [4095, 16_384, 16_385, 32_767] {
        assert_eq!(lookup_with(FIRST, 9, entry, 9 << 16), wrong(1), "entry {entry}");
    }
    assert_eq!(lookup_with(FIRST, 9, 4094, 9 << 16), done([0, 4094, 1]));
}

#[test]
fn a_segment_past_its_store_is_refused_11_with_1_read() {
    for entry in [32_769, 49_151, 49_153, 65_535] {
        assert_eq!(lookup_with(FIRST, 9, entry, 9 << 16), wrong(1), "entry {entry}");
    }
    // Only whole blocks count, also where the words that would be read are lent.
    for size in [0, 1, 35, 95] {
        assert_eq!(lookup_sized(PACKED, size, IN_PACKED), wrong(1), "{size} words");
    }
    for size in [0, 3, 255] {
        assert_eq!(lookup_sized(PLAIN, size, IN_PLAIN), wrong(1), "{size} entries");
    }
    // One store is not looked for in the other.
    assert_eq!(lookup_sized(PACKED, 0, IN_PLAIN | PORT), done([0, 7, 2]));
    assert_eq!(lookup_sized(PLAIN, 0, IN_PACKED | PORT), done([0, 7, 3]));
}

#[test]
fn segments_of_the_largest_numbers_are_found() {
    let [mut first, packed, plain, last] = stores();
    first[9] = 32_768 + 16_383;
    first[10] = 49_152 + 16_383;
    let behind = |block: &[u16]| [&vec![0xFFFF; 16_383 * block.len()][..], block].concat();
    let stores = [first, behind(&packed), behind(&plain), last];
    assert_eq!(look_up_segments(&stores, 9 << 16 | PORT), done([0, 7, 3]));
    assert_eq!(look_up_segments(&stores, 10 << 16 | PORT), done([0, 7, 2]));
}

#[test]
fn a_codeword_of_0_has_index_minus_1_and_is_refused_11_with_2_reads() {
    assert_eq!(lookup_with(PACKED, 0, 0, IN_PACKED), wrong(2));
    assert_eq!(lookup_with(PACKED, 31, 0, IN_PACKED | 255 << 8), wrong(2));
    // A bit that comes after the entry's own does not help: entry 6 is before it, entry 7 is its own.
    assert_eq!(lookup_with(PACKED, 0, 0x0100, IN_PACKED | 6 << 8), wrong(2));
    assert_eq!(lookup_with(PACKED, 0, 0x0100, IN_PACKED | 7 << 8), done([0, 0, 3]));
}

#[test]
fn a_packed_index_above_63_is_refused_11_with_2_reads() {
    // The entries of the block get ports 100, 101, and on, by their index.
    let lookup = |codeword: u16, entry: u32| {
        let mut stores = stores();
        stores[PACKED] = [&[codeword; 32][..], &(100..164).collect::<Vec<u16>>()].concat();
        look_up_segments(&stores, IN_PACKED | entry << 8)
    };
    for (codeword, entry, found) in [
        (0x8000, 0, done([0, 100, 3])),
        (0x8000, 7, done([0, 100, 3])),
        // One bit and a base of 63, of 64.
        (0x803F, 0, done([0, 163, 3])),
        (0x8040, 0, wrong(2)),
        // No bit and a base of 64, of 65.
        (0x0040, 3, done([0, 163, 3])),
        (0x0041, 3, wrong(2)),
        // Eight bits: seven through entry 6, eight through entry 7.
        (0xFF38, 7, done([0, 163, 3])),
        (0xFF39, 6, done([0, 163, 3])),
        (0xFF39, 7, wrong(2)),
        (0xFFFF, 0, wrong(2)),
        (0xFFFF, 255, wrong(2)),
        (0x00FF, 0, wrong(2)),
        // Entries 8 and 250 are the first and the third of their codewords.
        (0b1010_0000 << 8 | 9, 8, done([0, 109, 3])),
        (0b1010_0000 << 8 | 9, 9, done([0, 109, 3])),
        (0b1010_0000 << 8 | 9, 250, done([0, 110, 3])),
    ] {
        assert_eq!(lookup(codeword, entry), found, "codeword {codeword:04X}, entry {entry}");
    }
}

#[test]
fn a_port_above_4094_in_a_segment_is_refused_11_with_the_reads_so_far() {
    for entry in [4095, 16_384, 32_767] {
        assert_eq!(lookup_with(PACKED, 32 + 2, entry, IN_PACKED | PORT), wrong(3), "entry {entry}");
        assert_eq!(lookup_with(PLAIN, 2, entry, IN_PLAIN | PORT), wrong(2), "entry {entry}");
    }
    assert_eq!(lookup_with(PACKED, 32 + 2, 4094, IN_PACKED | PORT), done([0, 4094, 3]));
    assert_eq!(lookup_with(PLAIN, 2, 4094, IN_PLAIN | PORT), done([0, 4094, 2]));
}

#[test]
fn a_last_block_past_its_store_is_refused_11_with_the_reads_so_far() {
    for entry in [32_769, 49_152, 65_535] {
        assert_eq!(lookup_with(PACKED, 32 + 2, entry, IN_PACKED | PORT), wrong(3), "entry {entry}");
        assert_eq!(lookup_with(PLAIN, 2, entry, IN_PLAIN | PORT), wrong(2), "entry {entry}");
    }
    for size in [0, 1, 255] {
        assert_eq!(lookup_sized(LAST, size, IN_PACKED | POINTER), wrong(3), "{size} entries");
        assert_eq!(lookup_sized(LAST, size, IN_PLAIN | POINTER), wrong(2), "{size} entries");
    }
}

#[test]
fn a_last_block_is_numbered_by_fifteen_bits() {
    // In a segment the bit after the top one is no mark of a plain segment.
    let [first, mut packed, plain, _] = stores();
    packed[32 + 2] = 49_152;
    let last = [vec![0; 16_384 * 256], vec![11; 256]].concat();
    assert_eq!(look_up_segments(&[first, packed, plain, last], IN_PACKED | PORT), done([0, 11, 4]));
}

#[test]
fn a_last_entry_above_4094_or_with_its_top_bit_set_is_refused_11_and_counts_as_read() {
    for entry in [4095, 16_384, 32_767, 32_768, 65_535] {
        assert_eq!(lookup_with(LAST, 9, entry, IN_PACKED | POINTER | 9), wrong(4), "entry {entry}");
        assert_eq!(lookup_with(LAST, 9, entry, IN_PLAIN | POINTER | 9), wrong(3), "entry {entry}");
    }
    assert_eq!(lookup_with(LAST, 9, 4094, IN_PACKED | POINTER | 9), done([0, 4094, 4]));
    assert_eq!(lookup_with(LAST, 9, 32_768, IN_PACKED | POINTER | 8), done([0, 11, 4]));
}

#[test]
fn the_debug_call_gives_256_of_a_plain_segment_and_64_of_a_packed_one_without_its_codewords() {
    let (packed, plain) = (vec![0; 3 * 96], vec![0; 2 * 256]);
    for (entry, offset, count) in
        [(32_768, 32, 64), (32_769, 96 + 32, 64), (32_770, 2 * 96 + 32, 64), (49_152, 0, 256), (49_153, 256, 256)]
    {
        assert_eq!(segments_entries(&packed, &plain, entry), done([0, offset, count]), "entry {entry}");
    }
}

#[test]
fn the_debug_call_gives_none_where_the_entry_names_no_segment_in_its_store() {
    let (packed, plain) = (vec![0; 3 * 96 + 95], vec![0; 2 * 256 + 255]);
    // Ports, numbers past the whole blocks, and more than sixteen bits.
    let ports = [0, 1, 4094, 4095, 16_384, 32_767];
    let past = [32_771, 49_151, 49_154, 65_535];
    let large = [65_536, 65_536 + 32_768, 65_536 + 49_152, 1 << 31, u32::MAX];
    for entry in ports.into_iter().chain(past).chain(large) {
        assert_eq!(segments_entries(&packed, &plain, entry), done([0, 0, 0]), "entry {entry}");
    }
    // Short of a whole block, and none.
    assert_eq!(segments_entries(&[0; 95], &plain, 32_768), done([0, 0, 0]));
    assert_eq!(segments_entries(&packed, &[0; 255], 49_152), done([0, 0, 0]));
    assert_eq!(segments_entries(&[], &[], 32_768), done([0, 0, 0]));
    assert_eq!(segments_entries(&[], &[], 49_152), done([0, 0, 0]));
}
