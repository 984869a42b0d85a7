//! Rules, "Segment tables": what is built, word for word, and what a lookup in it finds and reads. Typed from the rules.

use crate::support::{build_segments, done, list_of, look_up_segments, segments_of, Held, Stores, UNTOUCHED_PORT};

/// 10.1.0.0, whose first sixteen bits are 0x0A01.
const TEN_ONE: u32 = 0x0A01_0000;

/// The same word so many times, for each pair.
fn words(stretches: &[(usize, u16)]) -> Vec<u16> {
    stretches.iter().flat_map(|(count, word)| vec![*word; *count]).collect()
}

/// A first table with these entries, and else 0.
fn first_with(entries: &[(usize, u16)]) -> Vec<u16> {
    let mut first = vec![0; 65_536];
    entries.iter().for_each(|(at, entry)| first[*at] = *entry);
    first
}

/// Routes of 24 bits in 10.1.0.0/16, to port 1, at these third octets.
fn at_octets(octets: impl Iterator<Item = u32>) -> Held {
    octets.map(|octet| ((TEN_ONE | octet << 8, 24), 1)).collect()
}

fn stores_of(held: &Held) -> Stores {
    segments_of(&list_of(held))
}

#[test]
fn no_route_has_65536_entries_0_and_no_block() {
    assert_eq!(segments_of(&[]), [vec![0; 65_536], vec![], vec![], vec![]]);
}

#[test]
fn routes_of_at_most_16_bits_make_ports_and_no_pointer() {
    // 0.0.0.0/0, 10.0.0.0/8, and 10.1.0.0/16 and 255.255.0.0/16, of exactly sixteen bits.
    let stores = segments_of(&[0, 0, 3, 10 << 24, 8, 7, TEN_ONE, 16, 2, 0xFFFF_0000, 16, 4094]);
    let first = words(&[(0x0A00, 3), (1, 7), (1, 2), (0xFE, 7), (0xFFFF - 0x0B00, 3), (1, 4094)]);
    assert_eq!(stores, [first, vec![], vec![], vec![]]);
}

#[test]
fn a_route_of_17_bits_makes_a_packed_segment() {
    let [first, packed, plain, last] = segments_of(&[TEN_ONE | 0x8000, 17, 9]);
    assert_eq!(first, first_with(&[(0x0A01, 32_768)]));
    // Entries 0..127 are 0, and 128..255 are 9: ones at 0 and 128, which are highest in codewords 0 and 16.
    assert_eq!(packed, words(&[(1, 0x8000), (15, 1), (1, 0x8001), (15, 2), (1, 0), (1, 9), (62, 0)]));
    assert_eq!((plain, last), (vec![], vec![]));
}

#[test]
fn a_route_of_exactly_24_bits_makes_no_last_block() {
    let [first, packed, plain, last] = segments_of(&[TEN_ONE | 2 << 8, 24, 7]);
    assert_eq!(first, first_with(&[(0x0A01, 32_768)]));
    // Ones at 0, 2 and 3.
    assert_eq!(packed, words(&[(1, 0b1011_0000 << 8), (31, 3), (1, 0), (1, 7), (62, 0)]));
    assert_eq!((plain, last), (vec![], vec![]));
}

#[test]
fn a_route_of_25_bits_makes_a_last_block() {
    let [_, packed, plain, last] = segments_of(&[TEN_ONE, 24, 7, TEN_ONE | 0x80, 25, 8]);
    // Entry 0 is the pointer to last block 0, the others are 0: ones at 0 and 1.
    assert_eq!(packed, words(&[(1, 0b1100_0000 << 8), (31, 2), (1, 32_768), (63, 0)]));
    assert_eq!((plain, last), (vec![], words(&[(128, 7), (128, 8)])));
}

/// 10.1.0.0/17 to 5, 10.1.3.0/24 to 6, 10.1.7.0/24 and 10.1.8.0/24 to 7, 10.1.130.0/23 to 8, 10.1.255.255/32 to 9.
fn worked_example() -> Stores {
    segments_of(
        &[
            [TEN_ONE, 17, 5],
            [TEN_ONE | 3 << 8, 24, 6],
            [TEN_ONE | 7 << 8, 24, 7],
            [TEN_ONE | 8 << 8, 24, 7],
            [TEN_ONE | 130 << 8, 23, 8],
            [TEN_ONE | 0xFFFF, 32, 9],
        ]
        .concat(),
    )
}

#[test]
fn the_codewords_of_an_example_worked_out_by_hand() {
    let [first, packed, plain, last] = worked_example();
    assert_eq!(first, first_with(&[(0x0A01, 32_768)]));
    // Entries 0..2 are 5, 3 is 6, 4..6 are 5, 7 and 8 are 7, 9..127 are 5, 128 and 129 are 0, 130 and 131 are 8,
    // 132..254 are 0, and 255 is the pointer to last block 0. So there are ones at 0, 3, 4, 7, 9, 128, 130, 132, 255.
    let codewords = words(&[
        (1, 0b1001_1001 << 8),
        (1, 0b0100_0000 << 8 | 4),
        (14, 5),
        (1, 0b1010_1000 << 8 | 5),
        (14, 8),
        (1, 0b0000_0001 << 8 | 8),
    ]);
    let entries = [&[5, 6, 5, 7, 5, 0, 8, 0, 32_768][..], &[0; 55]].concat();
    assert_eq!(packed, [codewords, entries].concat());
    assert_eq!((plain, last), (vec![], words(&[(255, 0), (1, 9)])));
}

#[test]
fn lookups_in_that_example_take_the_entry_of_the_last_one_through_their_bit() {
    let stores = worked_example();
    for (third, fourth, port, reads) in [
        (0, 0, 5, 3),
        (2, 9, 5, 3),
        (3, 0, 6, 3),
        (4, 0, 5, 3),
        (6, 255, 5, 3),
        (7, 0, 7, 3),
        (8, 1, 7, 3),
        (9, 0, 5, 3),
        (15, 0, 5, 3),
        (16, 0, 5, 3),
        (127, 255, 5, 3),
        (128, 0, 0, 3),
        (131, 255, 8, 3),
        (132, 0, 0, 3),
        (254, 255, 0, 3),
        (255, 254, 0, 4),
        (255, 255, 9, 4),
    ] {
        let found = look_up_segments(&stores, TEN_ONE | third << 8 | fourth);
        assert_eq!(found, done([0, port, reads]), "10.1.{third}.{fourth}");
    }
    assert_eq!(look_up_segments(&stores, 0x0A00_FFFF), done([0, 0, 1]));
    assert_eq!(look_up_segments(&stores, 0x0A02_0000), done([0, 0, 1]));
}

#[test]
fn a_segment_of_64_ones_is_packed() {
    // Every second entry from 0 to 62 is 1, so that each of the first 64 differs from the one before it.
    let [first, packed, plain, last] = stores_of(&at_octets((0..64).step_by(2)));
    assert_eq!(first, first_with(&[(0x0A01, 32_768)]));
    let codewords = [&[0xFF00, 0xFF08, 0xFF10, 0xFF18, 0xFF20, 0xFF28, 0xFF30, 0xFF38][..], &[64; 24]].concat();
    assert_eq!(packed, [codewords, [1, 0].repeat(32)].concat());
    assert_eq!((plain, last), (vec![], vec![]));
}

#[test]
fn a_segment_of_65_ones_is_plain() {
    // Every second entry from 1 to 63 is 1; bit 0 is 1 too, and bit 64.
    let stores = stores_of(&at_octets((1..64).step_by(2)));
    let [first, packed, plain, last] = &stores;
    assert_eq!(*first, first_with(&[(0x0A01, 49_152)]));
    assert_eq!(*plain, [[0, 1].repeat(32), vec![0; 192]].concat());
    assert_eq!((packed, last), (&vec![], &vec![]));
    for (third, port) in [(0, 0), (1, 1), (63, 1), (64, 0), (255, 0)] {
        assert_eq!(look_up_segments(&stores, TEN_ONE | third << 8 | 77), done([0, port, 2]), "10.1.{third}.77");
    }
}

#[test]
fn a_pointer_in_a_plain_segment_is_followed_with_3_reads() {
    let mut held = at_octets((1..64).step_by(2));
    held.insert((TEN_ONE | 200 << 8 | 77, 32), 9);
    let stores = stores_of(&held);
    assert_eq!(stores[2], [[0, 1].repeat(32), words(&[(136, 0), (1, 32_768), (55, 0)])].concat());
    assert_eq!(stores[3], words(&[(77, 0), (1, 9), (178, 0)]));
    assert_eq!(look_up_segments(&stores, TEN_ONE | 200 << 8 | 77), done([0, 9, 3]));
    assert_eq!(look_up_segments(&stores, TEN_ONE | 200 << 8 | 78), done([0, 0, 3]));
}

#[test]
fn a_longer_route_makes_a_pointer_also_where_every_port_is_the_same() {
    let [first, packed, _, last] = segments_of(&[TEN_ONE, 16, 7, TEN_ONE | 2 << 8, 24, 7]);
    assert_eq!((first[0x0A01], last), (32_768, vec![]));
    assert_eq!(packed, words(&[(1, 0x8000), (31, 1), (1, 7), (63, 0)]));
    // Below a segment entry likewise: the pointer differs from the ports about it.
    let [_, packed, _, last] = segments_of(&[TEN_ONE, 16, 7, TEN_ONE | 2 << 8, 32, 7]);
    assert_eq!(packed, words(&[(1, 0b1011_0000 << 8), (31, 3), (1, 7), (1, 32_768), (1, 7), (61, 0)]));
    assert_eq!(last, vec![7; 256]);
}

#[test]
fn two_neighbouring_pointers_always_differ() {
    let [_, packed, _, last] = segments_of(&[TEN_ONE, 25, 7, TEN_ONE | 1 << 8, 25, 7]);
    assert_eq!(packed, words(&[(1, 0b1110_0000 << 8), (31, 3), (1, 32_768), (1, 32_769), (62, 0)]));
    assert_eq!(last, words(&[(128, 7), (128, 0), (128, 7), (128, 0)]));
}

#[test]
fn packed_segments_plain_segments_and_last_blocks_are_numbered_apart_in_address_order() {
    let mut held = Held::from([((0x0001_8000, 17), 1), ((0x0003_8000, 17), 1)]);
    for segment in [0x0002_0000, 0x0004_0000] {
        held.extend((1..64).step_by(2).map(|octet| ((segment | octet << 8, 24), 1)));
        held.insert((segment | 200 << 8, 32), 2);
    }
    held.extend([((0x0005_0000, 25), 3), ((0x0005_0900, 25), 4)]);
    let [first, packed, plain, last] = stores_of(&held);
    assert_eq!(first[..7], [0, 32_768, 49_152, 32_769, 49_153, 32_770, 0]);
    assert_eq!((packed.len(), plain.len(), last.len()), (3 * 96, 2 * 256, 4 * 256));
    assert_eq!((plain[200], plain[256 + 200]), (32_768, 32_769));
    // Entries 0, 1, 9 and 10 of the last segment.
    assert_eq!(packed[2 * 96 + 32..2 * 96 + 36], [32_770, 0, 32_771, 0]);
    assert_eq!([last[0], last[256], last[512], last[768]], [2, 2, 3, 4]);
}

#[test]
fn there_are_4096_packed_segments_at_most_each_of_a_route_of_its_own() {
    let held: Held = (0..4096).map(|number| ((number << 20 | 0x8000, 17), 1 + number % 4094)).collect();
    let stores = stores_of(&held);
    let [first, packed, plain, last] = &stores;
    assert_eq!((packed.len(), plain.len(), last.len()), (4096 * 96, 0, 0));
    for number in 0..4096 {
        let port = 1 + number as u16 % 4094;
        assert_eq!(first[16 * number..16 * number + 2], [32_768 + number as u16, 0], "segment {number}");
        assert_eq!(packed[96 * number + 32..96 * number + 35], [0, port, 0], "segment {number}");
        let found = look_up_segments(&stores, (number as u32) << 20 | 0xFFFF);
        assert_eq!(found, done([0, u32::from(port), 3]), "segment {number}");
    }
}

#[test]
fn there_are_4096_last_blocks_at_most_in_segments_of_their_own_or_in_full_ones() {
    let apart: Held = (0..4096).map(|number| ((number << 20 | 1, 32), 1)).collect();
    let [first, packed, plain, last] = stores_of(&apart);
    assert_eq!((packed.len(), plain.len(), last.len()), (4096 * 96, 0, 4096 * 256));
    assert_eq!((first[0xFFF0], packed[4095 * 96 + 32]), (32_768 + 4095, 32_768 + 4095));
    // Sixteen segments of 256 pointers: 256 ones each.
    let full: Held = (0..4096).map(|number| ((TEN_ONE + (number << 8), 25), 1)).collect();
    let [first, packed, plain, last] = stores_of(&full);
    assert_eq!((packed.len(), last.len()), (0, 4096 * 256));
    assert_eq!(first[0x0A00..0x0A03], [0, 49_152, 49_153]);
    assert_eq!((first[0x0A10], first[0x0A11]), (49_152 + 15, 0));
    assert_eq!(plain, (0..4096).map(|number| 32_768 + number).collect::<Vec<u16>>());
}

#[test]
fn what_is_lent_past_the_output_is_unchanged() {
    let (answer, stores) = build_segments(&[TEN_ONE, 25, 7], [65_538, 96 + 95, 1, 256 + 3]);
    assert_eq!(answer, done([0, 1, 0, 1]));
    let [first, packed, plain, last] = stores;
    assert_eq!((&first[65_536..], &plain[..]), (&[UNTOUCHED_PORT; 2][..], &[UNTOUCHED_PORT][..]));
    assert_eq!((&packed[96..], &last[256..]), (&[UNTOUCHED_PORT; 95][..], &[UNTOUCHED_PORT; 3][..]));
}
