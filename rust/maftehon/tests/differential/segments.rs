//! Building segment tables, looking up in them, and the entries of a segment for the debug page.

use compare::{on_seeds, scenarios};
use workload::segments::{crowded_segment, cut_to, room_for, Stores};
use workload::{full_length_list, list_of, Held, Kind};

/// 10.1.0.0, whose first sixteen bits are 0x0A01.
const TEN_ONE: u32 = 0x0A01_0000;

/// 10.1.0.0/17 to 5, 10.1.3.0/24 to 6, 10.1.7.0/24 and 10.1.8.0/24 to 7, 10.1.130.0/23 to 8, 10.1.255.255/32 to 9.
const PACKED_EXAMPLE: [[u32; 3]; 6] = [
    [TEN_ONE, 17, 5],
    [TEN_ONE | 3 << 8, 24, 6],
    [TEN_ONE | 7 << 8, 24, 7],
    [TEN_ONE | 8 << 8, 24, 7],
    [TEN_ONE | 130 << 8, 23, 8],
    [TEN_ONE | 0xFFFF, 32, 9],
];

/// Its block, with ones at 0, 3, 4, 7, 9, 128, 130, 132 and 255.
fn packed_example() -> Vec<u16> {
    let codewords = [&[0x9900, 0x4004][..], &[5; 14], &[0xA805], &[8; 14], &[0x0108]].concat();
    [&codewords[..], &[5, 6, 5, 7, 5, 0, 8, 0, 32_768], &[0; 55]].concat()
}

/// Every second entry of 10.1.0.0/16, so many of them, to port 1.
fn every_second(from: u32, count: u32) -> Vec<u32> {
    (0..count).flat_map(|number| [TEN_ONE | (from + 2 * number) << 8, 24, 1]).collect()
}

/// The packed block of every second entry from 0 to 62.
fn packed_of_64_ones() -> Vec<u16> {
    let codewords = [0xFF00, 0xFF08, 0xFF10, 0xFF18, 0xFF20, 0xFF28, 0xFF30, 0xFF38];
    [&codewords[..], &[64; 24], &[1, 0].repeat(32)].concat()
}

/// A first table with one entry that is not 0, that of 10.1.
fn first_with(entry: u16) -> Vec<u16> {
    let mut first = vec![0; 65_536];
    first[0x0A01] = entry;
    first
}

#[test]
fn examples_are_built_word_for_word() {
    on_seeds(1, |checker, _| {
        for (list, stores) in [
            (vec![], [vec![0; 65_536], vec![], vec![], vec![]]),
            (vec![TEN_ONE, 16, 9], [first_with(9), vec![], vec![], vec![]]),
            (PACKED_EXAMPLE.concat(), [first_with(32_768), packed_example(), vec![], [&[0; 255][..], &[9]].concat()]),
            // 64 ones from entry 0 on, and 65, of which the first is entry 0's own and the last that of entry 64.
            (every_second(0, 32), [first_with(32_768), packed_of_64_ones(), vec![], vec![]]),
            (every_second(1, 32), [first_with(49_152), vec![], [[0, 1].repeat(32), vec![0; 192]].concat(), vec![]]),
        ] {
            let room = stores.each_ref().map(Vec::len);
            let (built, left) = checker.segments_build(&list, room)?;
            assert_eq!((built.number, &left), (0, &stores), "{list:?}");
            for store in (0..4).filter(|store| room[*store] > 0) {
                let mut short = room;
                short[store] -= 1;
                let (refused, _) = checker.segments_build(&list, short)?;
                assert_eq!((refused.number, refused.answer), (9, [0; 4]), "{list:?}, store {store}");
            }
        }
        Ok(())
    });
}

/// What a lookup comes to: a port, or none, and the reads.
type Found = (Option<u32>, u32);

const FIRST: usize = 0;
const PACKED: usize = 1;
const PLAIN: usize = 2;
const LAST: usize = 3;

/// 0.1 is packed segment 0 and 0.2 plain segment 0. Of either, entry 1 leads to last block 0, whose ports are 11, entry
/// 2 has port 7, and the others have port 0.
fn stores() -> Stores {
    let mut first = vec![0; 65_536];
    first[1..3].copy_from_slice(&[32_768, 49_152]);
    let packed = [&[0xF000][..], &[4; 31], &[0, 32_768, 7], &[0; 61]].concat();
    [first, packed, [&[0, 32_768, 7][..], &[0; 253]].concat(), vec![11; 256]]
}

/// A word that gets another value, the last three octets of the address, and what its lookup comes to.
const WORDS: [(usize, usize, u16, [u32; 3], Found); 32] = [
    // As they are.
    (FIRST, 0, 0, [0, 0, 0], (Some(0), 1)),
    (FIRST, 0, 0, [1, 1, 9], (Some(11), 4)),
    (FIRST, 0, 0, [1, 2, 9], (Some(7), 3)),
    (FIRST, 0, 0, [2, 1, 9], (Some(11), 3)),
    (FIRST, 0, 0, [2, 2, 9], (Some(7), 2)),
    // Ports at each level.
    (FIRST, 1, 4094, [1, 1, 9], (Some(4094), 1)),
    (FIRST, 1, 4095, [1, 1, 9], (None, 1)),
    (FIRST, 1, 16_384, [1, 1, 9], (None, 1)),
    (FIRST, 1, 32_767, [1, 1, 9], (None, 1)),
    (PACKED, 33, 4095, [1, 1, 9], (None, 3)),
    (PLAIN, 1, 4095, [2, 1, 9], (None, 2)),
    (LAST, 9, 4094, [1, 1, 9], (Some(4094), 4)),
    (LAST, 9, 4095, [1, 1, 9], (None, 4)),
    (LAST, 9, 4095, [2, 1, 9], (None, 3)),
    (LAST, 9, 32_768, [1, 1, 9], (None, 4)),
    (LAST, 9, 32_768, [2, 1, 9], (None, 3)),
    // Blocks past their store at each level.
    (FIRST, 1, 32_769, [1, 1, 9], (None, 1)),
    (FIRST, 1, 49_151, [1, 1, 9], (None, 1)),
    (FIRST, 2, 49_153, [2, 1, 9], (None, 1)),
    (FIRST, 2, 65_535, [2, 1, 9], (None, 1)),
    (PACKED, 33, 32_769, [1, 1, 9], (None, 3)),
    (PACKED, 33, 49_152, [1, 1, 9], (None, 3)),
    (PLAIN, 1, 32_769, [2, 1, 9], (None, 2)),
    (PLAIN, 1, 65_535, [2, 1, 9], (None, 2)),
    // Codewords: indexes -1, 0, 63 and 64, by the base and by the bits.
    (PACKED, 0, 0x0000, [1, 1, 9], (None, 2)),
    (PACKED, 0, 0x2000, [1, 1, 9], (None, 2)),
    (PACKED, 0, 0x4003, [1, 1, 9], (Some(0), 3)),
    (PACKED, 0, 0x0040, [1, 1, 9], (Some(0), 3)),
    (PACKED, 0, 0x0041, [1, 1, 9], (None, 2)),
    (PACKED, 0, 0xFF39, [1, 6, 9], (Some(0), 3)),
    (PACKED, 0, 0xFF39, [1, 7, 9], (None, 2)),
    (PACKED, 31, 0xFFFF, [1, 255, 9], (None, 2)),
];

/// A store that gets another size, the last three octets of the address, and what its lookup comes to.
const SIZES: [(usize, usize, [u32; 3], Found); 12] = [
    (FIRST, 0, [0, 0, 0], (None, 0)),
    (FIRST, 65_535, [0, 0, 0], (None, 0)),
    (FIRST, 65_537, [2, 2, 9], (Some(7), 2)),
    (PACKED, 0, [1, 2, 9], (None, 1)),
    (PACKED, 95, [1, 2, 9], (None, 1)),
    (PACKED, 0, [2, 2, 9], (Some(7), 2)),
    (PLAIN, 0, [2, 2, 9], (None, 1)),
    (PLAIN, 255, [2, 2, 9], (None, 1)),
    (PLAIN, 0, [1, 2, 9], (Some(7), 3)),
    (LAST, 0, [1, 1, 9], (None, 3)),
    (LAST, 255, [1, 1, 9], (None, 3)),
    (LAST, 255, [2, 1, 9], (None, 2)),
];

fn assert_comes_to(stores: &Stores, [second, third, fourth]: [u32; 3], (port, reads): Found) {
    on_seeds(1, |checker, _| {
        let found = checker.segments_lookup(stores, &[second << 16 | third << 8 | fourth])?;
        let expected = port.map_or((11, [0, 0, reads]), |port| (0, [0, port, reads]));
        assert_eq!((found[0].number, found[0].answer), expected, "0.{second}.{third}.{fourth}");
        Ok(())
    });
}

#[test]
fn words_that_are_wrong_are_refused_with_the_reads_so_far() {
    for (store, place, word, octets, found) in WORDS {
        let mut stores = stores();
        stores[store][place] = word;
        assert_comes_to(&stores, octets, found);
    }
}

#[test]
fn only_whole_blocks_and_a_whole_first_table_count() {
    for (store, size, octets, found) in SIZES {
        let mut stores = stores();
        stores[store].resize(size, 0);
        assert_comes_to(&stores, octets, found);
    }
}

#[test]
fn entries_stand_where_the_rules_say() {
    on_seeds(1, |checker, _| {
        // Two packed blocks and three plain ones, each store with all but one word of another.
        let stores = [vec![], vec![0; 3 * 96 - 1], vec![0; 4 * 256 - 1], vec![]];
        for (entry, offset, count) in [
            (32_768, 32, 64),
            (32_769, 128, 64),
            (32_770, 0, 0),
            (49_151, 0, 0),
            (49_152, 0, 256),
            (49_154, 512, 256),
            (49_155, 0, 0),
            (65_535, 0, 0),
            (0, 0, 0),
            (4094, 0, 0),
            (32_767, 0, 0),
            (65_536 + 32_768, 0, 0),
            (65_536 + 49_152, 0, 0),
            (u32::MAX, 0, 0),
        ] {
            let given = checker.segments_entries(&stores, &[entry])?;
            assert_eq!((given[0].number, given[0].answer), (0, [0, offset, count]), "entry {entry}");
        }
        Ok(())
    });
}

#[test]
fn the_most_segments_and_the_most_last_blocks_are_built_alike() {
    on_seeds(1, |checker, _| {
        let packed: Held = (0..4096).map(|number| ((number << 20 | 0x8000, 17), 1)).collect();
        let last: Held = (0..4096).map(|number| ((number << 20 | 1, 32), 1)).collect();
        let in_plain: Held = (0..4096).map(|number| ((number << 8, 25), 1)).collect();
        for (held, blocks) in [(packed, [4096, 0, 0]), (last, [4096, 0, 4096]), (in_plain, [0, 16, 4096])] {
            let (built, mut stores) = checker.segments_build(&list_of(&held), room_for(4096))?;
            let [packed, plain, last] = blocks;
            assert_eq!((built.number, built.answer), (0, [0, packed, plain, last]));
            cut_to(&mut stores, blocks);
            let ends = held.keys().flat_map(|(value, _)| [value.wrapping_sub(1), *value, value + 1]);
            checker.segments_lookup(&stores, &ends.collect::<Vec<u32>>())?;
        }
        Ok(())
    });
}

#[test]
fn as_many_plain_segments_as_4096_routes_can_make_are_built_alike() {
    on_seeds(1, |checker, _| {
        // Each takes 32 routes, which make 65 ones.
        let octets = |segment: u32| (0..32).map(move |number| ((segment << 16 | (1 + 2 * number) << 8, 24), 1));
        let held: Held = (0..128).flat_map(octets).collect();
        let (built, _) = checker.segments_build(&list_of(&held), [65_536, 0, 128 * 256, 0])?;
        assert_eq!((built.number, built.answer), (0, [0, 0, 128, 0]));
        Ok(())
    });
}

#[test]
fn lists_about_the_most_routes_are_accepted_and_refused_alike() {
    on_seeds(1, |checker, _| {
        for (count, number) in [(4095, 0), (4096, 0), (4097, 8), (5000, 8)] {
            let (built, _) = checker.segments_build(&full_length_list(count), room_for(20))?;
            assert_eq!(built.number, number, "{count} routes");
        }
        Ok(())
    });
}

#[test]
fn crowded_segments_are_built_alike() {
    on_seeds(400, |checker, random| {
        let count = random.index(10);
        let mut held = random.pick(&Kind::ALL).routes(random, count);
        held.extend(crowded_segment(random, 0x0A01));
        held.extend(crowded_segment(random, 0x0A02));
        checker.segments_build(&list_of(&held), room_for(held.len()))?;
        Ok(())
    });
}

#[test]
fn small_segment_tables_are_built_and_looked_up_alike() {
    on_seeds(150, |checker, random| scenarios::valid_segments(checker, random, 25));
}

#[test]
fn segment_tables_of_4096_routes_are_built_and_looked_up_alike() {
    on_seeds(20, |checker, random| scenarios::valid_segments(checker, random, 4096));
}

#[test]
fn damaged_segment_tables_are_looked_up_alike() {
    on_seeds(600, |checker, random| scenarios::damaged_segments(checker, random, 10));
    on_seeds(20, |checker, random| scenarios::damaged_segments(checker, random, 4096));
}

#[test]
fn noise_is_looked_up_alike() {
    on_seeds(800, |checker, random| scenarios::noise_segments(checker, random, 1000));
}
