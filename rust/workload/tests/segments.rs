//! Crowded segments have ones about 64, damage to segment tables meets the edges of every store, and any words pass for
//! tables.

use std::collections::BTreeSet;
use workload::segments::{crowded_segment, noise_stores, Stores, FIRST_ENTRIES};
use workload::{damage_segments, Held, Random};

/// The ones of the bitmap of a segment whose routes have 24 bits each.
fn ones(held: &Held, segment: u32) -> usize {
    let port = |octet: u32| held.get(&(segment | octet << 8, 24)).copied().unwrap_or(0);
    (0..256).filter(|octet| *octet == 0 || port(*octet) != port(octet - 1)).count()
}

#[test]
fn crowded_segments_have_ones_about_64_and_at_both_ends() {
    let mut met = BTreeSet::new();
    for seed in 0..300 {
        let held = crowded_segment(&mut Random::new(seed), 0x0A01);
        assert!(held.keys().all(|(value, length)| value >> 16 == 0x0A01 && *length >= 24), "seed {seed}");
        if held.keys().all(|(_, length)| *length == 24) {
            met.insert(ones(&held, 0x0A01_0000));
        }
    }
    assert_eq!(met, BTreeSet::from([1, 2, 8, 9, 63, 64, 65, 66, 255, 256]));
}

#[test]
fn longer_routes_in_crowded_segments_lie_in_one_last_block_side_by_side_and_apart() {
    let mut met = BTreeSet::new();
    for seed in 0..100 {
        let held = crowded_segment(&mut Random::new(seed), 0);
        let octets: Vec<u32> = held.keys().filter(|(_, length)| *length > 24).map(|(value, _)| value >> 8).collect();
        met.extend(octets.windows(2).map(|pair| (pair[1] - pair[0]).min(2)));
    }
    assert_eq!(met, BTreeSet::from([0, 1, 2]));
}

/// A first table that leads to packed block 1 and plain block 0, of two, one and three blocks.
fn stores() -> Stores {
    let mut first = vec![0; FIRST_ENTRIES];
    (first[7], first[9]) = (32_769, 49_152);
    [first, vec![1; 2 * 96], vec![2; 256], vec![3; 3 * 256]]
}

/// What the stores become by one damage, on a row of seeds.
fn damaged() -> impl Iterator<Item = Stores> {
    (0..20_000).map(|seed| {
        let mut damaged = stores();
        damage_segments(&mut damaged, &mut Random::new(seed));
        damaged
    })
}

#[test]
fn each_edge_of_an_entry_and_of_a_codeword_is_met() {
    let right = stores();
    // Of each store, the words that another one is replaced by; of the packed one codewords and entries apart.
    let mut met = [(); 5].map(|()| BTreeSet::new());
    for damaged in damaged() {
        for (store, (words, before)) in damaged.iter().zip(&right).enumerate() {
            let changed = words.iter().zip(before).position(|(word, before)| word != before);
            if let Some(place) = changed.filter(|_| words.len() == before.len()) {
                let kind = if store == 1 && place % 96 < 32 { 4 } else { store };
                met[kind].insert(words[place]);
            }
        }
    }
    let [first, packed, plain, last, codewords] = met;
    let holds = |met: &BTreeSet<u16>, edges: &[u16]| edges.iter().all(|edge| met.contains(edge));
    assert!(holds(&first, &[0, 4094, 4095, 16_384, 32_767, 32_768, 32_770, 49_151, 49_153, 65_535]), "{first:?}");
    for entries in [packed, plain, last] {
        assert!(holds(&entries, &[0, 4094, 4095, 32_767, 32_768, 32_770, 32_771, 65_535]), "{entries:?}");
    }
    // Of one bit alone and of all eight, the index is 63 at the first two bases, and 64 at the others.
    assert!(holds(&codewords, &[0, 65_535, 0x803F, 0xFF38, 0x8040, 0xFF39, 0x0040, 0x0041]), "{codewords:?}");
}

#[test]
fn short_and_long_stores_are_met() {
    let mut met = [(); 4].map(|()| BTreeSet::new());
    for damaged in damaged() {
        damaged.iter().zip(&mut met).for_each(|(store, met)| _ = met.insert(store.len()));
    }
    let [first, blocks @ ..] = met;
    assert_eq!(first, BTreeSet::from([FIRST_ENTRIES - 1, FIRST_ENTRIES]));
    for (lengths, size) in blocks.iter().zip([2 * 96, 256, 3 * 256]) {
        assert!([0, size - 1, size].iter().all(|length| lengths.contains(length)), "{lengths:?}");
        assert!(lengths.range(1..size - 1).count() > 50 && lengths.range(size + 1..).count() > 50, "{lengths:?}");
    }
}

#[test]
fn any_words_pass_for_segment_tables() {
    for seed in 0..200 {
        let mut random = Random::new(seed);
        let mut stores = [(); 4].map(|()| (0..random.below(300)).map(|_| random.word() as u16).collect());
        (0..20).for_each(|_| damage_segments(&mut stores, &mut random));
    }
    let mut empty = Stores::default();
    (0..100).for_each(|seed| damage_segments(&mut empty, &mut Random::new(seed)));
}

#[test]
fn noise_has_whole_blocks_and_parts_of_them() {
    let noise: Vec<Stores> = (0..200).map(|seed| noise_stores(&mut Random::new(seed))).collect();
    assert!(noise.iter().all(|stores| stores[0].len() == FIRST_ENTRIES));
    for (store, size) in [(1, 96), (2, 256), (3, 256)] {
        let blocks: BTreeSet<usize> = noise.iter().map(|stores| stores[store].len() / size).collect();
        assert_eq!(blocks, (0..=3).collect(), "store {store}");
        assert!(noise.iter().any(|stores| stores[store].len() % size > 0), "store {store}");
    }
}
