//! Random segment tables: every entry against a scan of its own, and every lookup against the plain scan.

use crate::support::{agree, done, list_of, look_up_segments, scan, segments_of, Held, Random, Stores};
use reference::segments_entries;
use std::collections::BTreeMap;
use workload::segments::crowded_segment;
use workload::Kind;

/// The stores by another way: each entry by a plain scan of its own, from the rules' sentences one by one.
fn scanned(held: &Held) -> Stores {
    // A route longer than sixteen bits matches no address with other ones, which saves most of the scans.
    let mut near: BTreeMap<u32, Held> = BTreeMap::new();
    let short: Held =
        held.iter().filter(|((_, length), _)| *length <= 16).map(|(prefix, port)| (*prefix, *port)).collect();
    for (prefix, port) in held.iter().filter(|((_, length), _)| *length > 16) {
        near.entry(prefix.0 >> 16).or_insert_with(|| short.clone()).insert(*prefix, *port);
    }
    let mut stores = Stores::default();
    for bits in 0..65_536 {
        let entry = match near.get(&bits) {
            Some(near) => scanned_segment(near, bits << 16, &mut stores),
            None => scan(&short, bits << 16) as u16,
        };
        stores[0].push(entry);
    }
    stores
}

fn scanned_segment(held: &Held, segment: u32, [_, packed, plain, last]: &mut Stores) -> u16 {
    let longer = |path: u32| held.keys().any(|(value, length)| *length > 24 && agree(*value, path, 24));
    let mut entries = Vec::new();
    for path in (0..256).map(|octet| segment | octet << 8) {
        if longer(path) {
            entries.push(32_768 + (last.len() / 256) as u16);
            last.extend((0..256).map(|octet| scan(held, path | octet) as u16));
        } else {
            entries.push(scan(held, path) as u16);
        }
    }
    let bit = |i: usize| u16::from(i == 0 || entries[i] != entries[i - 1]);
    let ones_before = |end: usize| (0..end).map(bit).sum::<u16>();
    if ones_before(256) > 64 {
        plain.extend(&entries);
        return 49_152 + (plain.len() / 256) as u16 - 1;
    }
    for from in (0..256).step_by(8) {
        let bits: u16 = (0..8).map(|i| bit(from + i) * (128 >> i)).sum();
        packed.push(256 * bits + ones_before(from));
    }
    let kept = (0..256).filter(|i| bit(*i) == 1).map(|i| entries[i]);
    packed.extend(kept.chain(std::iter::repeat(0)).take(64));
    32_768 + (packed.len() / 96) as u16 - 1
}

/// Sets of every shape, half of them with a crowded segment.
fn sets() -> impl Iterator<Item = (u64, Held, Random)> {
    (0..60).zip(Kind::ALL.into_iter().cycle()).map(|(seed, kind)| {
        let mut random = Random::new(seed);
        let count = random.index(20);
        let mut held = kind.routes(&mut random, count);
        if random.below(2) == 0 {
            let first_bits = random.word() as u16;
            held.extend(crowded_segment(&mut random, first_bits));
        }
        (seed, held, random)
    })
}

#[test]
fn every_entry_is_what_a_scan_of_its_own_gives() {
    for (seed, held, _) in sets() {
        let (built, expected) = (segments_of(&list_of(&held)), scanned(&held));
        for (store, name) in ["first", "packed", "plain", "last"].iter().enumerate() {
            let difference = (0..expected[store].len()).find(|at| built[store].get(*at) != expected[store].get(*at));
            assert_eq!(difference, None, "seed {seed}, {name}");
            assert_eq!(built[store].len(), expected[store].len(), "seed {seed}, {name}");
        }
    }
}

/// One entry of the first table; a plain segment adds one read and a packed one two, and a last block one more.
fn reads_on_the_way(stores: &Stores, held: &Held, address: u32) -> u32 {
    let longer = |bits| held.keys().any(|(value, length)| *length > bits && agree(*value, address, bits));
    match (stores[0][(address >> 16) as usize], longer(24)) {
        (0..32_768, _) => 1,
        (32_768..49_152, false) => 3,
        (32_768..49_152, true) => 4,
        (_, false) => 2,
        (_, true) => 3,
    }
}

#[test]
fn the_lookup_is_the_plain_scan_and_reads_what_the_rules_say() {
    for (seed, held, mut random) in sets() {
        let stores = segments_of(&list_of(&held));
        for _ in 0..200 {
            let address = random.address(&held);
            let expected = [0, scan(&held, address), reads_on_the_way(&stores, &held, address)];
            assert_eq!(look_up_segments(&stores, address), done(expected), "seed {seed} address {address}");
        }
    }
}

#[test]
fn the_entries_of_a_built_segment_are_all_256_or_the_64_that_are_kept() {
    for (seed, held, _) in sets() {
        let [first, packed, plain, _] = segments_of(&list_of(&held));
        let (mut packed_before, mut plain_before) = (0, 0);
        for entry in first {
            let expected = match entry {
                0..32_768 => [0, 0, 0],
                32_768..49_152 => [0, 96 * packed_before + 32, 64],
                _ => [0, 256 * plain_before, 256],
            };
            packed_before += u32::from((32_768..49_152).contains(&entry));
            plain_before += u32::from(entry >= 49_152);
            assert_eq!(segments_entries(&packed, &plain, entry.into()), done(expected), "seed {seed}");
        }
    }
}
