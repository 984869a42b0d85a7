//! The plain Rust and C that the library is measured against give the same answers; otherwise it would measure nothing.

use maftehon::RouteList;
use tools::plain_check::is_good;
use tools::plain_segments;
use tools::plain_trie::PlainTrie;
use tools::plain_walk::lookup_4;
use workload::segments::{crowded_segment, cut_to, noise_stores, room_for, Stores};
use workload::{damage_image, damage_rows, damage_segments, list_of, Held, Kind, Random};

#[test]
fn the_plain_trie_gives_the_ports_of_the_scan_after_insertions_and_removals() {
    for (seed, kind) in (0..300).zip(Kind::ALL.into_iter().cycle()) {
        let mut random = Random::new(seed);
        let count = random.index(60);
        let mut held = kind.routes(&mut random, count);
        let mut trie = PlainTrie::build(&list_of(&held));
        let gone: Vec<_> = held.keys().copied().step_by(3).collect();
        for (value, length) in gone {
            held.remove(&(value, length));
            assert!(trie.remove(value, length) && !trie.remove(value, length), "seed {seed}");
        }
        for _ in 0..40 {
            let address = random.address(&held);
            let right = reference::list_scan(&list_of(&held), address).answer[1];
            assert_eq!(trie.lookup(address), right, "seed {seed} address {address}");
        }
    }
}

#[test]
fn the_plain_walk_answers_as_the_reference_on_damaged_images() {
    for seed in 0..2000 {
        let mut random = Random::new(seed);
        let held = random.held(10);
        let (mut nodes, mut ports) = (vec![0; 2 * 100], vec![0; 16 * 100]);
        let built = reference::image_build(4, &list_of(&held), &mut nodes, &mut ports).answer;
        nodes.truncate(2 * built[1] as usize);
        ports.truncate(built[2] as usize);
        (0..random.below(3)).for_each(|_| damage_image(4, &mut nodes, &mut ports, &mut random));
        for _ in 0..20 {
            let address = random.address(&held);
            let right = reference::image_lookup(4, &nodes, &ports, address);
            let found = lookup_4(&nodes, &ports, address);
            assert_eq!((found.number, found.answer), (right.number, right.answer), "seed {seed} address {address}");
        }
    }
}

#[test]
fn the_plain_check_decides_as_the_reference_on_damaged_tables() {
    for (seed, kind) in (0..6000).zip(Kind::ALL.into_iter().cycle()) {
        let mut random = Random::new(seed);
        let count = random.index(12);
        let held = kind.routes(&mut random, count);
        let mut rows = vec![0; 5 * count];
        let n = reference::table_build(&list_of(&held), &mut rows).answer[1];
        (0..random.below(3)).for_each(|_| damage_rows(&mut rows, &mut random));
        for n in [n, n + 1, n.saturating_sub(1)] {
            let right = reference::table_check(&rows, n).number == 0;
            assert_eq!(is_good(&rows, n), right, "seed {seed}");
        }
    }
}

/// The stores as the reference builds them, and with what the plain build leaves in the same memory.
fn segments_of(held: &Held) -> [Stores; 2] {
    // What is not written shows.
    let mut right: Stores = room_for(held.len()).map(|size| vec![0xA5C3; size]);
    let mut plain = right.clone();
    let list = list_of(held);
    let [first, packed, of_plain, last] = &mut right;
    let [_, blocks @ ..] = reference::segments_build(&list, first, packed, of_plain, last).answer;
    let list = RouteList::from_words(list).expect("a valid list");
    assert_eq!(plain_segments::build(&list, &mut plain), blocks);
    for stores in [&mut right, &mut plain] {
        cut_to(stores, blocks);
    }
    [right, plain]
}

/// A set of a shape, and often segments of many ones.
fn crowded(random: &mut Random, kind: Kind, count: usize) -> Held {
    let mut held = kind.routes(random, count);
    for _ in 0..random.below(3) {
        let first_bits = random.word() as u16;
        held.extend(crowded_segment(random, first_bits));
    }
    held
}

#[test]
fn the_plain_build_of_segment_tables_leaves_what_the_reference_leaves() {
    for (seed, kind) in (0..300).zip(Kind::ALL.into_iter().cycle()) {
        let mut random = Random::new(seed);
        let count = random.index(60);
        let [right, plain] = segments_of(&crowded(&mut random, kind, count));
        assert!(plain == right, "seed {seed}");
    }
    for kind in Kind::ALL {
        let [right, plain] = segments_of(&tools::full_set(kind));
        assert!(plain == right, "{}", kind.name());
    }
}

#[test]
fn the_lookup_without_checks_answers_as_the_reference_on_built_tables() {
    for (seed, kind) in (0..300).zip(Kind::ALL.into_iter().cycle()) {
        let mut random = Random::new(seed);
        let count = random.index(60);
        let held = crowded(&mut random, kind, count);
        let [[first, packed, plain, last], _] = &segments_of(&held);
        for _ in 0..100 {
            let address = random.address(&held);
            let right = reference::segments_lookup(first, packed, plain, last, address);
            // SAFETY: the stores are built from a valid list.
            let found = unsafe { plain_segments::lookup_unchecked(first, packed, plain, last, address) };
            assert_eq!((found.number, found.answer), (right.number, right.answer), "seed {seed} address {address}");
        }
    }
}

#[test]
fn the_plain_lookup_in_segment_tables_answers_as_the_reference_on_damaged_ones() {
    for (seed, kind) in (0..600).zip(Kind::ALL.into_iter().cycle()) {
        let mut random = Random::new(seed);
        let count = random.index(12);
        let held = crowded(&mut random, kind, count);
        let mut stores = match random.below(2) {
            0 => noise_stores(&mut random),
            _ => segments_of(&held)[0].clone(),
        };
        (0..random.below(3)).for_each(|_| damage_segments(&mut stores, &mut random));
        let [first, packed, plain, last] = &stores;
        for _ in 0..100 {
            let address = random.address(&held);
            let right = reference::segments_lookup(first, packed, plain, last, address);
            let found = plain_segments::lookup(first, packed, plain, last, address);
            assert_eq!((found.number, found.answer), (right.number, right.answer), "seed {seed} address {address}");
        }
    }
}
