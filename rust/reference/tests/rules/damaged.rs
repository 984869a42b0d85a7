//! Damaged rows, images and segment tables: good order against a second check, and lookups that end in their bounds.

use crate::support::{
    agree, announce, first_bits_of, image_of, list_of, look_up_segments, segments_of, table_of, withdraw, Random,
    STRIDES,
};
use reference::{image_lookup, table_check, table_lookup};
use std::cmp::Reverse;
use workload::segments::noise_stores;
use workload::{damage_image, damage_rows, damage_segments};

/// Longer first, then the smaller value.
type Rank = (u32, Reverse<u32>);

/// A second check of good order, by another way: no trie is built. A walk from row 0 counts the rows and takes the
/// best of each subtree; a priority node must be strictly ahead of everything below it.
struct Walk<'a> {
    rows: &'a [u32],
    n: u32,
    seen: u32,
}

impl Walk<'_> {
    fn good_order(rows: &[u32], n: u32) -> bool {
        let mut walk = Walk { rows, n, seen: 0 };
        n as usize <= 4096.min(rows.len() / 5) && (n == 0 || walk.best(0, 0, 0).is_some()) && walk.seen == n
    }

    /// The best rank in the subtree at this path; none if something there is wrong.
    fn best(&mut self, number: u32, path: u32, depth: u32) -> Option<Rank> {
        if number >= self.n {
            return None;
        }
        let row = &self.rows[5 * number as usize..5 * number as usize + 5];
        let (value, length, port) = (row[0], row[1], row[2]);
        if !(depth..=32).contains(&length) || value != first_bits_of(value, length) || !agree(value, path, depth) {
            return None;
        }
        if port == 0 || port > 4094 {
            return None;
        }
        self.seen += 1;
        let own = (length, Reverse(value));
        let mut best = own;
        for (side, child) in [(0, row[3]), (1, row[4])] {
            if child != 0 {
                let place = if depth == 32 { return None } else { path | side << (31 - depth) };
                let below = self.best(child, place, depth + 1)?;
                if length > depth && below >= own {
                    return None;
                }
                best = best.max(below);
            }
        }
        Some(best)
    }
}

#[test]
fn good_order_agrees_with_a_second_check() {
    let (mut good, mut bad) = (0, 0);
    for seed in 0..4000 {
        let mut random = Random::new(seed);
        let mut held = random.held(12);
        held.insert((0, 0), 1);
        let (mut rows, n) = table_of(&list_of(&held));
        (0..=random.below(2)).for_each(|_| damage_rows(&mut rows, &mut random));
        let expected = Walk::good_order(&rows, n);
        assert_eq!(table_check(&rows, n).number, if expected { 0 } else { 11 }, "seed {seed}");
        if expected {
            good += 1;
        } else {
            bad += 1;
        }
    }
    assert!(good > 200 && bad > 200, "both cases are to be met: {good} good, {bad} bad");
}

#[test]
fn updates_of_a_damaged_table_are_refused_11_and_write_nothing() {
    for seed in 0..1000 {
        let mut random = Random::new(seed);
        let mut held = random.held(12);
        held.insert((0, 0), 1);
        let (mut rows, n) = table_of(&list_of(&held));
        damage_rows(&mut rows, &mut random);
        if Walk::good_order(&rows, n) {
            continue;
        }
        let mut after = rows.clone();
        let announced = announce(&mut after, n, 0, 0, 1);
        assert_eq!((announced.number, announced.answer), (11, [0, n]), "seed {seed}");
        let withdrawn = withdraw(&mut after, n, 0, 0);
        assert_eq!((withdrawn.number, withdrawn.answer), (11, [0, n]), "seed {seed}");
        assert_eq!(after, rows, "seed {seed}");
    }
}

#[test]
fn a_lookup_in_damaged_rows_ends_with_at_most_33_read() {
    for seed in 0..1000 {
        let mut random = Random::new(seed);
        let mut held = random.held(30);
        held.insert((0, 0), 1);
        let (mut rows, n) = table_of(&list_of(&held));
        (0..random.below(4)).for_each(|_| damage_rows(&mut rows, &mut random));
        for _ in 0..10 {
            let found = table_lookup(&rows, n, random.address(&held));
            let [place, port, rows_read] = found.answer;
            assert!([0, 11].contains(&found.number) && place == 0, "seed {seed}");
            assert!((1..=33).contains(&rows_read), "seed {seed}");
            assert!(port <= 4094 && (port == 0 || found.number == 0), "seed {seed}");
        }
    }
}

#[test]
fn a_lookup_in_a_damaged_image_ends_with_at_most_32_over_stride_read() {
    for seed in 0..1000 {
        let mut random = Random::new(seed);
        let held = random.held(8);
        let stride = random.pick(&STRIDES);
        let (mut nodes, mut ports) = image_of(stride, &list_of(&held));
        (0..=random.below(2)).for_each(|_| damage_image(stride, &mut nodes, &mut ports, &mut random));
        for _ in 0..10 {
            let found = image_lookup(stride, &nodes, &ports, random.address(&held));
            let [place, port, nodes_read] = found.answer;
            assert!([0, 11].contains(&found.number) && place == 0, "seed {seed}");
            assert!((1..=32 / stride).contains(&nodes_read), "seed {seed}");
            assert!(port <= 4094 && (port == 0 || found.number == 0), "seed {seed}");
        }
    }
}

#[test]
fn a_lookup_in_damaged_segment_tables_ends_with_at_most_4_reads() {
    for seed in 0..300 {
        let mut random = Random::new(seed);
        let held = random.held(8);
        let mut stores = match random.below(2) {
            0 => segments_of(&list_of(&held)),
            _ => noise_stores(&mut random),
        };
        (0..=random.below(2)).for_each(|_| damage_segments(&mut stores, &mut random));
        for _ in 0..50 {
            let found = look_up_segments(&stores, random.address(&held));
            let [place, port, reads] = found.answer;
            assert!([0, 11].contains(&found.number) && place == 0, "seed {seed}");
            assert!((1..=4).contains(&reads) || stores[0].len() < 65_536 && reads == 0, "seed {seed}");
            assert!(port <= 4094 && (port == 0 || found.number == 0), "seed {seed}");
        }
    }
}
