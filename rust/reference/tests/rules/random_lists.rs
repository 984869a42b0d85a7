//! Random lists: every lookup equals the plain scan, reads what the rules say, and the runs cover the space.

use crate::support::{
    agree, done, first_bits_of, image_of, list_of, refused, scan, table_of, Held, Prefix, Random, NODE_WORDS, STRIDES,
    UNTOUCHED,
};
use reference::{image_lookup, list_runs, list_scan, table_build, table_check, table_lookup};
use reference::{table_runs, table_save};
use std::cmp::Reverse;

/// The nodes that the search passes in the trie of the rule, following only the sets on the address's way.
fn rows_on_the_way(held: &Held, address: u32) -> u32 {
    let mut set: Vec<Prefix> = held.keys().copied().collect();
    for depth in 0..=32 {
        let ordinary = set.iter().find(|(_, length)| *length == depth);
        let longest = || set.iter().max_by_key(|(value, length)| (*length, Reverse(*value)));
        let Some(node) = ordinary.or_else(longest).copied() else { return depth };
        if node.1 > depth && agree(node.0, address, node.1) {
            return depth + 1;
        }
        set.retain(|prefix| *prefix != node && agree(prefix.0, address, depth + 1));
    }
    33
}

/// One more than the non-leaf slots that the address passes.
fn nodes_on_the_way(held: &Held, stride: u32, address: u32) -> u32 {
    let non_leaf = |bits: u32| held.keys().any(|(value, length)| *length > bits && agree(*value, address, bits));
    1 + (1..32 / stride).take_while(|slots| non_leaf(slots * stride)).count() as u32
}

#[test]
fn the_scan_of_a_list_is_the_plain_scan() {
    for seed in 0..100 {
        let mut random = Random::new(seed);
        let held = random.held(40);
        for _ in 0..20 {
            let address = random.address(&held);
            assert_eq!(list_scan(&list_of(&held), address), done([0, scan(&held, address)]), "seed {seed}");
        }
    }
}

#[test]
fn the_table_lookup_is_the_plain_scan_and_reads_the_nodes_on_the_way() {
    for seed in 0..200 {
        let mut random = Random::new(seed);
        let held = random.held(60);
        let (rows, n) = table_of(&list_of(&held));
        assert_eq!(table_check(&rows, n), done([0]), "seed {seed}");
        for _ in 0..40 {
            let address = random.address(&held);
            let expected = [0, scan(&held, address), rows_on_the_way(&held, address)];
            assert_eq!(table_lookup(&rows, n, address), done(expected), "seed {seed} address {address}");
        }
    }
}

#[test]
fn the_image_lookup_is_the_plain_scan_and_reads_one_more_than_the_non_leaf_slots() {
    for seed in 0..100 {
        let mut random = Random::new(seed);
        let held = random.held(40);
        for stride in STRIDES {
            let (nodes, ports) = image_of(stride, &list_of(&held));
            for _ in 0..30 {
                let address = random.address(&held);
                let expected = [0, scan(&held, address), nodes_on_the_way(&held, stride, address)];
                let found = image_lookup(stride, &nodes, &ports, address);
                assert_eq!(found, done(expected), "seed {seed} stride {stride} address {address}");
            }
        }
    }
}

#[test]
fn an_image_has_one_leaf_more_than_its_nodes_take() {
    // Every node but the root fills one slot, and every slot is a node or a leaf.
    for seed in 0..100 {
        let list = list_of(&Random::new(seed).held(40));
        for stride in STRIDES {
            let (nodes, ports) = image_of(stride, &list);
            let count = nodes.len() / NODE_WORDS;
            assert_eq!(ports.len(), (count << stride) - (count - 1), "seed {seed} stride {stride}");
        }
    }
}

/// Ascending, without gap or overlap, from address 0 to the last one; neighbours differ; ports are the plain scan's.
fn assert_runs_cover(words: &[u32], held: &Held, random: &mut Random, seed: u64) {
    let runs: Vec<&[u32]> = words.chunks(3).collect();
    assert_eq!(runs[0][0], 0, "seed {seed}");
    assert_eq!(runs[runs.len() - 1][1], u32::MAX, "seed {seed}");
    assert!(runs.len() <= 2 * held.len() + 1, "seed {seed}");
    for pair in runs.windows(2) {
        assert_eq!(pair[0][1] + 1, pair[1][0], "seed {seed}");
        assert_ne!(pair[0][2], pair[1][2], "seed {seed}");
    }
    for run in runs {
        let (first, last, port) = (run[0], run[1], run[2]);
        assert!(first <= last, "seed {seed}");
        let between = (u64::from(first) + u64::from(random.word()) % (u64::from(last - first) + 1)) as u32;
        for address in [first, last, between] {
            assert_eq!(scan(held, address), port, "seed {seed} address {address}");
        }
    }
    // The ends of routes are looked at too, since a run could hide a route inside it.
    for _ in 0..50 {
        assert_port_of_run(words, random.address(held), held, seed);
    }
}

fn runs_words(held: &Held) -> Vec<u32> {
    let mut runs = vec![UNTOUCHED; 3 * (2 * held.len() + 1)];
    let answer = list_runs(&list_of(held), &mut runs);
    assert_eq!((answer.number, answer.answer[0]), (0, 0));
    let words = 3 * answer.answer[1] as usize;
    assert!(runs[words..].iter().all(|word| *word == UNTOUCHED));
    runs.truncate(words);
    runs
}

fn assert_port_of_run(runs: &[u32], address: u32, held: &Held, seed: u64) {
    let run = runs.chunks(3).find(|run| run[0] <= address && address <= run[1]).expect("a run that has the address");
    assert_eq!(run[2], scan(held, address), "seed {seed} address {address}");
}

#[test]
fn the_runs_of_a_list_cover_the_space() {
    for seed in 0..200 {
        let mut random = Random::new(seed);
        let held = random.held(30);
        assert_runs_cover(&runs_words(&held), &held, &mut random, seed);
    }
}

#[test]
fn the_runs_of_a_table_are_those_of_its_list_and_need_no_more_room() {
    for seed in 0..200 {
        let held = Random::new(seed).held(30);
        let (rows, n) = table_of(&list_of(&held));
        let expected = runs_words(&held);
        let mut runs = vec![UNTOUCHED; expected.len()];
        assert_eq!(table_runs(&rows, n, &mut runs), done([0, expected.len() as u32 / 3]), "seed {seed}");
        assert_eq!(runs, expected, "seed {seed}");
        runs.fill(UNTOUCHED);
        assert_eq!(table_runs(&rows, n, &mut runs[1..]), refused(9, [0, 0]), "seed {seed}");
        assert!(runs.iter().all(|word| *word == UNTOUCHED), "seed {seed}");
    }
}

#[test]
fn a_saved_table_is_the_list_it_was_built_from() {
    for seed in 0..200 {
        let list = list_of(&Random::new(seed).held(60));
        let (rows, n) = table_of(&list);
        let mut saved = vec![UNTOUCHED; list.len() + 2];
        assert_eq!(table_save(&rows, n, &mut saved), done([0, n]), "seed {seed}");
        assert_eq!(saved[..list.len()], list, "seed {seed}");
        assert_eq!(saved[list.len()..], [UNTOUCHED; 2], "seed {seed}");
    }
}

#[test]
fn a_list_of_4096_routes_is_built_looked_up_and_listed() {
    let seed = 4096;
    let mut random = Random::new(seed);
    let mut held = Held::new();
    while held.len() < 4096 {
        let length = 8 + random.below(25);
        held.insert((first_bits_of(random.word(), length), length), random.port());
    }
    let list = list_of(&held);
    let mut rows = vec![UNTOUCHED; 5 * 4096];
    assert_eq!(table_build(&list, &mut rows), done([0, 4096]));
    let (nodes, ports) = image_of(4, &list);
    let runs = runs_words(&held);
    for _ in 0..100 {
        let address = random.address(&held);
        let port = scan(&held, address);
        assert_eq!(table_lookup(&rows, 4096, address).answer[1], port, "seed {seed} address {address}");
        assert_eq!(image_lookup(4, &nodes, &ports, address).answer[1], port, "seed {seed} address {address}");
        assert_port_of_run(&runs, address, &held, seed);
    }
}

#[test]
fn the_most_runs_are_8193_and_are_listed() {
    // 4,096 routes that are apart from each other, from both ends, and end in neither: two boundaries each.
    let held: Held = (1..=4096).map(|value| ((2 * value + 1, 32), 1)).collect();
    assert_eq!(runs_words(&held).len(), 3 * 8193);
}
