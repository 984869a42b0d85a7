//! Damage to images meets the edges of every offset, the layout in three words, and memory that is short or long.

use std::collections::BTreeSet;
use workload::{damage_image, Random};

/// Three nodes at stride 2, of which the root alone has children, and their ten ports.
const NODES: [u32; 6] = [6, 1, 15, 2, 15, 1];
const PORTS: [u16; 10] = [1, 2, 3, 3, 4, 4, 6, 7, 5, 5];
/// The same nodes with their leaf bases, and offset 0 where every slot is a leaf.
const THREE_WORDS: [u32; 9] = [6, 1, 0, 15, 0, 2, 15, 0, 6];

/// What the image becomes by one damage, on a row of seeds.
fn damaged() -> Vec<(Vec<u32>, Vec<u16>)> {
    let damage = |seed| {
        let (mut nodes, mut ports) = (NODES.to_vec(), PORTS.to_vec());
        damage_image(2, &mut nodes, &mut ports, &mut Random::new(seed));
        (nodes, ports)
    };
    (0..20_000).map(damage).collect()
}

/// The offsets that a node comes to have where nothing else is changed.
fn offsets(word: usize) -> BTreeSet<u32> {
    let alone =
        |nodes: &Vec<u32>| nodes.len() == 6 && (0..6).all(|other| other == word || nodes[other] == NODES[other]);
    damaged().iter().map(|(nodes, _)| nodes).filter(|nodes| alone(nodes)).map(|nodes| nodes[word]).collect()
}

#[test]
fn each_edge_of_an_offset_is_met() {
    // 0, the largest that leaves a leaf base, one more, and the largest of all.
    for (node, edges) in [[0, 1, 2, u32::MAX], [0, 4, 5, u32::MAX], [0, 7, 8, u32::MAX]].iter().enumerate() {
        let met = offsets(2 * node + 1);
        assert!(edges.iter().all(|edge| met.contains(edge)), "node {}: {met:?}", node + 1);
    }
}

#[test]
fn offsets_that_lead_back_only_where_a_sum_wraps_are_met() {
    // From node 3 to nodes 1 and 2.
    let met = offsets(5);
    assert!(met.contains(&(u32::MAX - 1)) && met.contains(&u32::MAX), "{met:?}");
}

#[test]
fn nodes_of_three_words_are_met() {
    assert!(damaged().iter().any(|(nodes, ports)| *nodes == THREE_WORDS && *ports == PORTS));
}

#[test]
fn short_and_long_memory_is_met_and_the_root_stays_whole() {
    let damaged = damaged();
    let node_words: BTreeSet<usize> = damaged.iter().map(|(nodes, _)| nodes.len()).collect();
    assert_eq!(node_words, (2..=12).collect());
    let port_counts: BTreeSet<usize> = damaged.iter().map(|(_, ports)| ports.len()).collect();
    assert_eq!(port_counts, (0..=20).collect());
}

#[test]
fn any_words_pass_for_an_image() {
    for seed in 0..1000 {
        let mut random = Random::new(seed);
        let mut nodes: Vec<u32> = (0..random.below(20)).map(|_| random.any_size()).collect();
        let mut ports: Vec<u16> = (0..random.below(20)).map(|_| random.word() as u16).collect();
        let stride = random.pick(&[1, 2, 4]);
        (0..5).for_each(|_| damage_image(stride, &mut nodes, &mut ports, &mut random));
    }
}
