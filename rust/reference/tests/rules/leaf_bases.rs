//! Rules, "Nodes" and "Lookup in an image": the offset of every node leads to the next unused number, the leaf base
//! follows from it, and a node that can have none is refused 11. Typed from the rules, or counted from the bitmaps.

use crate::support::{address, done, image_of, list_of, refused, Random, NODE_WORDS, STRIDES};
use reference::{image_lookup, Answer};
use workload::Kind;

/// The nodes of example 9: Figure 4 at stride 1, whose leaf bases are 0, 0, 1, 2, 4, 5.
const STRIDE_1: [u32; 12] = [0, 1, 1, 2, 2, 2, 3, 2, 1, 1, 3, 1];
/// The nodes of example 10: the same at stride 2, with leaf bases 0, 2, 6.
const STRIDE_2: [u32; 6] = [6, 1, 15, 2, 15, 1];
/// A root whose slot 0 leads to a node of sixteen leaves, at stride 4: leaf bases 0, 15.
const STRIDE_4: [u32; 4] = [0x7FFF, 1, 0xFFFF, 1];

/// The lookup among leaves whose port is 100 more than their number.
fn lookup(stride: u32, nodes: &[u32], bits: &str) -> Answer<3> {
    let ports: Vec<u16> = (100..140).collect();
    image_lookup(stride, nodes, &ports, address(bits))
}

/// Done, with this leaf and so many nodes read.
fn leaf(number: u32, nodes_read: u32) -> Answer<3> {
    done([0, 100 + number, nodes_read])
}

/// Refused 11 with so many nodes read.
fn wrong(nodes_read: u32) -> Answer<3> {
    refused(11, [0, 0, nodes_read])
}

/// The nodes with another offset at one of them.
fn with_offset(nodes: &[u32], number: usize, offset: u32) -> Vec<u32> {
    let mut nodes = nodes.to_vec();
    nodes[NODE_WORDS * (number - 1) + 1] = offset;
    nodes
}

#[test]
fn the_leaf_bases_of_the_examples_are_computed() {
    for (bits, expected) in [
        ("01", leaf(0, 2)),
        ("10", leaf(1, 2)),
        ("000", leaf(2, 3)),
        ("001", leaf(3, 3)),
        ("111", leaf(4, 3)),
        ("1100", leaf(5, 4)),
        ("1101", leaf(6, 4)),
    ] {
        assert_eq!(lookup(1, &STRIDE_1, bits), expected, "address {bits}");
    }
    for (bits, expected) in [
        ("01", leaf(0, 1)),
        ("10", leaf(1, 1)),
        ("0000", leaf(2, 2)),
        ("0011", leaf(5, 2)),
        ("1100", leaf(6, 2)),
        ("1111", leaf(9, 2)),
    ] {
        assert_eq!(lookup(2, &STRIDE_2, bits), expected, "address {bits}");
    }
    for (bits, expected) in
        [("0001", leaf(0, 1)), ("1111", leaf(14, 1)), ("00000000", leaf(15, 2)), ("00001111", leaf(30, 2))]
    {
        assert_eq!(lookup(4, &STRIDE_4, bits), expected, "address {bits}");
    }
}

#[test]
fn offset_0_at_node_1_is_refused_11_and_counts_as_read() {
    // The image of no route, with offset 0 and as it is built.
    for (stride, bitmap) in [(1, 3), (2, 15), (4, 65535)] {
        assert_eq!(lookup(stride, &[bitmap, 0], ""), wrong(1), "stride {stride}");
        assert_eq!(lookup(stride, &[bitmap, 1], ""), leaf(0, 1), "stride {stride}");
    }
    // At a leaf, and at non-leaves, which would lead to nodes 1 and 2.
    for bits in ["01", "00", "11"] {
        assert_eq!(lookup(2, &with_offset(&STRIDE_2, 1, 0), bits), wrong(1), "address {bits}");
    }
}

#[test]
fn offset_0_at_node_2_is_allowed() {
    // The leaf base is then as if all slots of the root were leaves.
    let nodes = with_offset(&STRIDE_1, 2, 0);
    assert_eq!(lookup(1, &nodes, "01"), leaf(2, 2));
    let nodes = with_offset(&STRIDE_2, 2, 0);
    assert_eq!(lookup(2, &nodes, "0000"), leaf(4, 2));
    assert_eq!(lookup(2, &nodes, "0011"), leaf(7, 2));
    let nodes = with_offset(&STRIDE_4, 2, 0);
    assert_eq!(lookup(4, &nodes, "00000000"), leaf(16, 2));
    assert_eq!(lookup(4, &nodes, "00001111"), leaf(31, 2));
}

#[test]
fn a_leaf_base_of_0_is_allowed_and_one_less_is_refused_11() {
    // The root's is 0 by itself.
    assert_eq!(lookup(2, &with_offset(&STRIDE_2, 1, 2), "01"), wrong(1));
    // Node 2: four slots before it, and four children.
    assert_eq!(lookup(2, &with_offset(&STRIDE_2, 2, 4), "0000"), leaf(0, 2));
    assert_eq!(lookup(2, &with_offset(&STRIDE_2, 2, 4), "0011"), leaf(3, 2));
    assert_eq!(lookup(2, &with_offset(&STRIDE_2, 2, 5), "0000"), wrong(2));
    // Node 3: eight and eight.
    assert_eq!(lookup(2, &with_offset(&STRIDE_2, 3, 7), "1101"), leaf(1, 2));
    assert_eq!(lookup(2, &with_offset(&STRIDE_2, 3, 8), "1101"), wrong(2));
    // At stride 1, node 6: ten and ten.
    assert_eq!(lookup(1, &with_offset(&STRIDE_1, 6, 6), "1101"), leaf(1, 4));
    assert_eq!(lookup(1, &with_offset(&STRIDE_1, 6, 7), "1101"), wrong(4));
    // At stride 4, node 2: sixteen and sixteen.
    assert_eq!(lookup(4, &with_offset(&STRIDE_4, 2, 16), "00001111"), leaf(15, 2));
    assert_eq!(lookup(4, &with_offset(&STRIDE_4, 2, 17), "00001111"), wrong(2));
}

#[test]
fn a_node_without_a_leaf_base_is_refused_11_also_where_a_non_leaf_is_taken() {
    // The root's first child would be node 3, which is there.
    assert_eq!(lookup(2, &with_offset(&STRIDE_2, 1, 2), "0000"), wrong(1));
    assert_eq!(lookup(1, &with_offset(&STRIDE_1, 1, 2), "0"), wrong(1));
    assert_eq!(lookup(4, &[&STRIDE_4[..], &[0xFFFF, 1]].concat(), "0000"), leaf(15, 2));
    assert_eq!(lookup(4, &with_offset(&[&STRIDE_4[..], &[0xFFFF, 1]].concat(), 1, 2), "0000"), wrong(1));
    // Node 3 at stride 1 with base 0 has node 6 as its child; with one less it would have node 7, which is there too.
    let seven = [&STRIDE_1[..], &[3, 1]].concat();
    assert_eq!(lookup(1, &with_offset(&seven, 3, 3), "110"), leaf(5, 3));
    assert_eq!(lookup(1, &with_offset(&seven, 3, 4), "110"), wrong(2));
}

#[test]
fn a_damaged_offset_never_wraps() {
    assert_eq!(lookup(2, &with_offset(&STRIDE_2, 1, u32::MAX), "01"), wrong(1));
    assert_eq!(lookup(2, &with_offset(&STRIDE_2, 1, u32::MAX), "1100"), wrong(1));
    assert_eq!(lookup(2, &with_offset(&STRIDE_2, 2, u32::MAX), "000"), wrong(2));
    // Modulo 2^32 these sums would be 2 and 3, and the leaf bases 8 and 9.
    assert_eq!(lookup(2, &with_offset(&STRIDE_2, 3, u32::MAX), "1100"), wrong(2));
    assert_eq!(lookup(1, &with_offset(&STRIDE_1, 6, u32::MAX - 2), "1100"), wrong(4));
    // Modulo 2^32 node 3 would lead to node 2.
    assert_eq!(lookup(1, &with_offset(&STRIDE_1, 3, u32::MAX), "110"), wrong(2));
}

#[test]
fn nodes_of_three_words_are_read_as_nodes_of_two() {
    // Example 10 with leaf bases as third words, and offset 0 where all slots are leaves. As nodes of two words they
    // are (6, 1), (0, 15), (0, 2), (15, 0).
    let nodes = [6, 1, 0, 15, 0, 2, 15, 0, 6];
    assert_eq!(lookup(2, &nodes, "01"), leaf(0, 1));
    assert_eq!(lookup(2, &nodes, "10"), leaf(1, 1));
    // Node 2: fifteen children and four slots.
    assert_eq!(lookup(2, &nodes, "0000"), wrong(2));
    // Node 3 leads to node 5, and there are four whole ones.
    assert_eq!(lookup(2, &nodes, "1100"), wrong(2));
    // Example 9 likewise: (0, 1), (0, 1), (2, 0), (2, 2), and on.
    let nodes = [0, 1, 0, 1, 2, 0, 2, 2, 1, 3, 0, 2, 1, 1, 4, 3, 0, 5];
    assert_eq!(lookup(1, &nodes, "010"), leaf(2, 3));
    // Example 11 likewise.
    assert_eq!(lookup(4, &[65535, 0, 0], ""), wrong(1));
}

/// Lists of every shape, small and with some hundred routes.
fn lists() -> impl Iterator<Item = (u64, Vec<u32>)> {
    (0..120).zip(Kind::ALL.into_iter().cycle()).map(|(seed, kind)| {
        let mut random = Random::new(seed);
        let count = random.index(if seed % 10 == 0 { 400 } else { 30 });
        (seed, list_of(&kind.routes(&mut random, count)))
    })
}

#[test]
fn every_node_of_a_built_image_leads_to_the_next_unused_number() {
    for (seed, list) in lists() {
        for stride in STRIDES {
            let (nodes, ports) = image_of(stride, &list);
            let slots = 1 << stride;
            // Of all nodes before, counted from their bitmaps; only the root is no child.
            let (mut children, mut leaves) = (0, 0);
            for (node, words) in nodes.chunks(NODE_WORDS).enumerate() {
                let (number, bitmap, offset) = (node as u32 + 1, words[0], words[1]);
                let leaf_base = slots * (number - 1) - (number + offset - 2);
                let found = (number + offset, leaf_base);
                assert_eq!(found, (2 + children, leaves), "seed {seed} stride {stride} node {number}");
                assert_ne!(offset, 0, "seed {seed} stride {stride} node {number}");
                leaves += bitmap.count_ones();
                children += slots - bitmap.count_ones();
            }
            assert_eq!(leaves as usize, ports.len(), "seed {seed} stride {stride}");
            assert_eq!(children as usize, nodes.len() / NODE_WORDS - 1, "seed {seed} stride {stride}");
        }
    }
}

/// An address of each leaf, in the order of the ports: the paths of the nodes are followed by their bitmaps alone.
fn leaf_addresses(stride: u32, nodes: &[u32]) -> Vec<u32> {
    let slots = 1u32 << stride;
    // Each node's first address and depth; the non-leaf slots, in order, are the nodes after the root.
    let mut places = vec![(0, 0)];
    let mut leaves = Vec::new();
    for (node, words) in nodes.chunks(NODE_WORDS).enumerate() {
        let (first, depth) = places[node];
        for slot in 0..slots {
            let path = first | slot << (32 - depth - stride);
            if words[0] >> (slots - 1 - slot) & 1 == 1 {
                leaves.push(path);
            } else {
                places.push((path, depth + stride));
            }
        }
    }
    leaves
}

#[test]
fn every_leaf_of_a_built_image_is_found_and_no_node_refused() {
    for (seed, list) in lists() {
        for stride in STRIDES {
            let (nodes, ports) = image_of(stride, &list);
            // Another leaf near by has another port.
            let numbered: Vec<u16> = (0..ports.len()).map(|number| (number % 4095) as u16).collect();
            for (address, port) in leaf_addresses(stride, &nodes).into_iter().zip(&numbered) {
                let found = image_lookup(stride, &nodes, &numbered, address);
                assert_eq!((found.number, found.answer[1]), (0, u32::from(*port)), "seed {seed} stride {stride}");
            }
        }
    }
}
