//! Building images and looking up in them, by the general lookup and by those of a constant stride.

use compare::{on_seeds, scenarios};

/// The routes of the examples 9 and 10: 000, 001, 01, 10, 1100, 1101, 111.
const FIGURE_4: [u32; 21] =
    [0, 3, 3, 2 << 28, 3, 4, 4 << 28, 2, 1, 8 << 28, 2, 2, 12 << 28, 4, 6, 13 << 28, 4, 7, 14 << 28, 3, 5];

/// Their nodes: at stride 1 the leaf bases are 0, 0, 1, 2, 4, 5, and at stride 2 they are 0, 2, 6.
const STRIDE_1: [u32; 12] = [0, 1, 1, 2, 2, 2, 3, 2, 1, 1, 3, 1];
const STRIDE_2: [u32; 6] = [6, 1, 15, 2, 15, 1];
/// A root whose slot 0 leads to a node of sixteen leaves, at stride 4: leaf bases 0 and 15.
const STRIDE_4: [u32; 4] = [0x7FFF, 1, 0xFFFF, 1];

/// The nodes at that stride, and one more, which nothing leads to.
fn nodes_at(stride: u32) -> Vec<u32> {
    match stride {
        1 => [&STRIDE_1[..], &[3, 1]].concat(),
        2 => [&STRIDE_2[..], &[15, 1]].concat(),
        _ => [&STRIDE_4[..], &[0xFFFF, 1]].concat(),
    }
}

/// What a lookup comes to: a leaf, or none, and the nodes read.
type Leaf = (Option<u32>, u32);

/// Stride, the node that gets another offset, the offset, the first byte of the address, and what a lookup comes to.
const OFFSETS: [(u32, usize, u32, u32, Leaf); 28] = [
    // Node 1: 0 is refused, 1 is right, and at 2 the leaf base would be -1; at leaves and at non-leaves.
    (2, 1, 0, 0b0100_0000, (None, 1)),
    (2, 1, 0, 0b0000_0000, (None, 1)),
    (2, 1, 1, 0b0100_0000, (Some(0), 1)),
    (2, 1, 1, 0b0000_0000, (Some(2), 2)),
    (2, 1, 2, 0b0100_0000, (None, 1)),
    (2, 1, 2, 0b0000_0000, (None, 1)),
    (1, 1, 0, 0b0000_0000, (None, 1)),
    (1, 1, 2, 0b0000_0000, (None, 1)),
    (4, 1, 0, 0b1111_0000, (None, 1)),
    (4, 1, 2, 0b1111_0000, (None, 1)),
    (4, 1, 2, 0b0000_0000, (None, 1)),
    // Node 2: 0 is allowed.
    (1, 2, 0, 0b0100_0000, (Some(2), 2)),
    (2, 2, 0, 0b0011_0000, (Some(7), 2)),
    (4, 2, 0, 0b0000_1111, (Some(31), 2)),
    // A leaf base of 0, and of -1.
    (1, 2, 2, 0b0100_0000, (Some(0), 2)),
    (1, 2, 3, 0b0100_0000, (None, 2)),
    (1, 6, 6, 0b1101_0000, (Some(1), 4)),
    (1, 6, 7, 0b1101_0000, (None, 4)),
    (2, 3, 7, 0b1101_0000, (Some(1), 2)),
    (2, 3, 8, 0b1101_0000, (None, 2)),
    (4, 2, 16, 0b0000_1111, (Some(15), 2)),
    (4, 2, 17, 0b0000_1111, (None, 2)),
    // The same at a non-leaf: node 3 leads to node 6, and would lead to node 7.
    (1, 3, 3, 0b1100_0000, (Some(5), 3)),
    (1, 3, 4, 0b1100_0000, (None, 2)),
    // Modulo 2^32 these sums would be 0, 1, 2 and 2.
    (2, 1, u32::MAX, 0b0100_0000, (None, 1)),
    (2, 2, u32::MAX, 0b0000_0000, (None, 2)),
    (2, 3, u32::MAX, 0b1100_0000, (None, 2)),
    (1, 3, u32::MAX, 0b1100_0000, (None, 2)),
];

/// Nodes of three words, with leaf base, as a lookup reads them in two.
const THREE_WORDS: [(u32, &[u32], u32, Leaf); 5] = [
    (2, &[6, 1, 0, 15, 0, 2, 15, 0, 6], 0b0100_0000, (Some(0), 1)),
    (2, &[6, 1, 0, 15, 0, 2, 15, 0, 6], 0b0000_0000, (None, 2)),
    (2, &[6, 1, 0, 15, 0, 2, 15, 0, 6], 0b1100_0000, (None, 2)),
    (1, &[0, 1, 0, 1, 2, 0, 2, 2, 1, 3, 0, 2, 1, 1, 4, 3, 0, 5], 0b0100_0000, (Some(2), 3)),
    (4, &[65535, 0, 0], 0b0000_0000, (None, 1)),
];

/// The lookup by every call of that stride, among leaves whose port is 100 more than their number.
fn assert_comes_to(stride: u32, nodes: &[u32], first_byte: u32, (leaf, nodes_read): Leaf) {
    on_seeds(1, |checker, _| {
        let ports: Vec<u16> = (100..140).collect();
        let found = checker.image_lookup(stride, nodes, &ports, &[first_byte << 24])?;
        let expected = leaf.map_or((11, [0, 0, nodes_read]), |leaf| (0, [0, 100 + leaf, nodes_read]));
        assert_eq!((found[0].number, found[0].answer), expected, "stride {stride}, {nodes:?}, {first_byte:08b}");
        Ok(())
    });
}

#[test]
fn the_examples_are_built_word_for_word() {
    on_seeds(1, |checker, _| {
        for (stride, list, words, ports) in [
            (1, &FIGURE_4[..], &STRIDE_1[..], &[1, 2, 3, 4, 5, 6, 7][..]),
            (2, &FIGURE_4, &STRIDE_2, &[1, 2, 3, 3, 4, 4, 6, 7, 5, 5]),
            (4, &[], &[65535, 1], &[0; 16]),
        ] {
            let built = checker.image_build(stride, list, (words.len(), ports.len()))?;
            assert_eq!((built.0.number, &built.1[..], &built.2[..]), (0, words, ports), "stride {stride}");
            let (short, ..) = checker.image_build(stride, list, (words.len() - 1, ports.len()))?;
            assert_eq!((short.number, short.answer), (9, [0, 0, 0]), "stride {stride}");
        }
        Ok(())
    });
}

#[test]
fn offsets_are_refused_where_they_leave_no_leaf_base() {
    for (stride, number, offset, first_byte, leaf) in OFFSETS {
        let mut nodes = nodes_at(stride);
        nodes[2 * number - 1] = offset;
        assert_comes_to(stride, &nodes, first_byte, leaf);
    }
}

#[test]
fn nodes_of_three_words_are_read_as_nodes_of_two() {
    for (stride, nodes, first_byte, leaf) in THREE_WORDS {
        assert_comes_to(stride, nodes, first_byte, leaf);
    }
}

#[test]
fn small_images_are_built_and_looked_up_alike() {
    on_seeds(2000, |checker, random| scenarios::valid_images(checker, random, 25));
}

#[test]
fn images_of_4096_routes_are_built_and_looked_up_alike() {
    on_seeds(30, |checker, random| scenarios::valid_images(checker, random, 4096));
}

#[test]
fn damaged_images_are_looked_up_alike() {
    on_seeds(15_000, |checker, random| scenarios::damaged_images(checker, random, 10));
    on_seeds(100, |checker, random| scenarios::damaged_images(checker, random, 1000));
    on_seeds(20, |checker, random| scenarios::damaged_images(checker, random, 4096));
}
