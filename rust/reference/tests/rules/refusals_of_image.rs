//! Rules, "The image" and "Numbers on the refusal lamp": refusals of image build and image lookup.

use crate::support::{address, done, list_of_bits, refused, UNTOUCHED, UNTOUCHED_PORT};
use reference::{image_build, image_lookup};

/// Figure 4 at stride 2: three nodes and ten ports.
fn figure_4() -> Vec<u32> {
    list_of_bits(&["01", "10", "000", "001", "111", "1100", "1101"])
}

const NODES: [u32; 6] = [6, 1, 15, 2, 15, 1];
const PORTS: [u16; 10] = [1, 2, 3, 3, 4, 4, 6, 7, 5, 5];

fn nodes_with(word: usize, to: u32) -> [u32; 6] {
    let mut nodes = NODES;
    nodes[word] = to;
    nodes
}

fn lookup(nodes: &[u32], bits: &str) -> reference::Answer<3> {
    image_lookup(2, nodes, &PORTS, address(bits))
}

#[test]
fn build_refuses_a_stride_other_than_1_2_4_with_12_before_the_list() {
    for stride in [0, 3, 5, 8, 16, 32, u32::MAX] {
        let (mut nodes, mut ports) = ([UNTOUCHED; 2], [UNTOUCHED_PORT; 16]);
        assert_eq!(image_build(stride, &[0], &mut nodes, &mut ports), refused(12, [0, 0, 0]), "stride {stride}");
        assert_eq!((nodes, ports), ([UNTOUCHED; 2], [UNTOUCHED_PORT; 16]));
    }
}

#[test]
fn build_refuses_9_for_nodes_or_ports_and_writes_neither() {
    for (node_words, port_count) in [(5, 10), (6, 9), (0, 10), (6, 0), (0, 0)] {
        let (mut nodes, mut ports) = (vec![UNTOUCHED; node_words], vec![UNTOUCHED_PORT; port_count]);
        assert_eq!(image_build(2, &figure_4(), &mut nodes, &mut ports), refused(9, [0, 0, 0]));
        assert!(nodes.iter().all(|word| *word == UNTOUCHED));
        assert!(ports.iter().all(|port| *port == UNTOUCHED_PORT));
    }
    let (mut nodes, mut ports) = ([UNTOUCHED; 6], [UNTOUCHED_PORT; 10]);
    assert_eq!(image_build(2, &figure_4(), &mut nodes, &mut ports), done([0, 3, 10]));
    assert_eq!((nodes, ports), (NODES, PORTS));
}

#[test]
fn an_image_of_one_node_takes_two_words() {
    for (stride, slots) in [(1, 2), (2, 4), (4, 16)] {
        let mut ports = vec![UNTOUCHED_PORT; slots];
        assert_eq!(image_build(stride, &[], &mut [UNTOUCHED], &mut ports), refused(9, [0, 0, 0]), "stride {stride}");
        let mut nodes = [UNTOUCHED; 3];
        assert_eq!(image_build(stride, &[], &mut nodes, &mut ports), done([0, 1, slots as u32]), "stride {stride}");
        assert_eq!(nodes[1..], [1, UNTOUCHED], "stride {stride}");
    }
}

#[test]
fn lookup_refuses_a_stride_other_than_1_2_4_with_12_before_11() {
    for stride in [0, 3, 5, 8, 32, u32::MAX] {
        assert_eq!(image_lookup(stride, &[], &[], 0), refused(12, [0, 0, 0]), "stride {stride}");
    }
}

#[test]
fn lookup_without_a_whole_node_is_refused_11_with_none_read() {
    assert_eq!(image_lookup(2, &[], &PORTS, 0), refused(11, [0, 0, 0]));
    assert_eq!(image_lookup(2, &NODES[..1], &PORTS, 0), refused(11, [0, 0, 0]));
}

#[test]
fn a_node_number_past_the_whole_nodes_is_refused_11_and_adds_none() {
    assert_eq!(lookup(&NODES[..5], "1100"), refused(11, [0, 0, 1]));
    assert_eq!(lookup(&NODES[..5], "000"), done([0, 3, 2]));
    // Node 2 gets a child, which would be node 4.
    assert_eq!(lookup(&nodes_with(2, 7), "0000"), refused(11, [0, 0, 2]));
    assert_eq!(lookup(&nodes_with(2, 7), "0001"), done([0, 3, 2]));
}

#[test]
fn a_bitmap_with_more_bits_than_slots_is_refused_11_and_counts_as_read() {
    assert_eq!(lookup(&nodes_with(0, 16), "000"), refused(11, [0, 0, 1]));
    assert_eq!(lookup(&nodes_with(2, 31), "000"), refused(11, [0, 0, 2]));
    assert_eq!(lookup(&nodes_with(2, u32::MAX), "000"), refused(11, [0, 0, 2]));
    assert_eq!(image_lookup(1, &[4, 1], &[1, 2], 0), refused(11, [0, 0, 1]));
    assert_eq!(image_lookup(4, &[65536, 1], &[1; 16], 0), refused(11, [0, 0, 1]));
    assert_eq!(image_lookup(4, &[65535, 1], &[1; 16], 0), done([0, 1, 1]));
}

#[test]
fn a_leaf_number_past_the_ports_is_refused_11() {
    assert_eq!(image_lookup(2, &NODES, &PORTS[..9], address("1111")), refused(11, [0, 0, 2]));
    assert_eq!(image_lookup(2, &NODES, &PORTS[..9], address("1110")), done([0, 5, 2]));
    // One child fewer before node 3 makes its last leaf number 10, and there are ten ports.
    assert_eq!(lookup(&nodes_with(5, 0), "1111"), refused(11, [0, 0, 2]));
    assert_eq!(lookup(&nodes_with(5, 0), "1110"), done([0, 5, 2]));
}

#[test]
fn a_port_above_4094_is_refused_11_and_0_is_no_route() {
    let mut ports = PORTS;
    for (port, answer) in [
        (4095, refused(11, [0, 0, 1])),
        (u16::MAX, refused(11, [0, 0, 1])),
        (4094, done([0, 4094, 1])),
        (0, done([0, 0, 1])),
    ] {
        ports[0] = port;
        assert_eq!(image_lookup(2, &NODES, &ports, address("01")), answer, "port {port}");
    }
}

#[test]
fn a_non_leaf_at_depth_32_minus_stride_is_refused_11() {
    // Slot 0 of either node is a non-leaf, and that of node 2 leads back to it: 32/s nodes are read, and none is left.
    for (stride, bitmap) in [(1, 1), (2, 7), (4, 0x7FFF)] {
        let nodes = [bitmap, 1, bitmap, 0];
        assert_eq!(image_lookup(stride, &nodes, &[5; 17], 0), refused(11, [0, 0, 32 / stride]));
        // The slot that the address takes decides: the last one here is a leaf.
        assert_eq!(image_lookup(stride, &nodes, &[5; 17], 1), done([0, 5, 32 / stride]));
    }
}
