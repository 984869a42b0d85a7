//! Rules, "Bench examples": examples 1 to 12, typed from the rules.

use crate::support::{address, done, image_of, list_of_bits, prefix, withdraw, UNTOUCHED};
use reference::{image_lookup, list_runs, table_check, table_lookup};

/// Source document 004, Table I. Row r has port r+1.
fn table_1() -> Vec<u32> {
    let routes = ["100110", "00", "10010", "01", "10011", "11", "1000", "101", "1110", "1111"];
    let children = [(1, 2), (0, 3), (4, 5), (0, 0), (6, 7), (0, 8), (0, 0), (0, 0), (0, 9), (0, 0)];
    rows_of(&routes, &[1, 2, 3, 4, 5, 6, 7, 8, 9, 10], &children)
}

fn rows_of(routes: &[&str], ports: &[u32], children: &[(u32, u32)]) -> Vec<u32> {
    let row = |r: usize| {
        let (value, length) = prefix(routes[r]);
        [value, length, ports[r], children[r].0, children[r].1]
    };
    (0..routes.len()).flat_map(row).collect()
}

fn assert_row_and_rows_read(bits: &str, row: u32, rows_read: u32) {
    let found = table_lookup(&table_1(), 10, address(bits));
    assert_eq!(found, done([0, row + 1, rows_read]), "address {bits}");
}

#[test]
fn table_1_is_in_good_order() {
    assert_eq!(table_check(&table_1(), 10), done([0]));
}

#[test]
fn example_1_100110_is_row_0_with_1_row_read() {
    assert_row_and_rows_read("100110", 0, 1);
}

#[test]
fn example_2_00_is_row_1_with_2_read() {
    assert_row_and_rows_read("00", 1, 2);
}

#[test]
fn example_3_10010_is_row_2_with_2_read() {
    assert_row_and_rows_read("10010", 2, 2);
}

#[test]
fn example_4_1000_is_row_6_with_4_read() {
    assert_row_and_rows_read("1000", 6, 4);
}

#[test]
fn example_5_101_is_row_7_with_4_read() {
    assert_row_and_rows_read("101", 7, 4);
}

#[test]
fn example_6_1101_is_row_5_with_3_read() {
    assert_row_and_rows_read("1101", 5, 3);
}

#[test]
fn example_7_1111_is_row_9_with_5_read() {
    assert_row_and_rows_read("1111", 9, 5);
}

#[test]
fn example_8_withdrawing_100110_refills_from_below() {
    let mut rows = table_1();
    let (value, length) = prefix("100110");
    assert_eq!(withdraw(&mut rows, 10, value, length), done([0, 9]));
    let routes = ["10010", "00", "10011", "01", "1000", "11", "1111", "101", "1110"];
    let ports = [3, 2, 5, 4, 7, 6, 10, 8, 9];
    let children = [(1, 2), (0, 3), (4, 5), (0, 0), (0, 7), (0, 8), (0, 0), (0, 0), (0, 6)];
    let mut expected = rows_of(&routes, &ports, &children);
    expected.extend([0; 5]);
    assert_eq!(rows, expected);
    assert_eq!(table_check(&rows, 9), done([0]));
}

/// The trie of source document 002, Figure 4: ports 1..7 in the order of the rules, which is no list order.
fn figure_4() -> Vec<u32> {
    list_of_bits(&["01", "10", "000", "001", "111", "1100", "1101"])
}

fn nodes_of(bitmaps: &[u32], offsets: &[u32]) -> Vec<u32> {
    (0..bitmaps.len()).flat_map(|node| [bitmaps[node], offsets[node]]).collect()
}

#[test]
fn example_9_figure_4_at_stride_1() {
    let (nodes, ports) = image_of(1, &figure_4());
    assert_eq!(nodes, nodes_of(&[0, 1, 2, 3, 1, 3], &[1, 2, 2, 2, 1, 1]));
    // By node and slot: 01, 10, 000, 001, 111, 1100, 1101, whose ports are 1..7.
    assert_eq!(ports, [1, 2, 3, 4, 5, 6, 7]);
    assert_eq!(image_lookup(1, &nodes, &ports, address("0101")), done([0, 1, 2]));
}

#[test]
fn example_10_figure_4_at_stride_2() {
    let (nodes, ports) = image_of(2, &figure_4());
    assert_eq!(nodes, nodes_of(&[6, 15, 15], &[1, 2, 1]));
    assert_eq!(ports, [1, 2, 3, 3, 4, 4, 6, 7, 5, 5]);
}

#[test]
fn example_11_the_empty_list_at_stride_4() {
    let (nodes, ports) = image_of(4, &[]);
    assert_eq!(nodes, [65535, 1]);
    assert_eq!(ports, [0; 16]);
}

#[test]
fn example_12_two_halves_with_one_port_make_three_runs() {
    let list = [0x0A00_0000, 9, 7, 0x0A80_0000, 9, 7];
    let mut runs = [UNTOUCHED; 15];
    assert_eq!(list_runs(&list, &mut runs), done([0, 3]));
    assert_eq!(runs[..9], [0, 0x09FF_FFFF, 0, 0x0A00_0000, 0x0AFF_FFFF, 7, 0x0B00_0000, 0xFFFF_FFFF, 0]);
    assert_eq!(runs[9..], [UNTOUCHED; 6]);
}
