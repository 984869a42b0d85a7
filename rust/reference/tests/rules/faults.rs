//! Rules, "Faults we have seen on a bench": each named mistake would fail here.

use crate::support::{address, done, list_of_bits, prefix, table_of, withdraw, UNTOUCHED, UNTOUCHED_PORT};
use reference::{image_build, image_lookup, list_runs, table_lookup};

#[test]
fn an_ordinary_match_does_not_end_the_lookup() {
    // At path 11 the route 11 is ordinary and matches 1111, but 1111 below it is longer.
    let (rows, n) =
        table_of(&list_of_bits(&["100110", "00", "10010", "01", "10011", "11", "1000", "101", "1110", "1111"]));
    assert_eq!(table_lookup(&rows, n, address("1111")), done([0, 10, 5]));
}

#[test]
fn a_withdrawn_place_takes_the_longest_from_below_and_not_its_childs_route() {
    let (mut rows, n) = table_of(&list_of_bits(&["", "0", "0110"]));
    let (value, length) = prefix("");
    assert_eq!(withdraw(&mut rows, n, value, length), done([0, 2]));
    let root = prefix("0110");
    assert_eq!(rows[..5], [root.0, root.1, 3, 1, 0]);
    let child = prefix("0");
    assert_eq!(rows[5..10], [child.0, child.1, 2, 0, 0]);
    assert_eq!(rows[10..], [0; 5]);
}

#[test]
fn neighbours_with_one_port_join_in_the_listing() {
    let (left, right) = (prefix("0"), prefix("1"));
    let list = [left.0, left.1, 9, right.0, right.1, 9];
    let mut runs = [UNTOUCHED; 9];
    assert_eq!(list_runs(&list, &mut runs), done([0, 1]));
    assert_eq!(runs, [0, u32::MAX, 9, UNTOUCHED, UNTOUCHED, UNTOUCHED, UNTOUCHED, UNTOUCHED, UNTOUCHED]);
}

#[test]
fn a_route_hidden_by_longer_ones_of_its_own_port_adds_no_run() {
    let (whole, inner) = (prefix(""), prefix("01"));
    let list = [whole.0, whole.1, 9, inner.0, inner.1, 9];
    let mut runs = [UNTOUCHED; 3];
    assert_eq!(list_runs(&list, &mut runs), done([0, 1]));
    assert_eq!(runs, [0, u32::MAX, 9]);
}

/// At stride 2 the root's slots are non-leaf, leaf, leaf, non-leaf (bitmap 0110): before slot 3 stand two ones and one
/// zero, so counting ones, or counting slot j itself, names another node or port.
#[test]
fn a_child_is_found_by_zeros_and_a_leaf_by_ones_before_the_slot() {
    let list = list_of_bits(&["01", "10", "000", "001", "111", "1100", "1101"]);
    let (mut nodes, mut ports) = ([UNTOUCHED; 6], [UNTOUCHED_PORT; 10]);
    assert_eq!(image_build(2, &list, &mut nodes, &mut ports), done([0, 3, 10]));
    assert_eq!(image_lookup(2, &nodes, &ports, address("01")), done([0, 1, 1]));
    assert_eq!(image_lookup(2, &nodes, &ports, address("10")), done([0, 2, 1]));
    assert_eq!(image_lookup(2, &nodes, &ports, address("000")), done([0, 3, 2]));
    assert_eq!(image_lookup(2, &nodes, &ports, address("1100")), done([0, 6, 2]));
    assert_eq!(image_lookup(2, &nodes, &ports, address("1101")), done([0, 7, 2]));
    assert_eq!(image_lookup(2, &nodes, &ports, address("1111")), done([0, 5, 2]));
}
