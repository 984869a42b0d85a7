//! Rules, "Numbers on the refusal lamp" and "Lookup": refusals of the functions that are lent a table.

use crate::support::UNTOUCHED;
use crate::support::{address, announce, done, full_length_list, list_of_bits, prefix, refused, table_of, withdraw};
use reference::{table_check, table_lookup, table_runs, table_save};

/// Routes /0, 0 and 01: three ordinary nodes, one below the other.
fn chain() -> (Vec<u32>, u32) {
    table_of(&list_of_bits(&["", "0", "01"]))
}

/// The chain with one word of one row changed.
fn chain_with(row: usize, word: usize, to: u32) -> Vec<u32> {
    let (mut rows, _) = chain();
    rows[5 * row + word] = to;
    rows
}

const VALUE: usize = 0;
const LENGTH: usize = 1;
const PORT: usize = 2;
const LEFT: usize = 3;
const RIGHT: usize = 4;

/// Rows and n that are not in good order.
fn disordered() -> Vec<(Vec<u32>, u32)> {
    let (rows, n) = chain();
    vec![
        (rows.clone(), n + 1),
        (rows.clone(), u32::MAX),
        (rows[..14].to_vec(), n),
        // Row 2 is not reached, is not below n, is reached twice, and reaches its own parent.
        (chain_with(1, RIGHT, 0), 3),
        (rows, 2),
        (chain_with(0, RIGHT, 2), 3),
        (chain_with(2, RIGHT, 1), 3),
        (chain_with(0, LEFT, u32::MAX), 3),
        (chain_with(2, LENGTH, 33), 3),
        (chain_with(2, VALUE, 1), 3),
        (chain_with(2, PORT, 0), 3),
        (chain_with(2, PORT, 4095), 3),
        // A valid route at a wrong place: 11 below 0; 0 twice; 1 where 0 is to be.
        (chain_with(2, VALUE, address("11")), 3),
        (table_rows(&[("", 1, 0), ("0", 2, 0), ("0", 0, 0)]), 3),
        (table_rows(&[("", 1, 0), ("1", 0, 0)]), 2),
        // At a priority node: a shorter route over a longer one; a greater value over a smaller one.
        (table_rows(&[("0", 1, 0), ("01", 0, 0)]), 2),
        (table_rows(&[("01", 1, 0), ("00", 0, 0)]), 2),
        // The root holds a longer route although /0 is held.
        (table_rows(&[("01", 1, 0), ("", 0, 0)]), 2),
    ]
}

fn table_rows(rows: &[(&str, u32, u32)]) -> Vec<u32> {
    let words = |(bits, left, right): &(&str, u32, u32)| [prefix(bits).0, prefix(bits).1, 1, *left, *right];
    rows.iter().flat_map(words).collect()
}

#[test]
fn a_built_table_is_in_good_order() {
    let (rows, n) = chain();
    assert_eq!(table_check(&rows, n), done([0]));
}

#[test]
fn the_empty_table_is_in_good_order_on_any_rows() {
    assert_eq!(table_check(&[], 0), done([0]));
    assert_eq!(table_check(&[UNTOUCHED; 7], 0), done([0]));
}

#[test]
fn capacity_is_4096_however_many_rows_are_lent() {
    let rows = vec![0; 5 * 5000];
    assert_eq!(table_check(&rows, 4097), refused(11, [0]));
    assert_eq!(table_lookup(&rows, 4097, 0), refused(11, [0, 0, 0]));
}

#[test]
fn table_check_refuses_11() {
    for (rows, n) in disordered() {
        assert_eq!(table_check(&rows, n), refused(11, [0]), "{rows:?}");
    }
}

#[test]
fn a_child_below_depth_32_is_not_in_good_order() {
    // Thirty-three ordinary nodes down to the address 0, whose row then names one more.
    let list: Vec<u32> = (0..=32).flat_map(|length| [0, length, 1]).collect();
    let (mut rows, n) = table_of(&list);
    assert_eq!(table_lookup(&rows, n, 0), done([0, 1, 33]));
    rows[5 * 32 + LEFT] = 1;
    assert_eq!(table_check(&rows, n), refused(11, [0]));
    assert_eq!(table_lookup(&rows, n, 0), done([0, 1, 33]));
}

#[test]
fn table_save_refuses_11_then_9() {
    for (rows, n) in disordered() {
        for lent in [0, 9] {
            let mut list = vec![UNTOUCHED; lent];
            assert_eq!(table_save(&rows, n, &mut list), refused(11, [0, 0]), "{rows:?}");
            assert!(list.iter().all(|word| *word == UNTOUCHED));
        }
    }
    let (rows, n) = chain();
    let mut list = [UNTOUCHED; 8];
    assert_eq!(table_save(&rows, n, &mut list), refused(9, [0, 0]));
    assert_eq!(list, [UNTOUCHED; 8]);
    assert_eq!(table_save(&rows, n, &mut [0; 9]), done([0, 3]));
}

#[test]
fn table_runs_refuses_11_then_9() {
    for (rows, n) in disordered() {
        for lent in [0, 30] {
            let mut runs = vec![UNTOUCHED; lent];
            assert_eq!(table_runs(&rows, n, &mut runs), refused(11, [0, 0]), "{rows:?}");
            assert!(runs.iter().all(|word| *word == UNTOUCHED));
        }
    }
    let (rows, n) = chain();
    let mut runs = [UNTOUCHED; 8];
    assert_eq!(table_runs(&rows, n, &mut runs), refused(9, [0, 0]));
    assert_eq!(runs, [UNTOUCHED; 8]);
    assert_eq!(table_runs(&rows, n, &mut [0; 9]), done([0, 3]));
}

fn assert_announce_refused(rows: &[u32], n: u32, (value, length, port): (u32, u32, u32), number: u32) {
    let mut after = rows.to_vec();
    assert_eq!(announce(&mut after, n, value, length, port), refused(number, [0, n]));
    assert_eq!(after, rows, "a refusal writes nothing");
}

fn assert_withdraw_refused(rows: &[u32], n: u32, (value, length): (u32, u32), number: u32) {
    let mut after = rows.to_vec();
    assert_eq!(withdraw(&mut after, n, value, length), refused(number, [0, n]));
    assert_eq!(after, rows, "a refusal writes nothing");
}

#[test]
fn announce_refuses_4_5_6_before_11() {
    for (rows, n) in disordered().into_iter().chain([chain()]) {
        assert_announce_refused(&rows, n, (1, 33, 0), 4);
        assert_announce_refused(&rows, n, (1, 31, 0), 5);
        assert_announce_refused(&rows, n, (1, 32, 0), 6);
        assert_announce_refused(&rows, n, (1, 32, 4095), 6);
    }
}

#[test]
fn announce_refuses_11_and_keeps_n() {
    for (rows, n) in disordered() {
        assert_announce_refused(&rows, n, (1, 32, 1), 11);
    }
}

#[test]
fn announcing_a_new_prefix_at_full_capacity_is_refused_9() {
    let (rows, n) = chain();
    assert_announce_refused(&rows, n, (1, 32, 1), 9);
    assert_announce_refused(&[], 0, (1, 32, 1), 9);
    assert_announce_refused(&[UNTOUCHED; 4], 0, (1, 32, 1), 9);
    // Four words past the rows make no row more.
    assert_announce_refused(&[rows, vec![0; 4]].concat(), n, (1, 32, 1), 9);
}

#[test]
fn announcing_a_held_prefix_at_full_capacity_gets_the_new_port() {
    let (mut rows, n) = chain();
    let (value, length) = prefix("01");
    assert_eq!(announce(&mut rows, n, value, length, 4094), done([0, n]));
    assert_eq!(rows, chain_with(2, PORT, 4094));
}

#[test]
fn the_4097th_prefix_is_refused_9_however_many_rows_are_lent() {
    let (mut rows, n) = table_of(&full_length_list(4096));
    rows.extend([UNTOUCHED; 10]);
    assert_announce_refused(&rows, n, (4096, 32, 1), 9);
    assert_eq!(announce(&mut rows, n, 4095, 32, 2), done([0, 4096]));
    assert_eq!(withdraw(&mut rows, n, 0, 32), done([0, 4095]));
    assert_eq!(rows[5 * 4095..5 * 4096], [0; 5]);
    assert_eq!(rows[5 * 4096..], [UNTOUCHED; 10]);
}

#[test]
fn withdraw_refuses_4_5_before_11_before_10() {
    for (rows, n) in disordered().into_iter().chain([chain()]) {
        assert_withdraw_refused(&rows, n, (1, 33), 4);
        assert_withdraw_refused(&rows, n, (1, 31), 5);
    }
    for (rows, n) in disordered() {
        assert_withdraw_refused(&rows, n, (1, 32), 11);
    }
    let (rows, n) = chain();
    assert_withdraw_refused(&rows, n, (1, 32), 10);
    // The value is held, but not at this length.
    assert_withdraw_refused(&rows, n, (0, 2), 10);
    assert_withdraw_refused(&[], 0, (0, 0), 10);
}

#[test]
fn looking_up_in_the_empty_table_reads_nothing() {
    assert_eq!(table_lookup(&[], 0, 0), done([0, 0, 0]));
    assert_eq!(table_lookup(&[UNTOUCHED; 20], 0, 0), done([0, 0, 0]));
}

#[test]
fn lookup_with_n_above_the_capacity_is_refused_11_with_no_row_read() {
    let (rows, n) = chain();
    assert_eq!(table_lookup(&rows, n + 1, 0), refused(11, [0, 0, 0]));
    assert_eq!(table_lookup(&rows[..14], n, 0), refused(11, [0, 0, 0]));
    assert_eq!(table_lookup(&rows, u32::MAX, 0), refused(11, [0, 0, 0]));
}

#[test]
fn a_wrong_row_is_refused_11_and_counts_as_read() {
    let at_01 = address("01");
    let wrong = [
        // Either child n or more, also the one that is not taken.
        (LEFT, 3),
        (RIGHT, 3),
        (RIGHT, u32::MAX),
        (LENGTH, 33),
        // A length below the depth; row 2 has depth 2.
        (LENGTH, 1),
        (VALUE, at_01 + 1),
        (PORT, 0),
        (PORT, 4095),
        (PORT, u32::MAX),
        // A prefix that differs from the address in the first 2 bits.
        (VALUE, address("11")),
    ];
    for (word, to) in wrong {
        assert_eq!(table_lookup(&chain_with(2, word, to), 3, at_01), refused(11, [0, 0, 3]), "word {word} to {to}");
        // The row is not on the way of this address.
        assert_eq!(table_lookup(&chain_with(2, word, to), 3, address("1")), done([0, 1, 1]), "word {word} to {to}");
    }
    assert_eq!(table_lookup(&chain_with(0, PORT, 0), 3, at_01), refused(11, [0, 0, 1]));
}

#[test]
fn lookup_answers_on_rows_that_are_not_in_good_order() {
    // A shorter route over a longer one: the search ends at the matching priority node all the same.
    let rows = table_rows(&[("0", 1, 0), ("01", 0, 0)]);
    assert_eq!(table_check(&rows, 2), refused(11, [0]));
    assert_eq!(table_lookup(&rows, 2, address("01")), done([0, 1, 1]));
    // Row 1 is its own left child: depth 2 is more than its length.
    let rows = table_rows(&[("", 1, 0), ("0", 1, 0)]);
    assert_eq!(table_lookup(&rows, 2, 0), refused(11, [0, 0, 3]));
}
