//! Rules, "Addresses per port" and "Numbers on the refusal lamp": what is wrong with counts, and where their two
//! refusals stand among the others.

use crate::messages::{message_with, TEN_8, TEN_ONE_16};
use crate::support::{counts_of, done, refused, table_of, COUNTS, UNTOUCHED, UNTOUCHED_COUNT};
use reference::{counted_announce, counted_message, counted_withdraw, counts_make, Answer};

type Update = fn(&mut [u32], u32, &mut [u64]) -> Answer<2>;

/// A full table of 10.0.0.0/8 to port 7 and 10.1.0.0/16 to port 8.
fn table() -> (Vec<u32>, u32) {
    table_of(&[0x0A00_0000, 8, 7, 0x0A01_0000, 16, 8])
}

/// The table, and rows or an n that are not in good order.
fn tables() -> Vec<(Vec<u32>, u32)> {
    let (rows, n) = table();
    let mut no_port = rows.clone();
    no_port[2] = 0;
    vec![(rows.clone(), n), (rows.clone(), 1), (rows.clone(), u32::MAX), (rows[..9].to_vec(), n), (no_port, n)]
}

/// Done on the table with its counts.
const DONE: [Update; 5] = [
    |rows, n, counts| counted_announce(rows, n, 0x0A00_0000, 8, 9, counts),
    // The same port again changes nothing, and neither does a message with nothing in it.
    |rows, n, counts| counted_announce(rows, n, 0x0A00_0000, 8, 7, counts),
    |rows, n, counts| counted_message(&message_with(&[], &[], &[]), 9, rows, n, counts),
    |rows, n, counts| counted_withdraw(rows, n, 0x0A00_0000, 8, counts),
    |rows, n, counts| counted_message(&message_with(&TEN_8, &[], &TEN_ONE_16), 9, rows, n, counts),
];

/// Refused for the arguments or the message, with this number and place, whatever the table.
const OF_ARGUMENTS: [(Update, (u32, u32)); 10] = [
    (|rows, n, counts| counted_announce(rows, n, 1, 33, 0, counts), (4, 0)),
    (|rows, n, counts| counted_announce(rows, n, 1, 31, 0, counts), (5, 0)),
    (|rows, n, counts| counted_announce(rows, n, 1, 32, 4095, counts), (6, 0)),
    (|rows, n, counts| counted_withdraw(rows, n, 1, 33, counts), (4, 0)),
    (|rows, n, counts| counted_withdraw(rows, n, 1, 31, counts), (5, 0)),
    (|rows, n, counts| counted_message(&[], 9, rows, n, counts), (14, 0)),
    (|rows, n, counts| counted_message(&[255; 23], 9, rows, n, counts), (14, 16)),
    (|rows, n, counts| counted_message(&message_with(&TEN_8, &[], &[33]), 0, rows, n, counts), (4, 25)),
    (|rows, n, counts| counted_message(&message_with(&[8], &[], &[33]), 0, rows, n, counts), (14, 21)),
    (|rows, n, counts| counted_message(&message_with(&[], &[], &[]), 0, rows, n, counts), (6, 0)),
];

/// Refused on the table with its counts: it is full, or does not hold the prefix.
const OF_THE_TABLE: [(Update, u32); 3] = [
    (|rows, n, counts| counted_announce(rows, n, 1, 32, 9, counts), 9),
    (|rows, n, counts| counted_withdraw(rows, n, 1, 32, counts), 10),
    (|rows, n, counts| counted_message(&message_with(&[], &[], &[8, 1]), 9, rows, n, counts), 9),
];

/// Every update above.
fn all() -> Vec<Update> {
    let of_arguments = OF_ARGUMENTS.iter().map(|(update, _)| *update);
    let of_the_table = OF_THE_TABLE.iter().map(|(update, _)| *update);
    DONE.into_iter().chain(of_arguments).chain(of_the_table).collect()
}

/// With n as it was, and neither a row nor a count written.
fn assert_refused(update: Update, (rows, n): (&[u32], u32), counts: &[u64], (number, place): (u32, u32)) {
    let (mut rows_left, mut counts_left) = (rows.to_vec(), counts.to_vec());
    assert_eq!(update(&mut rows_left, n, &mut counts_left), refused(number, [place, n]));
    assert!(rows_left == rows && counts_left == counts, "a refusal writes nothing");
}

/// Counts that are not the table's: one count off by one, or in a high bit, an address that has moved from one port to
/// another, two exchanged, those of no route, those of one route less, and none.
fn wrong_counts() -> Vec<Vec<u64>> {
    let (rows, n) = table();
    let right = counts_of(&rows, n);
    let with = |change: &dyn Fn(&mut [u64])| {
        let mut counts = right.clone();
        change(&mut counts);
        counts
    };
    let mut wrong: Vec<Vec<u64>> = Vec::new();
    for port in [0, 1, 7, 8, 9, 2047, 4093, 4094] {
        wrong.push(with(&|counts| counts[port] = counts[port].wrapping_add(1)));
        wrong.push(with(&|counts| counts[port] = counts[port].wrapping_sub(1)));
        wrong.push(with(&|counts| counts[port] ^= 1 << 32));
        wrong.push(with(&|counts| counts[port] ^= 1 << 63));
    }
    wrong.push(with(&|counts| {
        counts[0] -= 1;
        counts[4094] += 1;
    }));
    wrong.push(with(&|counts| counts.swap(7, 8)));
    wrong.push(counts_of(&[], 0));
    wrong.push(counts_of(&[0x0A00_0000, 8, 7, 0, 0], 1));
    wrong.push(vec![0; COUNTS]);
    wrong.push(vec![UNTOUCHED_COUNT; COUNTS]);
    wrong
}

#[test]
fn every_update_does_what_it_is_here_for() {
    let (rows, n) = table();
    for update in DONE {
        assert_eq!(update(&mut rows.clone(), n, &mut counts_of(&rows, n)).number, 0);
    }
    for (update, number) in OF_THE_TABLE {
        assert_refused(update, (&rows, n), &counts_of(&rows, n), (number, 0));
    }
    for (update, refusal) in OF_ARGUMENTS {
        assert_refused(update, (&rows, n), &counts_of(&rows, n), refusal);
    }
}

#[test]
fn fewer_than_4095_counts_are_refused_9_before_everything_else() {
    for (rows, n) in tables() {
        let counts = counts_of(&rows, n);
        for room in [0, 1, 4093, 4094] {
            for update in all() {
                assert_refused(update, (&rows, n), &counts[..room], (9, 0));
            }
            let mut left = counts[..room].to_vec();
            assert_eq!(counts_make(&rows, n, &mut left), refused(9, [0]));
            assert!(left == counts[..room]);
        }
    }
}

#[test]
fn counts_are_made_of_a_table_in_good_order_alone() {
    for (number, (rows, n)) in tables().into_iter().enumerate() {
        let mut counts = vec![UNTOUCHED_COUNT; COUNTS + 1];
        let expected = if number == 0 { done([0]) } else { refused(11, [0]) };
        assert_eq!(counts_make(&rows, n, &mut counts), expected);
        let written = counts.iter().filter(|count| **count != UNTOUCHED_COUNT).count();
        assert_eq!(written, if number == 0 { COUNTS } else { 0 });
    }
}

#[test]
fn arguments_are_refused_before_counts_that_are_not_the_tables() {
    for (rows, n) in tables() {
        for counts in wrong_counts() {
            for (update, refusal) in OF_ARGUMENTS {
                assert_refused(update, (&rows, n), &counts, refusal);
            }
        }
    }
}

#[test]
fn counts_that_are_not_the_tables_are_refused_11_before_9_and_10() {
    let (rows, n) = table();
    for counts in wrong_counts() {
        for update in DONE.into_iter().chain(OF_THE_TABLE.map(|(update, _)| update)) {
            assert_refused(update, (&rows, n), &counts, (11, 0));
        }
    }
}

#[test]
fn any_one_count_that_is_off_by_one_is_refused_11() {
    let (rows, n) = table();
    let mut counts = counts_of(&rows, n);
    for port in 0..COUNTS {
        for update in DONE {
            counts[port] = counts[port].wrapping_add(1);
            assert_refused(update, (&rows, n), &counts, (11, 0));
            counts[port] = counts[port].wrapping_sub(1);
        }
    }
}

#[test]
fn a_table_that_is_not_in_good_order_is_refused_11_with_any_counts() {
    let (right_rows, right_n) = table();
    for (rows, n) in tables().into_iter().skip(1) {
        for counts in [counts_of(&right_rows, right_n), counts_of(&[], 0), vec![0; COUNTS]] {
            for update in DONE.into_iter().chain(OF_THE_TABLE.map(|(update, _)| update)) {
                assert_refused(update, (&rows, n), &counts, (11, 0));
            }
        }
    }
}

#[test]
fn what_stands_past_the_4095_counts_is_neither_read_nor_written() {
    let (rows, n) = table();
    let right = &counts_of(&rows, n)[..COUNTS];
    for past in [&[][..], &[0], &[1, u64::MAX], &[UNTOUCHED_COUNT; 1000], right] {
        for update in DONE {
            let (mut exact, mut longer) = (right.to_vec(), [right, past].concat());
            let expected = update(&mut rows.clone(), n, &mut exact);
            assert_eq!((expected.number, update(&mut rows.clone(), n, &mut longer)), (0, expected));
            assert!(longer == [&exact, past].concat());
        }
    }
}

#[test]
fn a_table_of_no_row_takes_its_counts_as_any_other() {
    let counts = counts_of(&[], 0);
    let announce: Update = |rows, n, counts| counted_announce(rows, n, 0, 0, 1, counts);
    let withdraw: Update = |rows, n, counts| counted_withdraw(rows, n, 0, 0, counts);
    for rows in [&[][..], &[UNTOUCHED; 4]] {
        assert_refused(announce, (rows, 0), &counts, (9, 0));
        assert_refused(withdraw, (rows, 0), &counts, (10, 0));
        assert_refused(announce, (rows, 0), &[0; COUNTS], (11, 0));
        assert_refused(withdraw, (rows, 0), &[0; COUNTS], (11, 0));
    }
}
