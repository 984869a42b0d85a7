//! Rules, "UPDATE messages": messages typed as bytes, those of two daemons, random ones against the routes that they
//! leave and against their calls one by one, and the message that withdraws a list.

use crate::support::{announce, apply, done, first_bits_of, full_length_list, list_of, refused, table_of, withdraw};
use crate::support::{Held, Prefix, Random, UNTOUCHED, UNTOUCHED_BYTE};
use reference::{message_write, table_check, table_save};
use workload::messages::{captured, BYTES_LAST};
use workload::Message;

pub const TEN_8: [u8; 2] = [8, 10];
pub const TEN_ONE_16: [u8; 3] = [16, 10, 1];

/// A message of these three parts, which are given as bytes.
pub fn message_with(withdrawn: &[u8], attributes: &[u8], announced: &[u8]) -> Vec<u8> {
    let size = 23 + withdrawn.len() + attributes.len() + announced.len();
    let [withdrawn_length, attribute_length, size] =
        [withdrawn.len(), attributes.len(), size].map(|length| (length as u16).to_be_bytes());
    let head = [&[0xFF; 16][..], &size, &[2]].concat();
    [&head, &withdrawn_length[..], withdrawn, &attribute_length, attributes, announced].concat()
}

/// A table of these routes, with room for so many, and two words more that never belong to it.
fn rows_of(list: &[u32], capacity: usize) -> (Vec<u32>, u32) {
    let (mut rows, n) = table_of(list);
    rows.resize(5 * capacity + 2, UNTOUCHED);
    (rows, n)
}

/// The routes that the table holds, as a list.
fn saved(rows: &[u32], n: u32) -> Vec<u32> {
    let mut list = vec![UNTOUCHED; 3 * n as usize];
    assert_eq!(table_save(rows, n, &mut list), done([0, n]));
    list
}

/// A table of the list, the message with port 9, and the list that is held then. As much room as that takes is enough.
fn assert_leaves(list: &[u32], message: &[u8], expected: &[u32]) {
    let (mut rows, n) = rows_of(list, list.len().max(expected.len()) / 3);
    let after = expected.len() as u32 / 3;
    assert_eq!(apply(message, 9, &mut rows, n), done([0, after]), "{message:02X?}");
    assert_eq!(saved(&rows, after), expected, "{message:02X?}");
    assert_eq!(rows[rows.len() - 2..], [UNTOUCHED; 2]);
}

#[test]
fn a_message_typed_byte_by_byte_is_applied() {
    let marker = [0xFF; 16];
    let rest = [
        &[0x00, 0x24, 0x02][..],
        // Withdrawn: 10.0.0.0/8.
        &[0x00, 0x02, 0x08, 0x0A],
        // Attributes: ORIGIN, IGP.
        &[0x00, 0x04, 0x40, 0x01, 0x01, 0x00],
        // Announced: 10.1.0.0/16 and 10.1.2.0/23.
        &[0x10, 0x0A, 0x01, 0x17, 0x0A, 0x01, 0x02],
    ];
    let message = [&marker[..], &rest.concat()].concat();
    assert_eq!(message.len(), 0x24);
    assert_leaves(&[10 << 24, 8, 7], &message, &[0x0A01_0000, 16, 9, 0x0A01_0200, 23, 9]);
    let (mut rows, n) = rows_of(&[10 << 24, 8, 7], 3);
    assert_eq!(apply(&message, 9, &mut rows, n), done([0, 2]));
    // The row that was freed is used again, for the first announced prefix, which sinks below the longer second one.
    assert_eq!(rows[..5], [0x0A01_0200, 23, 9, 1, 0]);
    assert_eq!(rows[5..10], [0x0A01_0000, 16, 9, 0, 0]);
    assert_eq!(rows[10..], [UNTOUCHED; 7]);
}

#[test]
fn a_message_of_23_bytes_changes_nothing() {
    let end_of_rib = message_with(&[], &[], &[]);
    assert_eq!(end_of_rib.len(), 23);
    for list in [&[][..], &[10 << 24, 8, 7], &full_length_list(4096)] {
        let (mut rows, n) = rows_of(list, list.len() / 3);
        let before = rows.clone();
        assert_eq!(apply(&end_of_rib, 9, &mut rows, n), done([0, n]));
        assert_eq!(rows, before);
    }
    assert_eq!(apply(&end_of_rib, 9, &mut [], 0), done([0, 0]));
}

#[test]
fn attributes_are_passed_over_whatever_they_say() {
    let held = [10 << 24, 8, 7];
    // They would be a prefix of 8 bits, a length above 32, and a message.
    for attributes in [&TEN_8[..], &[33, 0, 0], &message_with(&TEN_8, &[], &[])] {
        assert_leaves(&[], &message_with(&[], attributes, &[]), &[]);
        assert_leaves(&held, &message_with(&[], attributes, &TEN_ONE_16), &[&held[..], &[0x0A01_0000, 16, 9]].concat());
    }
}

#[test]
fn a_prefix_in_both_parts_is_announced_only() {
    // Held: it keeps its row, and gets the port. Withdrawn and announced again, 10.0.0.0/8 would have the last row.
    let list = [8 << 24, 8, 1, 10 << 24, 8, 2, 200 << 24, 8, 3];
    let (rows, n) = rows_of(&list, 3);
    for octet in [8, 10, 200] {
        let mut expected = rows.clone();
        let row = rows.chunks(5).position(|row| row[0] == u32::from(octet) << 24).expect("it is held");
        expected[5 * row + 2] = 9;
        for withdrawn in [&[8, octet][..], &[8, octet, 8, octet]] {
            let mut left = rows.clone();
            assert_eq!(apply(&message_with(withdrawn, &[], &[8, octet]), 9, &mut left, n), done([0, n]));
            assert_eq!(left, expected, "{octet}.0.0.0/8");
        }
    }
    // Not held: it is new.
    assert_leaves(&[], &message_with(&TEN_8, &[], &TEN_8), &[10 << 24, 8, 9]);
}

#[test]
fn a_withdrawn_prefix_that_is_not_held_is_ignored() {
    let held = [10 << 24, 8, 7];
    assert_leaves(&held, &message_with(&TEN_ONE_16, &[], &[]), &held);
    // The value is held, but not at this length; and a prefix of no bits.
    assert_leaves(&held, &message_with(&[9, 10, 0, 0], &[], &[]), &held);
    assert_leaves(&[], &message_with(&TEN_8, &[], &[]), &[]);
    // The second time it is not held any more.
    assert_leaves(&held, &message_with(&[8, 10, 8, 10], &[], &[]), &[]);
}

#[test]
fn the_same_prefix_announced_twice_is_there_once() {
    assert_leaves(&[], &message_with(&[], &[], &[8, 10, 8, 10]), &[10 << 24, 8, 9]);
    assert_leaves(&[], &message_with(&[], &[], &[0; 4073]), &[0, 0, 9]);
}

#[test]
fn spare_bits_are_cleared_before_anything_is_compared() {
    // 10.128.0.0/9, with some of its seven spare bits.
    for spare in [0x80, 0x81, 0xC0, 0xFF] {
        let of_9_bits = [9, 10, spare];
        assert_leaves(&[0x0A80_0000, 9, 7], &message_with(&of_9_bits, &[], &[]), &[]);
        assert_leaves(&[], &message_with(&[], &[], &of_9_bits), &[0x0A80_0000, 9, 9]);
        assert_leaves(&[0x0A80_0000, 9, 7], &message_with(&of_9_bits, &[], &[9, 10, 0x80]), &[0x0A80_0000, 9, 9]);
        assert_leaves(&[], &message_with(&[], &[], &[9, 10, 0x80, 9, 10, spare]), &[0x0A80_0000, 9, 9]);
    }
    // No spare bits of any length are refused.
    for length in 0..=32u8 {
        let bytes = vec![0xFF; usize::from(length).div_ceil(8)];
        let announced = [&[length], &bytes[..]].concat();
        let value = first_bits_of(u32::MAX, length.into());
        assert_leaves(&[], &message_with(&[], &[], &announced), &[value, length.into(), 9]);
    }
}

#[test]
fn withdrawals_come_first_so_that_a_full_table_exchanges_its_routes() {
    // 10.0.0.0/8 for 11.0.0.0/8, at a capacity of 1.
    let message = message_with(&TEN_8, &[], &[8, 11]);
    let (mut rows, n) = rows_of(&[10 << 24, 8, 7], 1);
    assert_eq!(apply(&message, 9, &mut rows, n), done([0, 1]));
    assert_eq!(rows, [11 << 24, 8, 9, 0, 0, UNTOUCHED, UNTOUCHED]);
    // 4,096 routes of 32 bits, of which the last 100 go and 100 others come.
    let of_32_bits = |from: u32| (from..from + 100).flat_map(|value| [&[32][..], &value.to_be_bytes()].concat());
    let withdrawn: Vec<u8> = of_32_bits(3996).collect();
    let announced: Vec<u8> = of_32_bits(5000).collect();
    let list = full_length_list(4096);
    let expected: Vec<u32> = (0..3996).flat_map(|value| [value, 32, 1]).collect();
    let expected = [expected, (5000..5100).flat_map(|value| [value, 32, 9]).collect()].concat();
    assert_leaves(&list, &message_with(&withdrawn, &[], &announced), &expected);
}

#[test]
fn rows_that_are_freed_and_not_used_again_are_zeros() {
    let list = [8 << 24, 8, 1, 9 << 24, 8, 2, 10 << 24, 8, 3, 11 << 24, 8, 4];
    let (mut rows, n) = rows_of(&list, 6);
    let message = message_with(&[8, 8, 8, 9, 8, 10], &[], &[8, 12]);
    assert_eq!(apply(&message, 9, &mut rows, n), done([0, 2]));
    assert_eq!(saved(&rows, 2), [11 << 24, 8, 4, 12 << 24, 8, 9]);
    assert_eq!(rows[10..20], [0; 10]);
    assert_eq!(rows[20..], [UNTOUCHED; 12]);
}

/// The rows and n after the calls of the message one by one: withdrawals of what it does not announce, of which those
/// that are refused 10 change nothing, and then the announcements.
fn one_by_one(message: &Message, port: u32, mut rows: Vec<u32>, mut n: u32) -> (Vec<u32>, u32) {
    let cleared = |prefixes: &[Prefix]| -> Vec<Prefix> {
        prefixes.iter().map(|(value, length)| (first_bits_of(*value, *length), *length)).collect()
    };
    let (withdrawn, announced) = (cleared(&message.withdrawn), cleared(&message.announced));
    for (value, length) in withdrawn.into_iter().filter(|prefix| !announced.contains(prefix)) {
        let answer = withdraw(&mut rows, n, value, length);
        assert!([0, 10].contains(&answer.number), "{answer:?}");
        n = answer.answer[1];
    }
    for (value, length) in announced {
        let answer = announce(&mut rows, n, value, length, port);
        assert_eq!(answer.number, 0, "{answer:?}");
        n = answer.answer[1];
    }
    (rows, n)
}

#[test]
fn random_messages_leave_the_final_set_and_the_rows_of_their_calls_one_by_one_or_nothing() {
    let (mut applied, mut full) = (0, 0);
    for seed in 0..3000 {
        let mut random = Random::new(seed);
        let held = random.held(20);
        let message = Message::any(&mut random, &held, 10);
        let port = random.port();
        let after = message.applied_to(&held, port);
        let capacity = held.len() + random.index(after.len().saturating_sub(held.len()) + 2);
        let (mut rows, n) = rows_of(&list_of(&held), capacity);
        let before = rows.clone();
        let answer = apply(&message.bytes(), port, &mut rows, n);
        if after.len() > capacity {
            assert_eq!(answer, refused(9, [0, n]), "seed {seed}");
            assert_eq!(rows, before, "seed {seed}");
            full += 1;
            continue;
        }
        assert_eq!(answer, done([0, after.len() as u32]), "seed {seed}");
        let n_after = answer.answer[1];
        assert_eq!(table_check(&rows, n_after), done([0]), "seed {seed}");
        assert_eq!(saved(&rows, n_after), list_of(&after), "seed {seed}");
        assert_eq!((rows, n_after), one_by_one(&message, port, before, n), "seed {seed}");
        applied += 1;
    }
    assert!(applied > 500 && full > 500, "both cases are to be met: {applied} applied, {full} full");
}

#[test]
fn the_messages_of_two_daemons_are_applied_in_order() {
    for sent in captured() {
        let (mut rows, mut n) = (vec![UNTOUCHED; 5 * 6], 0);
        for (number, (message, expected)) in sent.messages.iter().enumerate() {
            let answer = apply(message, 9, &mut rows, n);
            assert_eq!(answer, done([0, expected.len() as u32]), "{}, message {number}", sent.daemon);
            n = answer.answer[1];
            let held: Held = expected.iter().map(|prefix| (*prefix, 9)).collect();
            assert_eq!(saved(&rows, n), list_of(&held), "{}, message {number}", sent.daemon);
        }
    }
}

/// The message of a list, with just as many bytes lent and with some more, which stay as they were.
fn written(list: &[u32]) -> Vec<u8> {
    let mut room = vec![UNTOUCHED_BYTE; BYTES_LAST + 30];
    let answer = message_write(list, &mut room);
    assert_eq!((answer.number, answer.answer[0]), (0, 0));
    let size = answer.answer[1] as usize;
    assert!(room[size..].iter().all(|byte| *byte == UNTOUCHED_BYTE));
    let mut exact = vec![UNTOUCHED_BYTE; size];
    assert_eq!(message_write(list, &mut exact), answer);
    assert_eq!(room[..size], exact);
    let mut short = vec![UNTOUCHED_BYTE; size - 1];
    assert_eq!(message_write(list, &mut short), refused(9, [0, 0]));
    assert!(short.iter().all(|byte| *byte == UNTOUCHED_BYTE));
    exact
}

#[test]
fn the_message_that_withdraws_a_list_is_written_byte_by_byte() {
    let list = [0, 0, 1, 10 << 24, 8, 4094, 0x0A01_0200, 23, 7, 0xFFFF_FFFF, 32, 2];
    let marker = [0xFF; 16];
    let rest = [
        &[0x00, 0x23, 0x02][..],
        &[0x00, 0x0C, 0x00, 0x08, 0x0A, 0x17, 0x0A, 0x01, 0x02, 0x20, 0xFF, 0xFF, 0xFF, 0xFF],
        &[0x00, 0x00],
    ];
    assert_eq!(written(&list), [&marker[..], &rest.concat()].concat());
    assert_eq!(written(&[]), message_with(&[], &[], &[]));
}

/// The whole space and so many routes of 24 bits.
pub fn list_of_24_bits(count: u32) -> Vec<u32> {
    let of_24_bits = (1..=count).flat_map(|value| [value << 8, 24, 1]);
    [0, 0, 1].into_iter().chain(of_24_bits).collect()
}

#[test]
fn a_message_of_4096_bytes_is_written_and_one_of_4097_refused_9() {
    let exact = list_of_24_bits(1018);
    let message = written(&exact);
    assert_eq!(message.len(), 4096);
    assert_eq!(message[16..18], [0x10, 0x00]);
    // One byte more: 0.0.0.0/1 in place of the whole space.
    let mut longer = exact;
    longer[1] = 1;
    let mut room = vec![UNTOUCHED_BYTE; 5000];
    assert_eq!(message_write(&longer, &mut room), refused(9, [0, 0]));
    assert!(room.iter().all(|byte| *byte == UNTOUCHED_BYTE));
    assert_eq!(message_write(&full_length_list(4096), &mut vec![0; 30_000]), refused(9, [0, 0]));
}

#[test]
fn a_written_message_withdraws_just_its_list() {
    for seed in 0..300 {
        let mut random = Random::new(seed);
        let held = random.held(60);
        let message = written(&list_of(&held));
        assert_eq!(message, Message::withdrawing(&held).bytes(), "seed {seed}");
        // From a table that holds nothing else, and from one that holds more and not all of it.
        let others = random.held(60);
        let some = held.iter().filter(|_| random.below(3) > 0);
        let mixed: Held = some.chain(&others).map(|(prefix, port)| (*prefix, *port)).collect();
        let expected = mixed.iter().filter(|(prefix, _)| !held.contains_key(prefix));
        let expected: Held = expected.map(|(prefix, port)| (*prefix, *port)).collect();
        for (before, after) in [(&held, &Held::new()), (&mixed, &expected)] {
            let (mut rows, n) = rows_of(&list_of(before), before.len());
            assert_eq!(apply(&message, 9, &mut rows, n), done([0, after.len() as u32]), "seed {seed}");
            assert_eq!(saved(&rows, after.len() as u32), list_of(after), "seed {seed}");
        }
    }
}
