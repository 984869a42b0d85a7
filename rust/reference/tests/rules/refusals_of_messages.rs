//! Rules, "UPDATE messages" and "Numbers on the refusal lamp": what is wrong with a message, each with its number and its
//! place, in the order of the checks; and the refusals of the message that is written.

use crate::messages::{list_of_24_bits, message_with, TEN_8, TEN_ONE_16};
use crate::support::{apply, done, full_length_list, refused, table_of, Random, UNTOUCHED, UNTOUCHED_BYTE};
use reference::message_write;
use workload::messages::captured;
use workload::{damage_rows, Message};

/// A table of 10.0.0.0/8 and 10.1.0.0/16, and room for one route more.
fn table() -> (Vec<u32>, u32) {
    let (mut rows, n) = table_of(&[10 << 24, 8, 7, 0x0A01_0000, 16, 8]);
    rows.resize(15, UNTOUCHED);
    (rows, n)
}

/// Refused with this number and place, n as it was, and nothing written: with a port that is right and one that is
/// wrong, on a table in good order, on one that is not, and on one without room.
fn assert_refused_whatever_else(message: &[u8], number: u32, place: u32) {
    let (rows, n) = table();
    for (rows, n) in [(&rows[..], n), (&rows[..10], n), (&rows, 1), (&rows, u32::MAX), (&[], 0)] {
        for port in [9, 0] {
            let mut after = rows.to_vec();
            let answer = apply(message, port, &mut after, n);
            assert_eq!(answer, refused(number, [place, n]), "{message:02X?}");
            assert_eq!(after, rows, "{message:02X?}");
        }
    }
}

/// A message with some bytes from an offset on made others.
fn with(message: &[u8], at: usize, bytes: &[u8]) -> Vec<u8> {
    let mut changed = message.to_vec();
    changed[at..at + bytes.len()].copy_from_slice(bytes);
    changed
}

/// Withdraws 10.0.0.0/8, has three bytes of attributes, and announces 10.1.0.0/16: the attribute length is at 23, and
/// the announced part begins at 28, of 31 bytes.
fn example() -> Vec<u8> {
    message_with(&TEN_8, &[64, 1, 0], &TEN_ONE_16)
}

#[test]
fn the_example_is_applied() {
    let (mut rows, n) = table();
    assert_eq!(apply(&example(), 9, &mut rows, n), done([0, 1]));
}

#[test]
fn under_23_bytes_are_refused_14_at_0_whatever_they_are() {
    for size in 0..23 {
        assert_refused_whatever_else(&message_with(&[], &[], &[])[..size], 14, 0);
        assert_refused_whatever_else(&vec![0; size], 14, 0);
    }
}

#[test]
fn each_byte_of_the_marker_is_to_be_255() {
    for at in 0..16 {
        for byte in [0, 1, 127, 254] {
            assert_refused_whatever_else(&with(&example(), at, &[byte]), 14, 0);
            // Before the length, the type and what follows.
            assert_refused_whatever_else(&[&with(&example(), at, &[byte])[..16], &[0; 20]].concat(), 14, 0);
        }
    }
}

#[test]
fn a_length_that_is_not_the_bytes_lent_or_outside_23_to_4096_is_refused_14_at_16() {
    for length in [0u16, 22, 23, 30, 32, 31 + 256, 4096, 4097, u16::MAX] {
        assert_refused_whatever_else(&with(&example(), 16, &length.to_be_bytes()), 14, 16);
        // Before the type, and before the inner lengths.
        let bytes = [&length.to_be_bytes()[..], &[0, 255, 255]].concat();
        assert_refused_whatever_else(&with(&example(), 16, &bytes), 14, 16);
    }
    // Below 23 it cannot be the bytes lent. Above 4,096 it can.
    let of = |size| Message::default().padded_to(size).bytes();
    assert_eq!((of(4097).len(), &of(4097)[16..18]), (4097, &[0x10, 0x01][..]));
    for size in [4097, 5000, 65_535] {
        assert_refused_whatever_else(&of(size), 14, 16);
    }
    // 65,536 + 31 bytes, of which the length states the last sixteen bits.
    assert_refused_whatever_else(&[example(), vec![0; 65_536]].concat(), 14, 16);
    for size in [23, 24, 4095, 4096] {
        let (mut rows, n) = table();
        assert_eq!(apply(&of(size), 9, &mut rows, n), done([0, n]), "{size} bytes");
    }
}

#[test]
fn a_type_that_is_not_2_is_refused_14_at_18() {
    for kind in [0, 1, 3, 4, 5, 255] {
        assert_refused_whatever_else(&with(&example(), 18, &[kind]), 14, 18);
        // Before the inner lengths.
        assert_refused_whatever_else(&with(&example(), 18, &[kind, 255, 255]), 14, 18);
    }
}

#[test]
fn a_withdrawn_length_is_to_leave_two_bytes_after_its_part() {
    // 21 + w + 2 may be 31, and no more.
    for withdrawn in [9u16, 10, 11, 12, 2 + 256, u16::MAX] {
        assert_refused_whatever_else(&with(&example(), 19, &withdrawn.to_be_bytes()), 14, 19);
    }
    // 8 bytes withdrawn, of which the second prefix is one of 64 bits; the attribute length is the last two bytes.
    assert_refused_whatever_else(&with(&example(), 19, &[0, 8, 8, 10, 64, 0, 0, 0, 0, 0, 0, 0]), 4, 23);
    // The same with prefixes that are right.
    let whole = with(&example(), 19, &[0, 8, 8, 10, 0, 0, 0, 0, 0, 0, 0, 0]);
    let (mut rows, n) = table();
    assert_eq!(apply(&whole, 9, &mut rows, n), done([0, 1]));
    // In a message of 23 bytes.
    for withdrawn in [1, 2, 255] {
        assert_refused_whatever_else(&with(&message_with(&[], &[], &[]), 20, &[withdrawn]), 14, 19);
    }
}

#[test]
fn an_attribute_length_past_the_end_is_refused_14_at_its_own_offset() {
    // 23 + 2 + a may be 31, and no more.
    for attributes in [7u16, 8, 3 + 256, u16::MAX] {
        assert_refused_whatever_else(&with(&example(), 23, &attributes.to_be_bytes()), 14, 23);
        // Before the prefixes of the withdrawn part.
        let bytes = [&[33, 0][..], &attributes.to_be_bytes()].concat();
        assert_refused_whatever_else(&with(&example(), 21, &bytes), 14, 23);
    }
    assert_refused_whatever_else(&with(&message_with(&[], &[], &[]), 22, &[1]), 14, 21);
    // Six bytes of attributes leave nothing announced.
    let (mut rows, n) = table();
    assert_eq!(apply(&with(&example(), 24, &[6]), 9, &mut rows, n), done([0, 1]));
}

#[test]
fn a_prefix_length_above_32_is_refused_4_at_its_offset() {
    for length in [33, 40, 64, 255] {
        assert_refused_whatever_else(&message_with(&[length, 10], &[], &[]), 4, 21);
        assert_refused_whatever_else(&message_with(&[8, 10, length], &[], &[]), 4, 23);
        assert_refused_whatever_else(&message_with(&TEN_8, &[1, 2, 3], &[length]), 4, 28);
        assert_refused_whatever_else(&message_with(&[], &[], &[16, 10, 1, length, 0, 0, 0, 0]), 4, 26);
    }
}

#[test]
fn a_prefix_that_runs_past_its_part_is_refused_14_at_its_offset() {
    // In the withdrawn part, though the message has bytes enough after it.
    for withdrawn in [&[8][..], &[9, 10], &[32, 10, 1, 2]] {
        assert_refused_whatever_else(&message_with(withdrawn, &[0; 8], &[0; 8]), 14, 21);
    }
    assert_refused_whatever_else(&message_with(&[8, 10, 24, 10, 1], &[0; 8], &TEN_8), 14, 23);
    // In the announced part.
    for announced in [&[8][..], &[9, 10], &[24, 10, 1], &[32, 10, 1, 2]] {
        assert_refused_whatever_else(&message_with(&[], &[], announced), 14, 23);
        assert_refused_whatever_else(&message_with(&TEN_8, &[7], &[&TEN_8, announced].concat()), 14, 28);
    }
}

#[test]
fn prefixes_are_checked_in_message_order_the_withdrawn_ones_first() {
    assert_refused_whatever_else(&message_with(&[33], &[], &[33]), 4, 21);
    assert_refused_whatever_else(&message_with(&[8], &[], &[33]), 14, 21);
    assert_refused_whatever_else(&message_with(&[8, 10, 33], &[], &[8]), 4, 23);
    assert_refused_whatever_else(&message_with(&[], &[], &[33, 8]), 4, 23);
    // The length comes before the cut: 33 bits would run past the part too.
    assert_refused_whatever_else(&message_with(&[33], &[], &[]), 4, 21);
}

#[test]
fn a_wrong_port_is_refused_6_before_11_and_9_also_where_nothing_is_announced() {
    let (rows, n) = table();
    for message in [example(), message_with(&[], &[], &[]), message_with(&TEN_8, &[], &[])] {
        for port in [0, 4095, 65_536 + 9, u32::MAX] {
            for (rows, n) in [(&rows[..], n), (&rows[..10], n), (&rows, 1), (&rows, u32::MAX), (&[], 0)] {
                let mut after = rows.to_vec();
                assert_eq!(apply(&message, port, &mut after, n), refused(6, [0, n]), "port {port}");
                assert_eq!(after, rows);
            }
        }
        for port in [1, 4094] {
            assert_eq!(apply(&message, port, &mut rows.clone(), n).number, 0, "port {port}");
        }
    }
}

#[test]
fn a_table_that_is_not_in_good_order_is_refused_11_before_9_also_by_a_message_that_changes_nothing() {
    let (rows, n) = table();
    // More new prefixes than there is room for, and none.
    for message in [message_with(&[], &[], &[8, 1, 8, 2, 8, 3, 8, 4]), message_with(&[], &[], &[])] {
        for (rows, n) in [(&rows[..], 1), (&rows, 3), (&rows, 4), (&rows, u32::MAX), (&rows[..9], n), (&[], 1)] {
            let mut after = rows.to_vec();
            assert_eq!(apply(&message, 9, &mut after, n), refused(11, [0, n]));
            assert_eq!(after, rows);
        }
    }
}

#[test]
fn more_routes_in_the_end_than_the_capacity_are_refused_9_and_just_as_many_accepted() {
    let (rows, n) = table();
    for (message, after) in [
        // One new prefix, and two.
        (message_with(&[], &[], &[8, 1]), Some(3)),
        (message_with(&[], &[], &[8, 1, 8, 2]), None),
        // Two new ones for a held one, and for one that is not.
        (message_with(&TEN_8, &[], &[8, 1, 8, 2]), Some(3)),
        (message_with(&[8, 9], &[], &[8, 1, 8, 2]), None),
        // The same one again, in either part, is none more.
        (message_with(&[], &[], &[8, 1, 8, 1, 8, 10, 16, 10, 1]), Some(3)),
        (message_with(&[8, 10, 8, 10], &[], &[8, 1, 8, 2, 8, 3]), None),
        // Withdrawn and announced it is not gone.
        (message_with(&TEN_8, &[], &[8, 10, 8, 1, 8, 2]), None),
        (message_with(&TEN_8, &[], &[8, 10, 8, 1]), Some(3)),
        // Three for two.
        (message_with(&[8, 10, 16, 10, 1], &[], &[8, 1, 8, 2, 8, 3]), Some(3)),
        (message_with(&[8, 10, 16, 10, 1], &[], &[8, 1, 8, 2, 8, 3, 8, 4]), None),
    ] {
        let mut left = rows.clone();
        let expected = after.map_or(refused(9, [0, n]), |after| done([0, after]));
        assert_eq!(apply(&message, 9, &mut left, n), expected, "{message:02X?}");
        assert_eq!(left != rows, after.is_some(), "{message:02X?}");
    }
    // Without a row, and with words that are none.
    let one_more = message_with(&[], &[], &[8, 1]);
    for lent in 0..5 {
        assert_eq!(apply(&one_more, 9, &mut vec![UNTOUCHED; lent], 0), refused(9, [0, 0]));
        assert_eq!(apply(&message_with(&[8, 1], &[], &[]), 9, &mut vec![UNTOUCHED; lent], 0), done([0, 0]));
    }
}

#[test]
fn a_full_table_of_4096_routes_is_full_however_many_rows_are_lent() {
    let (mut rows, n) = table_of(&full_length_list(4096));
    rows.extend([UNTOUCHED; 10]);
    let before = rows.clone();
    assert_eq!(apply(&message_with(&[], &[], &[8, 1]), 9, &mut rows, n), refused(9, [0, 4096]));
    assert_eq!(rows, before);
    // One for one, and the port of a held one.
    let exchange = message_with(&[32, 0, 0, 0, 7], &[], &[8, 1]);
    assert_eq!(apply(&exchange, 9, &mut rows, n), done([0, 4096]));
    assert_eq!(apply(&message_with(&[], &[], &[32, 0, 0, 0, 8]), 9, &mut rows, n), done([0, 4096]));
    assert_eq!(rows[5 * 4096..], [UNTOUCHED; 10]);
}

/// A message and its table with something wrong: refused, or done where the damage does no harm; a refusal writes
/// nothing and answers n as it was.
fn apply_damaged(message: &[u8], rows: &[u32], n: u32) -> u32 {
    let mut after = rows.to_vec();
    let answer = apply(message, 9, &mut after, n);
    if answer.number != 0 {
        assert_eq!(answer.answer[1], n, "{message:02X?}");
        assert_eq!(after, rows, "{message:02X?}");
    }
    answer.number
}

#[test]
fn the_messages_of_two_daemons_are_refused_14_at_every_shorter_length() {
    let (rows, n) = table();
    for (message, _) in captured().iter().flat_map(|sent| &sent.messages) {
        for size in 0..message.len() {
            let place = if size < 23 { 0 } else { 16 };
            assert_refused_whatever_else(&message[..size], 14, place);
            // Its length follows: then a part, a prefix or an attribute may be cut.
            let mut cut = message[..size].to_vec();
            if size >= 23 {
                cut[16..18].copy_from_slice(&(size as u16).to_be_bytes());
            }
            assert!([0, 9, 14].contains(&apply_damaged(&cut, &rows, n)), "{cut:02X?}");
        }
    }
}

#[test]
fn the_messages_of_two_daemons_with_a_byte_changed_are_refused_4_9_or_14_or_done() {
    let (rows, n) = table();
    for (message, _) in captured().iter().flat_map(|sent| &sent.messages) {
        for at in 0..message.len() {
            for byte in (0..8).map(|bit| message[at] ^ 1 << bit).chain([0, 1, 32, 33, 255]) {
                let number = apply_damaged(&with(message, at, &[byte]), &rows, n);
                assert!([0, 4, 9, 14].contains(&number), "{byte} at {at} of {message:02X?}");
                // Nothing in the head may be another.
                assert!(at >= 19 || byte == message[at] || number == 14, "{byte} at {at} of {message:02X?}");
            }
        }
    }
}

#[test]
fn damaged_rows_are_refused_11_or_take_the_message_as_any_table() {
    for seed in 0..1000 {
        let mut random = Random::new(seed);
        let held = random.held(12);
        let (mut rows, n) = table_of(&crate::support::list_of(&held));
        damage_rows(&mut rows, &mut random);
        let message = Message::any(&mut random, &held, 4).bytes();
        let good = reference::table_check(&rows, n).number == 0;
        let number = apply_damaged(&message, &rows, n);
        assert!(if good { [0, 9].contains(&number) } else { number == 11 }, "seed {seed}: {number}");
    }
}

#[test]
fn the_message_of_a_list_is_refused_as_the_list_checks_do_before_9() {
    let too_many = full_length_list(4097);
    for (list, number, place) in [
        (&[0][..], 3, 0),
        (&too_many, 8, 0),
        (&[0, 33, 1], 4, 0),
        (&[0, 0, 1, 1, 31, 1], 5, 1),
        // Ports are checked, though not written.
        (&[0, 0, 0], 6, 0),
        (&[0, 0, 1, 0, 8, 4095], 6, 1),
        (&[0, 0, 1, 0, 0, 1], 7, 1),
    ] {
        for lent in [0, 30, 5000] {
            let mut message = vec![UNTOUCHED_BYTE; lent];
            assert_eq!(message_write(list, &mut message), refused(number, [place, 0]));
            assert!(message.iter().all(|byte| *byte == UNTOUCHED_BYTE));
        }
    }
    // In a list too long for a message, the last port.
    let mut long = list_of_24_bits(1019);
    long[3 * 1019 + 2] = 0;
    assert_eq!(message_write(&long, &mut [0; 5000]), refused(6, [1019, 0]));
    long[3 * 1019 + 2] = 1;
    assert_eq!(message_write(&long, &mut [0; 5000]), refused(9, [0, 0]));
}
