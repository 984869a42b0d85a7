//! Applying UPDATE messages to tables, and writing the message that withdraws a list.

use compare::{on_seeds, scenarios, Checker, Compared};
use reference::Answer;
use std::collections::BTreeSet;
use workload::messages::{captured, noise_message, Sent, BYTES_FIRST, BYTES_LAST};
use workload::{damage_rows, full_length_list, list_of, Held, Kind, Message, Prefix, Random};

/// A word that no table has.
const ANY_WORD: u32 = 0xDEAD_BEEF;

const TEN_8: Prefix = (10 << 24, 8);
const TEN_ONE_16: Prefix = (0x0A01_0000, 16);

/// So many prefixes of 8 bits that no table here holds.
fn new_ones(count: u32) -> Vec<Prefix> {
    (0..count).map(|number| ((100 + number) << 24, 8)).collect()
}

/// The rows of a set, with room for so many routes; those past the table, and three words more, hold anything.
fn rows_of(checker: &mut Checker, held: &Held, capacity: usize) -> Compared<(Vec<u32>, u32)> {
    let (built, mut rows) = checker.table_build(&list_of(held), 5 * held.len())?;
    rows.resize(5 * capacity + 3, ANY_WORD);
    Ok((rows, built.answer[1]))
}

/// Applies a message to a table with its counts. They are then those of the table that is left, and as they were on a
/// refusal.
fn apply(checker: &mut Checker, message: &[u8], port: u32, rows: &mut [u32], n: u32) -> Compared<Answer<2>> {
    let before = checker.counts_of(rows, n)?;
    let mut counts = before.clone();
    let answer = checker.counted_message(message, port, rows, n, &mut counts)?;
    if answer.number == 0 {
        checker.counts_kept(rows, answer.answer[1], &counts)?;
    } else {
        assert!(counts == before, "refused {answer:?}, {message:02X?}");
    }
    Ok(answer)
}

/// Refused with this number and place: n is as it was, and so is every word of the rows.
fn assert_refused(
    checker: &mut Checker,
    (message, port): (&[u8], u32),
    (rows, n): (&[u32], u32),
    refusal: (u32, u32),
) -> Compared<()> {
    let mut left = rows.to_vec();
    let answer = apply(checker, message, port, &mut left, n)?;
    assert_eq!((answer.number, answer.answer), (refusal.0, [refusal.1, n]), "port {port}, n {n}, {message:02X?}");
    assert_eq!(left, rows, "port {port}, n {n}, {message:02X?}");
    Ok(())
}

/// Done, and these routes are held then.
fn assert_done(
    checker: &mut Checker,
    (message, port): (&[u8], u32),
    (rows, n): (&[u32], u32),
    expected: &Held,
) -> Compared<()> {
    let mut left = rows.to_vec();
    let answer = apply(checker, message, port, &mut left, n)?;
    assert_eq!((answer.number, answer.answer), (0, [0, expected.len() as u32]), "port {port}, {message:02X?}");
    checker.table_holds(&left, answer.answer[1], expected)
}

#[test]
fn small_messages_are_applied_alike() {
    on_seeds(6000, |checker, random| scenarios::valid_messages(checker, random, 12));
    on_seeds(300, |checker, random| scenarios::valid_messages(checker, random, 200));
}

#[test]
fn messages_for_tables_of_4096_routes_are_applied_alike() {
    on_seeds(12, |checker, random| scenarios::valid_messages(checker, random, 4096));
}

#[test]
fn damaged_messages_are_treated_alike() {
    on_seeds(8000, |checker, random| scenarios::damaged_messages(checker, random, 12));
    on_seeds(6, |checker, random| scenarios::damaged_messages(checker, random, 4096));
}

#[test]
fn noise_is_treated_alike() {
    on_seeds(8000, |checker, random| scenarios::noise_messages(checker, random, 12));
    on_seeds(200, |checker, random| {
        let message = noise_message(random, BYTES_LAST + 30 - BYTES_FIRST);
        apply(checker, &message, 1, &mut [ANY_WORD; 5 * 300], 0)?;
        Ok(())
    });
}

#[test]
fn histories_of_messages_and_updates_agree() {
    on_seeds(600, |checker, random| {
        let capacity = 1 + random.index(6);
        scenarios::message_history(checker, random, capacity, 30)
    });
    on_seeds(20, |checker, random| scenarios::message_history(checker, random, 80, 100));
    on_seeds(2, |checker, random| scenarios::message_history(checker, random, 4096, 30));
}

/// A message with something of every kind, the table for it, and room for just what is held then.
fn example(checker: &mut Checker) -> Compared<(Message, Vec<u32>, u32)> {
    let held = Held::from([((0, 0), 1), (TEN_8, 7), (TEN_ONE_16, 8), ((0xC0A8_0500, 27), 9)]);
    let message = Message {
        // Held, not held, again with spare bits, in both parts.
        withdrawn: vec![TEN_ONE_16, (0x0B00_0000, 8), (0xC0A8_051F, 27), (0xC0A8_0500, 27), (0, 0)],
        attributes: vec![64, 1, 1, 0, 33, 32, 8],
        // In both parts, new, again with spare bits, held.
        announced: vec![(0, 0), (0x0A80_0000, 9), (0x0AFF_0000, 9), TEN_8, (0x0A01_0203, 32)],
    };
    let (rows, n) = rows_of(checker, &held, 4)?;
    assert_eq!(message.applied_to(&held, 9).len(), 4);
    Ok((message, rows, n))
}

#[test]
fn a_message_is_refused_alike_at_every_shorter_and_longer_length() {
    on_seeds(1, |checker, _| {
        let (message, rows, n) = example(checker)?;
        let message = message.bytes();
        for size in 0..message.len() {
            let place = if size < BYTES_FIRST { 0 } else { 16 };
            assert_refused(checker, (&message[..size], 9), (&rows, n), (14, place))?;
            // With the length that it has now.
            let mut cut = message[..size].to_vec();
            if size >= BYTES_FIRST {
                cut[16..18].copy_from_slice(&(size as u16).to_be_bytes());
            }
            apply(checker, &cut, 9, &mut rows.clone(), n)?;
        }
        for more in 1..6 {
            assert_refused(checker, (&[&message[..], &vec![0; more]].concat(), 9), (&rows, n), (14, 16))?;
        }
        Ok(())
    });
}

/// Applies the message with each bit of each byte flipped, and with each byte made one of some others.
fn apply_with_every_byte_changed(checker: &mut Checker, message: &[u8], rows: &[u32], n: u32) -> Compared<()> {
    for at in 0..message.len() {
        let bits = (0..8).map(|bit| message[at] ^ 1 << bit);
        let others = [0, 1, 2, 8, 32, 33, 127, 254, 255, message[at].wrapping_add(1), message[at].wrapping_sub(1)];
        for byte in bits.chain(others) {
            let mut changed = message.to_vec();
            changed[at] = byte;
            let mut left = rows.to_vec();
            let answer = apply(checker, &changed, 9, &mut left, n)?;
            let kept = left == rows && answer.answer[1] == n;
            assert!(answer.number == 0 || kept, "{byte} at {at} of {message:02X?}");
            assert!(at > 18 || byte == message[at] || answer.number == 14, "{byte} at {at} of {message:02X?}");
        }
    }
    Ok(())
}

#[test]
fn a_message_with_a_byte_changed_is_treated_alike() {
    on_seeds(1, |checker, _| {
        let (message, rows, n) = example(checker)?;
        apply_with_every_byte_changed(checker, &message.bytes(), &rows, n)
    });
    on_seeds(20, |checker, random| {
        let held = random.held(12);
        let message = Message::any(random, &held, 6).bytes();
        let (rows, n) = rows_of(checker, &held, held.len() + 2)?;
        apply_with_every_byte_changed(checker, &message, &rows, n)
    });
}

#[test]
fn lengths_that_are_one_off_are_refused_at_their_own_offset_or_move_a_part() {
    on_seeds(1, |checker, _| {
        let (message, rows, n) = example(checker)?;
        let bytes = message.bytes();
        let with = |at: usize, length: usize| {
            let mut changed = bytes.clone();
            changed[at..at + 2].copy_from_slice(&(length as u16).to_be_bytes());
            changed
        };
        for length in [bytes.len() - 1, bytes.len() + 1, 0, 22, 23, 4096, 4097, 65_535] {
            assert_refused(checker, (&with(16, length), 9), (&rows, n), (14, 16))?;
        }
        // The withdrawn part has 16 bytes, and 37 would leave two.
        let withdrawn_end = 37;
        assert_eq!((bytes.len(), &bytes[withdrawn_end..withdrawn_end + 2]), (60, &[0, 7][..]));
        for length in [38, 39, 256 + 16, 65_535] {
            assert_refused(checker, (&with(19, length), 9), (&rows, n), (14, 19))?;
        }
        // One byte less: with the last withdrawn prefix, of no bits, the attribute length is 0, and the announced part
        // begins with 7, 64, 1, 1, 0, 33. One byte more: 0 is a prefix, and the attribute length 7 * 256 + 64.
        assert_refused(checker, (&with(19, 15), 9), (&rows, n), (4, 43))?;
        assert_refused(checker, (&with(19, 17), 9), (&rows, n), (14, 38))?;
        // There are 7 bytes of attributes, and 21 would leave nothing announced.
        for length in [22, 23, 256 + 7, 65_535] {
            assert_refused(checker, (&with(withdrawn_end, length), 9), (&rows, n), (14, withdrawn_end as u32))?;
        }
        // The announced part begins with the last attribute, which is 8; is without its first prefix; is empty.
        for length in [6, 8, 21] {
            apply(checker, &with(withdrawn_end, length), 9, &mut rows.clone(), n)?;
        }
        Ok(())
    });
}

#[test]
fn messages_of_4096_bytes_are_applied_and_of_4097_refused() {
    on_seeds(1, |checker, _| {
        let held = Held::from([(TEN_8, 7)]);
        let (rows, n) = rows_of(checker, &held, 1019)?;
        let announcing = Message { announced: vec![TEN_ONE_16], ..Message::default() };
        let withdrawing = Message { withdrawn: vec![TEN_8], ..Message::default() };
        for message in [Message::default(), announcing, withdrawing] {
            for size in [4095, 4096] {
                let message = message.clone().padded_to(size);
                assert_eq!(message.bytes().len(), size);
                assert_done(checker, (&message.bytes(), 9), (&rows, n), &message.applied_to(&held, 9))?;
            }
            for size in [4097, 5000, 65_535] {
                assert_refused(checker, (&message.clone().padded_to(size).bytes(), 9), (&rows, n), (14, 16))?;
            }
        }
        // As many prefixes of 24 bits as there can be, and the whole space: 4,096 bytes, announced and withdrawn.
        let of_24_bits: Vec<Prefix> = [(0, 0)].into_iter().chain((1..=1018).map(|value| (value << 8, 24))).collect();
        let announcing = Message { announced: of_24_bits.clone(), ..Message::default() };
        assert_eq!(announcing.bytes().len(), 4096);
        let mut rows = vec![ANY_WORD; 5 * 1019];
        let answer = apply(checker, &announcing.bytes(), 9, &mut rows, 0)?;
        assert_eq!((answer.number, answer.answer), (0, [0, 1019]));
        let withdrawing = Message { withdrawn: of_24_bits, ..Message::default() };
        let answer = apply(checker, &withdrawing.bytes(), 9, &mut rows, 1019)?;
        assert_eq!((answer.number, answer.answer, rows), (0, [0, 0], vec![0; 5 * 1019]));
        // As many prefixes as there can be: the whole space, again and again.
        let again = Message { announced: vec![(0, 0); 4073], ..Message::default() };
        assert_eq!(again.bytes().len(), 4096);
        let mut row = vec![ANY_WORD; 5];
        let answer = apply(checker, &again.bytes(), 9, &mut row, 0)?;
        assert_eq!((answer.number, answer.answer, row), (0, [0, 1], vec![0, 0, 9, 0, 0]));
        Ok(())
    });
}

#[test]
fn as_many_different_prefixes_as_a_message_can_have_are_applied_alike() {
    on_seeds(1, |checker, random| {
        // All of at most 8 bits take two bytes each, and the whole space one; of 9 to 16 bits they take three.
        let short = (0..=8).flat_map(|length| (0..1 << length).map(move |value: u32| (value, length)));
        let short = short.map(|(value, length)| (value.checked_shl(32 - length).unwrap_or(0), length));
        let mut all: Vec<Prefix> = short.chain((0..1017).map(|value| (value << 16, 16))).collect();
        (1..all.len()).rev().for_each(|last| all.swap(last, random.index(last + 1)));
        let message = Message { announced: all, ..Message::default() };
        let expected = message.applied_to(&Held::new(), 9);
        assert_eq!((message.bytes().len(), expected.len()), (4095, 1528));
        assert_done(checker, (&message.bytes(), 9), (&vec![ANY_WORD; 5 * 1528], 0), &expected)?;
        assert_refused(checker, (&message.bytes(), 9), (&vec![ANY_WORD; 5 * 1528 - 1], 0), (9, 0))
    });
}

#[test]
fn an_end_of_rib_changes_nothing() {
    on_seeds(1, |checker, random| {
        let message = Message::default().bytes();
        assert_eq!(message.len(), 23);
        for count in [0, 1, 30, 4096] {
            let held = Kind::InternetLike.routes(random, count);
            let (mut rows, n) = rows_of(checker, &held, count)?;
            let before = rows.clone();
            let answer = apply(checker, &message, 1, &mut rows, n)?;
            assert_eq!((answer.number, answer.answer, rows == before), (0, [0, n], true), "{count} routes");
        }
        Ok(())
    });
}

#[test]
fn a_port_is_looked_at_also_where_nothing_is_announced_and_before_the_table() {
    on_seeds(1, |checker, _| {
        let (message, rows, n) = example(checker)?;
        let withdrawing = Message { announced: vec![], ..message.clone() };
        for message in [message, withdrawing, Message::default()] {
            for port in [0, 4095, 65_536 + 9, u32::MAX] {
                // In good order with room and without, and not in good order.
                for (rows, n) in [(&rows[..], n), (&rows[..20], n), (&rows, n + 1), (&[], 0), (&[], 1)] {
                    assert_refused(checker, (&message.bytes(), port), (rows, n), (6, 0))?;
                }
            }
            for port in [1, 4094] {
                assert_eq!(apply(checker, &message.bytes(), port, &mut rows.clone(), n)?.number, 0);
            }
        }
        Ok(())
    });
}

#[test]
fn tables_that_are_not_in_good_order_are_refused_11_before_9() {
    on_seeds(1, |checker, _| {
        let (message, rows, n) = example(checker)?;
        let full = Message { announced: new_ones(5), ..Message::default() };
        for message in [message, full, Message::default()] {
            for (rows, n) in [(&rows[..], n - 1), (&rows, n + 1), (&rows, 4097), (&rows, u32::MAX), (&rows[..19], n)] {
                assert_refused(checker, (&message.bytes(), 9), (rows, n), (11, 0))?;
            }
        }
        Ok(())
    });
    on_seeds(2000, |checker, random| {
        let held = random.held(10);
        let (mut rows, n) = rows_of(checker, &held, held.len())?;
        damage_rows(&mut rows[..5 * n as usize], random);
        let message = Message::any(random, &held, 4).bytes();
        if checker.table_check(&rows, n)?.number == 11 {
            assert_refused(checker, (&message, 9), (&rows, n), (11, 0))?;
        }
        apply(checker, &message, 9, &mut rows, n)?;
        Ok(())
    });
}

/// Of a table of two routes, 10.0.0.0/8 and 10.1.0.0/16, and of a message: the routes in the end.
fn messages_and_what_they_leave() -> [(Message, usize); 10] {
    let of = |withdrawn: &[Prefix], announced: &[Prefix]| Message {
        withdrawn: withdrawn.to_vec(),
        announced: announced.to_vec(),
        ..Message::default()
    };
    let [a, b, c] = [1 << 24, 2 << 24, 3 << 24].map(|value| (value, 8));
    [
        (of(&[], &[a]), 3),
        (of(&[], &[a, b]), 4),
        (of(&[TEN_8], &[a, b]), 3),
        (of(&[c], &[a, b]), 4),
        (of(&[], &[a, a, TEN_8, TEN_ONE_16]), 3),
        (of(&[TEN_8, TEN_8], &[a, b, c]), 4),
        (of(&[TEN_8], &[TEN_8, a, b]), 4),
        (of(&[TEN_8], &[TEN_8, a]), 3),
        (of(&[TEN_8, TEN_ONE_16], &[a, b, c]), 3),
        (of(&[TEN_8, TEN_ONE_16], &[]), 0),
    ]
}

#[test]
fn a_message_is_refused_9_exactly_if_its_final_set_exceeds_the_capacity() {
    on_seeds(1, |checker, _| {
        let held = Held::from([(TEN_8, 7), (TEN_ONE_16, 8)]);
        for (message, count) in messages_and_what_they_leave() {
            let after = message.applied_to(&held, 9);
            assert_eq!(after.len(), count);
            for capacity in 2..6 {
                let (rows, n) = rows_of(checker, &held, capacity)?;
                let call = (&message.bytes()[..], 9);
                if count > capacity {
                    assert_refused(checker, call, (&rows, n), (9, 0))?;
                } else {
                    assert_done(checker, call, (&rows, n), &after)?;
                }
            }
        }
        // Nothing held, and no row or part of one.
        for words in 0..5 {
            let rows = vec![ANY_WORD; words];
            let announcing = Message { announced: new_ones(1), ..Message::default() };
            assert_refused(checker, (&announcing.bytes(), 9), (&rows, 0), (9, 0))?;
            let withdrawing = Message { withdrawn: new_ones(1), ..Message::default() };
            assert_done(checker, (&withdrawing.bytes(), 9), (&rows, 0), &Held::new())?;
        }
        Ok(())
    });
}

#[test]
fn a_full_table_of_4096_routes_exchanges_routes_and_takes_no_more() {
    on_seeds(1, |checker, random| {
        let held = Kind::InternetLike.routes(random, 4096);
        // More rows than 4,096 are no more capacity.
        let (rows, n) = rows_of(checker, &held, 4100)?;
        let some: Vec<Prefix> = held.keys().copied().step_by(400).collect();
        let new = || (0..some.len() as u32).map(|number| (number << 28 | 1, 32));
        assert!(new().all(|prefix| !held.contains_key(&prefix)));
        let exchange = Message { withdrawn: some.clone(), announced: new().collect(), ..Message::default() };
        assert_done(checker, (&exchange.bytes(), 9), (&rows, n), &exchange.applied_to(&held, 9))?;
        let one_more = Message { announced: new().chain(new_ones(1)).collect(), ..exchange };
        assert_refused(checker, (&one_more.bytes(), 9), (&rows, n), (9, 0))?;
        let same = Message { announced: some, ..Message::default() };
        assert_done(checker, (&same.bytes(), 9), (&rows, n), &same.applied_to(&held, 9))
    });
}

/// Messages with several faults at once, and the first of them in the order of the checks.
fn faulty() -> Vec<(Vec<u8>, (u32, u32))> {
    // Two withdrawn bytes, three of attributes, and an announced prefix of 16 bits: the attribute length stands at 23.
    let message = Message { withdrawn: vec![TEN_8], attributes: vec![0; 3], announced: vec![TEN_ONE_16] }.bytes();
    let with = |changes: &[(usize, u8)]| {
        let mut changed = message.clone();
        changes.iter().for_each(|(at, byte)| changed[*at] = *byte);
        changed
    };
    let [marker, length, kind, withdrawn, attributes] = [(15, 0), (17, 30), (18, 1), (19, 1), (23, 1)];
    let [long_withdrawn, cut_withdrawn, long_announced, cut_announced] = [(21, 33), (21, 9), (28, 33), (28, 17)];
    vec![
        (with(&[marker, length, kind, withdrawn])[..22].to_vec(), (14, 0)),
        (with(&[marker, length, kind, withdrawn]), (14, 0)),
        (with(&[length, kind, withdrawn]), (14, 16)),
        (with(&[kind, withdrawn]), (14, 18)),
        (with(&[withdrawn, attributes, long_withdrawn]), (14, 19)),
        (with(&[attributes, long_withdrawn, long_announced]), (14, 23)),
        (with(&[long_withdrawn, long_announced]), (4, 21)),
        (with(&[cut_withdrawn, long_announced]), (14, 21)),
        (with(&[long_announced]), (4, 28)),
        (with(&[cut_announced]), (14, 28)),
    ]
}

#[test]
fn of_several_faults_the_first_check_decides() {
    on_seeds(1, |checker, _| {
        let held = Held::from([(TEN_8, 7), (TEN_ONE_16, 8)]);
        let (rows, n) = rows_of(checker, &held, 2)?;
        for (message, refusal) in faulty() {
            // With a port and a table that are wrong too, and with neither.
            for (port, n) in [(9, n), (0, n), (9, n + 1), (0, n + 1)] {
                assert_refused(checker, (&message, port), (&rows, n), refusal)?;
            }
        }
        // 6, 11 and 9 in this order, of a message without a fault that the table has no room for.
        let full = Message { announced: new_ones(1), ..Message::default() }.bytes();
        for (port, n, number) in [(0, n + 1, 6), (0, n, 6), (9, n + 1, 11), (9, n, 9)] {
            assert_refused(checker, (&full, port), (&rows, n), (number, 0))?;
        }
        Ok(())
    });
}

fn routes_of(prefixes: &BTreeSet<Prefix>, port: u32) -> Held {
    prefixes.iter().map(|prefix| (*prefix, port)).collect()
}

#[test]
fn the_messages_of_two_daemons_are_applied_in_order() {
    on_seeds(1, |checker, _| {
        for Sent { daemon, messages } in captured() {
            let (mut rows, mut n) = (vec![ANY_WORD; 5 * 6], 0);
            for (number, (message, expected)) in messages.iter().enumerate() {
                let answer = apply(checker, message, 9, &mut rows, n)?;
                assert_eq!(answer.answer, [0, expected.len() as u32], "{daemon}, message {number}");
                n = answer.answer[1];
                checker.table_holds(&rows, n, &routes_of(expected, 9))?;
            }
        }
        Ok(())
    });
}

#[test]
fn the_messages_of_two_daemons_cut_and_with_a_byte_changed_are_treated_alike() {
    on_seeds(1, |checker, _| {
        for Sent { messages, .. } in captured() {
            let mut held = Held::new();
            for (message, expected) in &messages {
                // The table as it is when the message comes.
                let (rows, n) = rows_of(checker, &held, 6)?;
                for size in 0..message.len() {
                    let place = if size < BYTES_FIRST { 0 } else { 16 };
                    assert_refused(checker, (&message[..size], 9), (&rows, n), (14, place))?;
                }
                apply_with_every_byte_changed(checker, message, &rows, n)?;
                held = routes_of(expected, 9);
            }
        }
        Ok(())
    });
}

#[test]
fn messages_are_written_and_applied_alike() {
    on_seeds(3000, |checker, random| scenarios::written_messages(checker, random, 12));
    on_seeds(100, |checker, random| scenarios::written_messages(checker, random, 200));
    on_seeds(4, |checker, random| scenarios::written_messages(checker, random, 1200));
}

/// Lists of mixed lengths whose messages have just so many bytes.
fn list_of_message(random: &mut Random, size: usize) -> Held {
    let mut held = Held::new();
    let mut left = size - BYTES_FIRST;
    while left > 0 {
        let (value, length) = (random.word(), random.below(33));
        let length = if left < 6 { 8 * (left as u32 - 1) } else { length };
        let prefix = (workload::first_bits_of(value, length), length);
        let bytes = 1 + length.div_ceil(8) as usize;
        if left != bytes + 1 && held.insert(prefix, random.port()).is_none() {
            left -= bytes;
        }
    }
    held
}

#[test]
fn a_message_of_4096_bytes_is_written_and_of_4097_refused() {
    on_seeds(3, |checker, random| {
        for size in [4095, 4096] {
            let held = list_of_message(random, size);
            let expected = Message::withdrawing(&held).bytes();
            assert_eq!(expected.len(), size);
            let list = list_of(&held);
            for room in [size, size + 1, 4096, 5000] {
                let (answer, message) = checker.message_write(&list, room.max(size))?;
                assert_eq!((answer.number, answer.answer), (0, [0, size as u32]));
                assert_eq!(message[..size], expected);
            }
            for room in [size - 1, 23, 22, 0] {
                let (answer, _) = checker.message_write(&list, room)?;
                assert_eq!((answer.number, answer.answer), (9, [0, 0]), "{room} bytes lent");
            }
        }
        for size in [4097, 4098, 5000] {
            let list = list_of(&list_of_message(random, size));
            for room in [4096, size, 6000] {
                let (answer, _) = checker.message_write(&list, room)?;
                assert_eq!((answer.number, answer.answer), (9, [0, 0]), "{size} bytes, {room} lent");
            }
        }
        Ok(())
    });
}

#[test]
fn the_message_of_the_longest_list_applied_to_its_table_leaves_none() {
    on_seeds(1, |checker, random| {
        let held = list_of_message(random, BYTES_LAST);
        let (_, message) = checker.message_write(&list_of(&held), BYTES_LAST)?;
        let (mut rows, n) = rows_of(checker, &held, held.len())?;
        let answer = apply(checker, &message, 1, &mut rows, n)?;
        assert_eq!((answer.number, answer.answer), (0, [0, 0]));
        let (table, past) = rows.split_at(5 * held.len());
        assert!(table.iter().all(|word| *word == 0) && past.iter().all(|word| *word == ANY_WORD));
        Ok(())
    });
}

#[test]
fn an_empty_list_has_a_message_of_23_bytes() {
    on_seeds(1, |checker, _| {
        for (room, number) in [(22, 9), (23, 0), (24, 0), (4096, 0)] {
            let (answer, message) = checker.message_write(&[], room)?;
            assert_eq!((answer.number, answer.answer[0]), (number, 0));
            if number == 0 {
                assert_eq!(answer.answer[1], 23);
                assert_eq!(message[..23], Message::default().bytes());
            }
        }
        Ok(())
    });
}

#[test]
fn lists_are_refused_before_9_and_ports_checked_though_not_written() {
    on_seeds(1, |checker, _| {
        let too_many = full_length_list(4097);
        // A list that no message has room for, and one whose last route has a fault.
        let long = full_length_list(4096);
        let faulty = [&long[..3 * 4096 - 1], &[4095]].concat();
        for (list, refusal) in [
            (&[0][..], (3, 0)),
            (&too_many, (8, 0)),
            (&[0, 33, 1], (4, 0)),
            (&[0, 0, 1, 1, 31, 1], (5, 1)),
            (&[0, 0, 0], (6, 0)),
            (&[0, 0, 1, 0, 8, 4095], (6, 1)),
            (&[0, 0, 1, 0, 0, 1], (7, 1)),
            (&long, (9, 0)),
            (&faulty, (6, 4095)),
        ] {
            for room in [0, 100, 30_000] {
                let (answer, _) = checker.message_write(list, room)?;
                assert_eq!((answer.number, answer.answer), (refusal.0, [refusal.1, 0]));
            }
        }
        Ok(())
    });
}
