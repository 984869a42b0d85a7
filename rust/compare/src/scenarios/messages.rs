//! UPDATE messages: applied to tables of every capacity; damaged, with arguments, tables and counts that are wrong too;
//! noise; and the message that withdraws a list, written with every room and applied.

use super::{any_counts, any_set, rooms, some_damage};
use crate::checker::{Checker, Compared};
use workload::messages::{noise_message, BYTES_LAST};
use workload::{damage_message, damage_rows, list_of, Held, Message, Random};

/// A table has no more routes, however many rows are lent.
const ROUTES_LAST: usize = 4096;

/// The rows of a set with room for so many routes, and some words past the whole rows. What is past the table holds
/// anything.
pub(super) fn rows_of(
    checker: &mut Checker,
    random: &mut Random,
    held: &Held,
    capacity: usize,
) -> Compared<(Vec<u32>, u32)> {
    let (built, mut rows) = checker.table_build(&list_of(held), 5 * held.len())?;
    rows.resize_with(5 * capacity.max(held.len()) + random.index(5), || random.any_size());
    Ok((rows, built.answer[1]))
}

/// The most prefixes of a part: few where the table is large, since the reference takes milliseconds for each.
fn prefixes_last(random: &mut Random, held: &Held) -> usize {
    match held.len() {
        0..300 => random.pick(&[1, 4, 12, 12, 40]),
        _ => random.pick(&[1, 4, 12]),
    }
}

/// With room for just the routes of the end, for one less, for one more, and for no more than are held: done with those
/// routes held then, or refused with the table as it was.
pub fn valid_messages(checker: &mut Checker, random: &mut Random, most: usize) -> Compared<()> {
    let held = any_set(random, most);
    let most_prefixes = prefixes_last(random, &held);
    let message = Message::any(random, &held, most_prefixes);
    let port = random.port();
    let after = message.applied_to(&held, port);
    for room in rooms(after.len()) {
        // Where there are fewer rows than routes held, the table is not in good order.
        let capacity = room.max(held.len());
        let (mut rows, n) = rows_of(checker, random, &held, capacity)?;
        let mut counts = checker.counts_of(&rows, n)?;
        let answer = checker.counted_message(&message.bytes(), port, &mut rows, n, &mut counts)?;
        let expected = if after.len() > capacity.min(ROUTES_LAST) { &held } else { &after };
        checker.table_holds(&rows, answer.answer[1], expected)?;
        checker.counts_kept(&rows, answer.answer[1], &counts)?;
    }
    Ok(())
}

/// Mostly damage to a message, and often a port, a table, an n or counts that are wrong, with it or without.
pub fn damaged_messages(checker: &mut Checker, random: &mut Random, most: usize) -> Compared<()> {
    let held = any_set(random, most);
    let most_prefixes = prefixes_last(random, &held);
    let (any, nothing) = (Message::any(random, &held, most_prefixes), Message::default());
    let (rows, n) = rows_of(checker, random, &held, held.len() + 2)?;
    let (right, none_held) = (checker.counts_of(&rows, n)?, checker.counts_of(&[], 0)?);
    for _ in 0..8 {
        let mut message = random.pick(&[&any, &any, &any, &nothing]).bytes();
        let mut rows = rows.clone();
        if random.below(3) > 0 {
            some_damage(random, |random| damage_message(&mut message, random));
        }
        if random.below(4) == 0 {
            damage_rows(&mut rows[..5 * n as usize], random);
        }
        let n = random.pick(&[n, n, n, n, n + 1, 0, 4097, u32::MAX]);
        let port = random.pick(&[1, 1, 4094, 0, 4095, 1 << 16, u32::MAX]);
        checker.counted_message(&message, port, &mut rows, n, &mut any_counts(random, &right, &none_held))?;
    }
    Ok(())
}

/// Bytes that pass for a message, on a table that holds some of the prefixes that they name.
pub fn noise_messages(checker: &mut Checker, random: &mut Random, most: usize) -> Compared<()> {
    let held = random.held(most.min(30) as u32);
    for _ in 0..8 {
        let message = noise_message(random, 12);
        let capacity = held.len() + random.index(6);
        let (mut rows, n) = rows_of(checker, random, &held, capacity)?;
        let mut counts = checker.counts_of(&rows, n)?;
        checker.counted_message(&message, random.port(), &mut rows, n, &mut counts)?;
    }
    Ok(())
}

/// Written with every room, and with that of the longest message; applied to the table of its own list, which is empty
/// then, and to one that has only some of it and others; damaged.
pub fn written_messages(checker: &mut Checker, random: &mut Random, most: usize) -> Compared<()> {
    let held = any_set(random, most);
    let list = list_of(&held);
    let expected = Message::withdrawing(&held);
    for room in rooms(expected.size()).into_iter().chain([BYTES_LAST - 1, BYTES_LAST, BYTES_LAST + 1]) {
        checker.message_write(&list, room)?;
    }
    if expected.size() > BYTES_LAST {
        return Ok(());
    }
    let (written, mut message) = checker.message_write(&list, BYTES_LAST)?;
    message.truncate(written.answer[1] as usize);
    let mut others = any_set(random, 4);
    others.extend(held.iter().filter(|_| random.below(8) == 0));
    for held in [&held, &others] {
        let (mut rows, n) = rows_of(checker, random, held, held.len())?;
        let mut counts = checker.counts_of(&rows, n)?;
        let answer = checker.counted_message(&message, 1, &mut rows, n, &mut counts)?;
        checker.table_holds(&rows, answer.answer[1], &expected.applied_to(held, 1))?;
    }
    Ok(())
}
