//! Counts: made with every room, and lent to every update; damaged, from before an update, and beside tables that are
//! damaged too.

use super::messages::rows_of;
use super::tables::any_prefix;
use super::{any_counts, any_set, rooms, some_damage};
use crate::checker::{Checker, Compared};
use workload::{damage_message, damage_rows, Held, Message, Random, COUNTS};

/// Made with just enough room, with less and with more, whatever stood there, and each update with what that leaves.
pub fn valid_counts(checker: &mut Checker, random: &mut Random, most: usize) -> Compared<()> {
    let held = any_set(random, most);
    let capacity = held.len() + random.index(2);
    let (rows, n) = rows_of(checker, random, &held, capacity)?;
    for room in rooms(COUNTS) {
        let mut counts: Vec<u64> = (0..room).map(|_| random.any_size().into()).collect();
        checker.counts_make(&rows, n, &mut counts)?;
        updates(checker, random, &held, (&rows, n), &counts)?;
    }
    Ok(())
}

/// Every call with counts that are damaged, or that are those of the table before an update, and often with a table or
/// an n that is wrong too.
pub fn damaged_counts(checker: &mut Checker, random: &mut Random, most: usize) -> Compared<()> {
    let held = any_set(random, most);
    let (rows, n) = rows_of(checker, random, &held, held.len() + 1)?;
    let before = checker.counts_of(&rows, n)?;
    let (mut updated, mut after) = (rows, before.clone());
    let (value, length) = any_prefix(random, &held);
    let answer = checker.counted_announce(&mut updated, n, [value, length, random.port()], &mut after)?;
    for _ in 0..6 {
        let mut rows = updated.clone();
        if random.below(4) == 0 {
            damage_rows(&mut rows[..5 * n as usize], random);
        }
        let n = random.pick(&[answer.answer[1], answer.answer[1], answer.answer[1], n, 4097, u32::MAX]);
        let mut counts = any_counts(random, &after, &before);
        updates(checker, random, &held, (&rows, n), &counts)?;
        checker.counts_make(&rows, n, &mut counts)?;
    }
    Ok(())
}

/// Each update once, of a copy: its prefix held or not, its arguments or its message wrong now and then.
fn updates(
    checker: &mut Checker,
    random: &mut Random,
    held: &Held,
    (rows, n): (&[u32], u32),
    counts: &[u64],
) -> Compared<()> {
    let ((value, length), any_port) = (any_prefix(random, held), random.port());
    let length = random.pick(&[length, length, length, length, 33]);
    let port = random.pick(&[any_port, any_port, any_port, any_port, 0]);
    checker.counted_announce(&mut rows.to_vec(), n, [value, length, port], &mut counts.to_vec())?;
    checker.counted_withdraw(&mut rows.to_vec(), n, (value, length), &mut counts.to_vec())?;
    let mut message = Message::any(random, held, 3).bytes();
    if random.below(4) == 0 {
        some_damage(random, |random| damage_message(&mut message, random));
    }
    checker.counted_message(&message, port, &mut rows.to_vec(), n, &mut counts.to_vec())?;
    Ok(())
}
