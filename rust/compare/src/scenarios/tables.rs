//! Tables: built, looked up, saved, listed and counted; damaged; lent with a wrong n; updated with wrong arguments.

use super::{addresses, any_counts, any_set, rooms, some_damage};
use crate::checker::{Checker, Compared};
use workload::{damage_rows, list_of, Held, Random};

/// The rows of a set, with room for `spare` words more.
fn rows_of(checker: &mut Checker, held: &Held, spare: usize) -> Compared<(Vec<u32>, u32)> {
    let (built, rows) = checker.table_build(&list_of(held), 5 * held.len() + spare)?;
    Ok((rows, built.answer[1]))
}

/// Built with every room, and then every call that only reads, with every room and with a wrong n.
pub fn valid_tables(checker: &mut Checker, random: &mut Random, most: usize) -> Compared<()> {
    let held = any_set(random, most);
    for room in rooms(5 * held.len()) {
        checker.table_build(&list_of(&held), room)?;
    }
    let (rows, n) = rows_of(checker, &held, random.index(12))?;
    checker.table_lookup(&rows, n, &addresses(random, &held, 50))?;
    checker.table_check(&rows, n)?;
    let listed = checker.table_runs(&rows, n, 3 * (2 * held.len() + 1))?;
    for room in rooms(3 * listed.answer[1] as usize) {
        checker.table_runs(&rows, n, room)?;
    }
    for room in rooms(3 * held.len()) {
        checker.table_save(&rows, n, room)?;
    }
    wrong_n(checker, random, &held, &rows, n)
}

/// Fewer and more routes than there are, up to more than the capacity, and rows that are cut.
fn wrong_n(checker: &mut Checker, random: &mut Random, held: &Held, rows: &[u32], n: u32) -> Compared<()> {
    let any = random.any_size();
    for wrong in [n.wrapping_sub(1), n + 1, n + 2, 0, 4096, 4097, any, u32::MAX] {
        reads(checker, random, held, rows, wrong)?;
    }
    let cut = random.index(rows.len() + 1);
    reads(checker, random, held, &rows[..cut], n)
}

/// Every call that only reads.
fn reads(checker: &mut Checker, random: &mut Random, held: &Held, rows: &[u32], n: u32) -> Compared<()> {
    checker.table_check(rows, n)?;
    checker.table_lookup(rows, n, &addresses(random, held, 6))?;
    checker.table_save(rows, n, 3 * held.len() + 6)?;
    checker.table_runs(rows, n, 6 * held.len() + 9)?;
    checker.counts_of(rows, n)?;
    Ok(())
}

/// Every call on damaged rows; some damage leaves a table in good order, and it is updated with its own counts, or with
/// those from before the damage, which are its own only where no address has another port.
pub fn damaged_tables(checker: &mut Checker, random: &mut Random, most: usize) -> Compared<()> {
    let held = any_set(random, most);
    let (rows, n) = rows_of(checker, &held, 10)?;
    let counts_before = checker.counts_of(&rows, n)?;
    for _ in 0..6 {
        let mut damaged = rows.clone();
        some_damage(random, |random| damage_rows(&mut damaged[..5 * n as usize], random));
        reads(checker, random, &held, &damaged, n)?;
        checker.table_lookup(&damaged, n, &addresses(random, &held, 30))?;
        let (value, length) = any_prefix(random, &held);
        let own_counts = checker.counts_of(&damaged, n)?;
        let mut counts = any_counts(random, &own_counts, &counts_before);
        checker.counted_announce(&mut damaged.clone(), n, [value, length, random.port()], &mut counts.clone())?;
        checker.counted_withdraw(&mut damaged, n, (value, length), &mut counts)?;
    }
    Ok(())
}

/// A held prefix, or another.
pub(super) fn any_prefix(random: &mut Random, held: &Held) -> (u32, u32) {
    let at = random.index(held.len() + 1);
    held.keys().nth(at).copied().unwrap_or_else(|| random.prefix())
}

/// Arguments that are refused 4, 5 or 6, on tables in good order and not, with n and counts right and wrong.
pub fn wrong_arguments(checker: &mut Checker, random: &mut Random, most: usize) -> Compared<()> {
    let held = any_set(random, most);
    let (mut rows, n) = rows_of(checker, &held, 5)?;
    let (right, none_held) = (checker.counts_of(&rows, n)?, checker.counts_of(&[], 0)?);
    if random.below(2) == 0 {
        damage_rows(&mut rows[..5 * n as usize], random);
    }
    for _ in 0..10 {
        let ((value, length), any) = (any_prefix(random, &held), random.word());
        let value = random.pick(&[value, value | 1, any]);
        let length = random.pick(&[length, 31, 32, 33, 64, 1 << 31, u32::MAX]);
        let port = random.pick(&[0, 1, 4094, 4095, 1 << 16, u32::MAX]);
        let n = random.pick(&[n, n, n + 1, 4097, u32::MAX]);
        let mut counts = any_counts(random, &right, &none_held);
        checker.counted_announce(&mut rows.clone(), n, [value, length, port], &mut counts.clone())?;
        checker.counted_withdraw(&mut rows.clone(), n, (value, length), &mut counts)?;
    }
    Ok(())
}
