//! Route files: written, read back, with spare bits set, damaged, and noise.

use super::{any_set, rooms, some_damage};
use crate::checker::{Checker, Compared};
use workload::{clear_spare_bits, damage_file, list_of, set_spare_bits, shorten_prefix, Held, Random};

/// Enough for every route of a file.
fn most_bytes(held: &Held) -> usize {
    5 + 7 * held.len()
}

fn file_of(checker: &mut Checker, held: &Held) -> Compared<Vec<u8>> {
    let (answer, mut file) = checker.file_write(&list_of(held), most_bytes(held))?;
    file.truncate(answer.answer[1] as usize);
    Ok(file)
}

/// Written with every room, and read back with every room.
pub fn valid_files(checker: &mut Checker, random: &mut Random, most: usize) -> Compared<()> {
    let held = any_set(random, most);
    let list = list_of(&held);
    let file = file_of(checker, &held)?;
    for room in rooms(file.len()) {
        checker.file_write(&list, room)?;
    }
    for room in rooms(list.len()) {
        checker.file_read(&file, room)?;
    }
    Ok(())
}

/// Spare bits set in a file: it is read with every room, and comes back with them cleared. With shorter prefixes, whose
/// bits are spare then, it may be refused.
pub fn spared_files(checker: &mut Checker, random: &mut Random, most: usize) -> Compared<()> {
    let held = any_set(random, most);
    let mut file = file_of(checker, &held)?;
    set_spare_bits(&mut file, random);
    for room in rooms(3 * held.len()) {
        checker.file_read(&file, room)?;
    }
    let mut cleared = file.clone();
    clear_spare_bits(&mut cleared);
    checker.file_back(&file, &cleared)?;
    some_damage(random, |random| shorten_prefix(&mut file, random));
    checker.file_read(&file, 3 * held.len())?;
    Ok(())
}

/// Damage anywhere in a file, read with room enough and with little.
pub fn damaged_files(checker: &mut Checker, random: &mut Random, most: usize) -> Compared<()> {
    let held = any_set(random, most);
    let file = file_of(checker, &held)?;
    for _ in 0..8 {
        let mut damaged = file.clone();
        some_damage(random, |random| damage_file(&mut damaged, random));
        for room in [3 * held.len() + 12, random.index(3 * held.len() + 1)] {
            checker.file_read(&damaged, room)?;
        }
    }
    Ok(())
}

/// A right head, and then bytes of which many pass for lengths and ports.
pub fn noise_files(checker: &mut Checker, random: &mut Random, most: usize) -> Compared<()> {
    for _ in 0..8 {
        let size = random.index(4 * most + 1);
        let mut file = vec![1];
        file.extend((size as u32).to_be_bytes());
        file.extend((0..size).map(|_| noise_byte(random)));
        file.truncate(size + 5 - usize::from(random.below(8) == 0));
        checker.file_read(&file, 4 * most + 3)?;
    }
    Ok(())
}

fn noise_byte(random: &mut Random) -> u8 {
    match random.below(4) {
        0 => random.word() as u8,
        1 => random.below(34) as u8,
        _ => random.below(3) as u8,
    }
}
