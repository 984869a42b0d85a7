//! Route lists: checked, scanned and listed, and damaged before every call that is lent a list.

use super::{addresses, any_set, rooms, some_damage};
use crate::checker::{Checker, Compared};
use workload::{damage_list, list_of, Random};

/// Checked, scanned, and its runs listed with every room.
pub fn valid_lists(checker: &mut Checker, random: &mut Random, most: usize) -> Compared<()> {
    let held = any_set(random, most);
    let list = list_of(&held);
    checker.list_check(&list)?;
    checker.list_scan(&list, &addresses(random, &held, 20))?;
    let (listed, _) = checker.list_runs(&list, 3 * (2 * held.len() + 1))?;
    for room in rooms(3 * listed.answer[1] as usize) {
        checker.list_runs(&list, room)?;
    }
    Ok(())
}

/// Every call that is lent a list refuses it as the list checks do, with room enough and with none.
pub fn damaged_lists(checker: &mut Checker, random: &mut Random, most: usize) -> Compared<()> {
    let held = any_set(random, most);
    for _ in 0..4 {
        let mut list = list_of(&held);
        some_damage(random, |random| damage_list(&mut list, random));
        checker.list_check(&list)?;
        checker.list_scan(&list, &addresses(random, &held, 2))?;
        for room in [0, 7 * (list.len() + 3)] {
            checker.file_write(&list, room)?;
            checker.message_write(&list, room)?;
            checker.table_build(&list, room)?;
            checker.list_runs(&list, room)?;
            checker.image_build(random.pick(&[1, 2, 4, 3]), &list, (room, room))?;
            checker.segments_build(&list, [room; 4])?;
        }
    }
    Ok(())
}
