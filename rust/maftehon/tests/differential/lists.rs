//! Checking, scanning and listing route lists.

use compare::{on_seeds, scenarios};
use workload::{full_length_list, Held};

#[test]
fn small_lists_are_checked_scanned_and_listed_alike() {
    on_seeds(8000, |checker, random| scenarios::valid_lists(checker, random, 30));
}

#[test]
fn lists_of_4096_routes_are_checked_scanned_and_listed_alike() {
    on_seeds(30, |checker, random| scenarios::valid_lists(checker, random, 4096));
}

#[test]
fn damaged_lists_are_refused_alike_by_every_call() {
    on_seeds(10_000, |checker, random| scenarios::damaged_lists(checker, random, 12));
    on_seeds(30, |checker, random| scenarios::damaged_lists(checker, random, 4096));
}

#[test]
fn lists_about_the_most_routes_are_accepted_and_refused_alike() {
    on_seeds(1, |checker, _| {
        for count in [4095, 4096, 4097, 5000] {
            let list = full_length_list(count);
            assert_eq!(checker.list_check(&list)?.number, if count <= 4096 { 0 } else { 8 });
            checker.list_scan(&list, &[0, 4095, 4096])?;
            checker.file_write(&list, 40_000)?;
            checker.message_write(&list, 40_000)?;
            checker.table_build(&list, 5 * 5000)?;
            checker.list_runs(&list, 30_000)?;
            checker.image_build(4, &list, (2 * 5000, 16 * 5000))?;
            checker.segments_build(&list, [65_536, 96, 256, 20 * 256])?;
        }
        Ok(())
    });
}

#[test]
fn a_list_of_8193_runs_is_listed_with_room_for_them_and_refused_9_with_room_for_8192() {
    on_seeds(1, |checker, _| {
        // Routes that touch neither each other nor an end of the space: two boundaries each.
        let apart: Held = (1..=4096).map(|value| ((2 * value + 1, 32), 1)).collect();
        let (answer, _) = checker.list_runs(&workload::list_of(&apart), 3 * 8193)?;
        assert_eq!((answer.number, answer.answer), (0, [0, 8193]));
        let (short, _) = checker.list_runs(&workload::list_of(&apart), 3 * 8192)?;
        assert_eq!((short.number, short.answer), (9, [0, 0]));
        checker.list_runs(&workload::list_of(&apart), 3 * 8193 - 1)?;
        Ok(())
    });
}
