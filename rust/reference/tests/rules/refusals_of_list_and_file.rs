//! Rules, "Numbers on the refusal lamp": the list checks in every function that is lent a list, and the file's.

use crate::list_and_file::file_with;
use crate::support::{done, full_length_list, refused, UNTOUCHED, UNTOUCHED_BYTE, UNTOUCHED_PORT};
use reference::{file_read, file_write, image_build, list_check, list_runs, list_scan, table_build};

/// Lists that the checks refuse, each with its number and place.
fn refused_lists() -> Vec<(Vec<u32>, u32, u32)> {
    let valid = [0, 8, 1];
    let second = |route: [u32; 3]| [valid, route].concat();
    vec![
        (vec![0], 3, 0),
        (vec![0, 8, 1, 0], 3, 0),
        (full_length_list(4097), 8, 0),
        (second([0, 33, 1]), 4, 1),
        (second([0, u32::MAX, 1]), 4, 1),
        (second([1, 31, 1]), 5, 1),
        (second([1, 0, 1]), 5, 1),
        (second([1 << 24, 8, 0]), 6, 1),
        (second([1 << 24, 8, 4095]), 6, 1),
        (second([1 << 24, 8, u32::MAX]), 6, 1),
        (second(valid), 7, 1),
        (second([0, 7, 1]), 7, 1),
        // The order: 3 before 8, 8 before the routes, per route 4, 5, 6, 7, and the first route that is wrong.
        ([full_length_list(4097), vec![0]].concat(), 3, 0),
        (vec![u32::MAX; 3 * 4097], 8, 0),
        (second([1, 33, 0]), 4, 1),
        (second([1, 0, 0]), 5, 1),
        (second([0, 0, 0]), 6, 1),
        (vec![0, 8, 0, 0, 33, 1], 6, 0),
        (vec![1 << 24, 8, 1, 0, 8, 1, 0, 33, 1], 7, 1),
    ]
}

#[test]
fn list_check_refuses_as_the_list_checks_do() {
    for (list, number, place) in refused_lists() {
        assert_eq!(list_check(&list), refused(number, [place]));
    }
}

#[test]
fn list_scan_refuses_as_the_list_checks_do() {
    for (list, number, place) in refused_lists() {
        assert_eq!(list_scan(&list, 0), refused(number, [place, 0]));
    }
}

#[test]
fn file_write_refuses_as_the_list_checks_do() {
    for (list, number, place) in refused_lists() {
        // Also where nothing is lent: 9 comes last.
        for lent in [0, 40_000] {
            let mut file = vec![UNTOUCHED_BYTE; lent];
            assert_eq!(file_write(&list, &mut file), refused(number, [place, 0]));
            assert!(file.iter().all(|byte| *byte == UNTOUCHED_BYTE));
        }
    }
}

#[test]
fn table_build_refuses_as_the_list_checks_do() {
    for (list, number, place) in refused_lists() {
        for lent in [0, 5 * 4097] {
            let mut rows = vec![UNTOUCHED; lent];
            assert_eq!(table_build(&list, &mut rows), refused(number, [place, 0]));
            assert!(rows.iter().all(|word| *word == UNTOUCHED));
        }
    }
}

#[test]
fn image_build_refuses_as_the_list_checks_do() {
    for (list, number, place) in refused_lists() {
        for lent in [0, 1000] {
            let (mut nodes, mut ports) = (vec![UNTOUCHED; lent], vec![UNTOUCHED_PORT; lent]);
            assert_eq!(image_build(4, &list, &mut nodes, &mut ports), refused(number, [place, 0, 0]));
            assert!(nodes.iter().all(|word| *word == UNTOUCHED));
            assert!(ports.iter().all(|port| *port == UNTOUCHED_PORT));
        }
    }
}

#[test]
fn list_runs_refuses_as_the_list_checks_do() {
    for (list, number, place) in refused_lists() {
        for lent in [0, 1000] {
            let mut runs = vec![UNTOUCHED; lent];
            assert_eq!(list_runs(&list, &mut runs), refused(number, [place, 0]));
            assert!(runs.iter().all(|word| *word == UNTOUCHED));
        }
    }
}

#[test]
fn too_short_an_output_is_refused_9() {
    let list = [0, 8, 1, 1 << 24, 8, 2];
    let mut file = [UNTOUCHED_BYTE; 12];
    assert_eq!(file_write(&list, &mut file), refused(9, [0, 0]));
    assert_eq!(file, [UNTOUCHED_BYTE; 12]);
    assert_eq!(file_write(&list, &mut [0; 13]), done([0, 13]));

    let mut rows = [UNTOUCHED; 9];
    assert_eq!(table_build(&list, &mut rows), refused(9, [0, 0]));
    assert_eq!(rows, [UNTOUCHED; 9]);
    assert_eq!(table_build(&list, &mut [0; 10]), done([0, 2]));

    let mut runs = [UNTOUCHED; 8];
    assert_eq!(list_runs(&list, &mut runs), refused(9, [0, 0]));
    assert_eq!(runs, [UNTOUCHED; 8]);
    assert_eq!(list_runs(&list, &mut [0; 9]), done([0, 3]));
}

#[test]
fn the_listing_of_an_empty_list_needs_room_for_one_run() {
    assert_eq!(list_runs(&[], &mut [0; 2]), refused(9, [0, 0]));
    assert_eq!(list_runs(&[], &mut [0; 3]), done([0, 1]));
}

/// Files that are refused even where room for every route is lent, each with its number and place.
fn refused_files() -> Vec<(Vec<u8>, u32, u32)> {
    vec![
        (vec![], 1, 0),
        (vec![1, 0, 0, 0], 1, 0),
        (vec![0, 0, 0, 0], 1, 0),
        (vec![0, 0, 0, 0, 0], 2, 0),
        (vec![2, 0, 0, 0, 9], 2, 0),
        (vec![1, 0, 0, 0, 1], 3, 0),
        (vec![1, 0, 0, 0, 0, 0], 3, 0),
        (vec![1, 0xFF, 0xFF, 0xFF, 0xFF, 33], 3, 0),
        // A route runs past the end: its port, its prefix, or all after its length.
        (file_with(&[0, 0, 1, 8, 10, 0]), 3, 8),
        (file_with(&[0, 0, 1, 16, 10]), 3, 8),
        (file_with(&[0, 0, 1, 0]), 3, 8),
        // 4 comes before the cut, the cut before 6.
        (file_with(&[0, 0, 1, 33]), 4, 8),
        (file_with(&[0, 0, 1, 255, 0, 0, 0, 0, 0, 1]), 4, 8),
        (file_with(&[0, 0, 1, 1, 0xFF, 0]), 3, 8),
        (file_with(&[0, 0, 1, 8, 10, 0, 0]), 6, 8),
        (file_with(&[0, 0, 1, 8, 10, 0x0F, 0xFF]), 6, 8),
        (file_with(&[8, 10, 0, 1, 8, 9, 0xFF, 0xFF]), 6, 9),
        (file_with(&[8, 10, 0, 1, 8, 10, 0, 2]), 7, 9),
        (file_with(&[8, 10, 0, 1, 7, 10, 0, 2]), 7, 9),
        (file_with(&[8, 10, 0, 1, 8, 9, 0, 2]), 7, 9),
        // Spare bits are no fault, and 7 looks at what is left without them.
        (file_with(&[0, 0, 1, 7, 0x0B, 0, 0]), 6, 8),
        (file_with(&[8, 10, 0, 1, 7, 0x0B, 0, 2]), 7, 9),
        // The first route that is wrong decides.
        (file_with(&[8, 10, 0, 0, 33]), 6, 5),
    ]
}

#[test]
fn file_read_refuses_in_the_rules_order_and_writes_nothing() {
    for (file, number, place) in refused_files() {
        for lent in [0, 6] {
            let mut list = vec![UNTOUCHED; lent];
            assert_eq!(file_read(&file, &mut list), refused(number, [place, 0]), "file {file:?}");
            assert!(list.iter().all(|word| *word == UNTOUCHED));
        }
    }
}

#[test]
fn the_4097th_route_of_a_file_is_refused_8_before_its_own_faults() {
    let mut body: Vec<u8> = (0..4096u16).flat_map(|value| [32, 0, 0, (value >> 8) as u8, value as u8, 0, 1]).collect();
    body.push(33);
    assert_eq!(file_read(&file_with(&body), &mut []), refused(8, [5 + 4096 * 7, 0]));
    // An earlier fault comes first.
    body[6] = 0;
    body[0] = 33;
    assert_eq!(file_read(&file_with(&body), &mut []), refused(4, [5, 0]));
}

#[test]
fn file_read_refuses_9_last() {
    let file = file_with(&[0, 0, 1, 8, 10, 0, 2]);
    let mut list = [UNTOUCHED; 5];
    assert_eq!(file_read(&file, &mut list), refused(9, [0, 0]));
    assert_eq!(list, [UNTOUCHED; 5]);
    assert_eq!(file_read(&file, &mut [0; 6]), done([0, 2]));
}
