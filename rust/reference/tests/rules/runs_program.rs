//! Rules, "Program `runs`": its text for each kind of input.

use crate::support::UNTOUCHED;
use reference::{file_read, list_runs, runs_text};

const EXAMPLE: [u8; 20] = [
    0x01, 0x00, 0x00, 0x00, 0x0F, 0x08, 0x0A, 0x00, 0x07, 0x10, 0x0A, 0x01, 0x00, 0x09, 0x18, 0x0A, 0x01, 0x02, 0x00,
    0x07,
];

fn printed(input: &[u8]) -> String {
    String::from_utf8(runs_text(input)).expect("plain text")
}

/// A valid file of `count` routes of length 16.
fn file_of(count: u16) -> Vec<u8> {
    let mut file = vec![1];
    file.extend((5 * u32::from(count)).to_be_bytes());
    for value in 0..count {
        let [high, low] = value.to_be_bytes();
        file.extend([16, high, low, 0, 1]);
    }
    file
}

#[test]
fn the_example_prints_seven_runs() {
    let expected = "runs 7\n\
        0.0.0.0 9.255.255.255 0\n\
        10.0.0.0 10.0.255.255 7\n\
        10.1.0.0 10.1.1.255 9\n\
        10.1.2.0 10.1.2.255 7\n\
        10.1.3.0 10.1.255.255 9\n\
        10.2.0.0 10.255.255.255 7\n\
        11.0.0.0 255.255.255.255 0\n";
    assert_eq!(printed(&EXAMPLE), expected);
}

#[test]
fn room_for_six_runs_is_refused_9() {
    let mut list = [0; 9];
    file_read(&EXAMPLE, &mut list);
    let mut runs = [UNTOUCHED; 18];
    let answer = list_runs(&list, &mut runs);
    assert_eq!((answer.number, answer.answer), (9, [0, 0]));
    assert_eq!(runs, [UNTOUCHED; 18]);
}

#[test]
fn the_empty_list_prints_one_run() {
    assert_eq!(printed(&[1, 0, 0, 0, 0]), "runs 1\n0.0.0.0 255.255.255.255 0\n");
}

#[test]
fn refusals_print_number_and_place() {
    assert_eq!(printed(&[]), "refused 1 0\n");
    assert_eq!(printed(&[2, 0, 0, 0, 0]), "refused 2 0\n");
    assert_eq!(printed(&[1, 0, 0, 0, 1]), "refused 3 0\n");
    assert_eq!(printed(&[1, 0, 0, 0, 7, 0, 0, 1, 8, 10, 0, 0]), "refused 6 8\n");
}

#[test]
fn over_1797_bytes_is_refused_9_whatever_they_are() {
    assert_eq!(printed(&[0; 1798]), "refused 9 0\n");
    assert_eq!(printed(&[0; 1797]), "refused 2 0\n");
}

#[test]
fn over_256_routes_is_refused_9_in_a_file_otherwise_valid() {
    assert!(printed(&file_of(256)).starts_with("runs 2\n"));
    assert_eq!(printed(&file_of(257)), "refused 9 0\n");
    let mut bad_last_port = file_of(257);
    *bad_last_port.last_mut().expect("a byte") = 0;
    assert_eq!(printed(&bad_last_port), "refused 6 1285\n");
}

#[test]
fn a_file_of_256_full_routes_has_1797_bytes_and_is_listed() {
    let mut file = vec![1];
    file.extend((7 * 256u32).to_be_bytes());
    (0..=255u8).for_each(|last| file.extend([32, 10, 0, 0, last, 0, 1 + last % 2]));
    assert_eq!(file.len(), 1797);
    assert!(printed(&file).starts_with("runs 258\n0.0.0.0 9.255.255.255 0\n10.0.0.0 10.0.0.0 1\n"));
}
