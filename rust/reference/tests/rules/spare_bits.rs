//! Rules, "The route file": the bits past the length in a route's last prefix byte are cleared, and then the order is
//! compared. Typed as bytes.

use crate::list_and_file::{file_with, read, written};
use crate::support::{done, list_of, prefix, refused, Random, UNTOUCHED};
use reference::{file_read, runs_text};
use workload::{clear_spare_bits, set_spare_bits};

/// Routes with spare bits set, what is read, and what is written then.
fn assert_cleared(body: &[u8], list: &[u32], back: &[u8]) {
    assert_eq!(read(&file_with(body)), list, "{body:02X?}");
    assert_eq!(written(list), file_with(back), "{body:02X?}");
}

/// Two routes of five bytes each: refused 7 at the second one's first byte, and nothing written.
fn assert_second_is_not_above(body: [u8; 10]) {
    let mut list = [UNTOUCHED; 6];
    assert_eq!(file_read(&file_with(&body), &mut list), refused(7, [10, 0]), "{body:02X?}");
    assert_eq!(list, [UNTOUCHED; 6]);
}

#[test]
fn a_prefix_of_9_bits_has_seven_spare_ones() {
    assert_cleared(&[0x09, 0x0A, 0xC3, 0x00, 0x07], &[0x0A80_0000, 9, 7], &[0x09, 0x0A, 0x80, 0x00, 0x07]);
}

#[test]
fn all_seven_spare_bits_of_a_prefix_of_25_bits_are_cleared() {
    assert_cleared(
        &[0x19, 0x0A, 0x01, 0x02, 0xFF, 0x00, 0x07],
        &[0x0A01_0280, 25, 7],
        &[0x19, 0x0A, 0x01, 0x02, 0x80, 0x00, 0x07],
    );
    assert_cleared(
        &[0x19, 0x0A, 0x01, 0x02, 0x7F, 0x00, 0x07],
        &[0x0A01_0200, 25, 7],
        &[0x19, 0x0A, 0x01, 0x02, 0x00, 0x00, 0x07],
    );
}

#[test]
fn of_a_prefix_of_1_bit_the_first_is_kept() {
    assert_cleared(&[0x01, 0xFF, 0x00, 0x07], &[0x8000_0000, 1, 7], &[0x01, 0x80, 0x00, 0x07]);
    assert_cleared(&[0x01, 0x01, 0x00, 0x07], &[0, 1, 7], &[0x01, 0x00, 0x00, 0x07]);
}

#[test]
fn of_a_prefix_of_31_bits_the_last_is_cleared() {
    assert_cleared(
        &[0x1F, 0x0A, 0x01, 0x02, 0xFF, 0x00, 0x07],
        &[0x0A01_02FE, 31, 7],
        &[0x1F, 0x0A, 0x01, 0x02, 0xFE, 0x00, 0x07],
    );
}

#[test]
fn spare_bits_in_the_last_route_alone_are_cleared() {
    assert_cleared(
        &[0x08, 0x0A, 0x00, 0x07, 0x0C, 0x0A, 0x1F, 0x00, 0x08],
        &[0x0A00_0000, 8, 7, 0x0A10_0000, 12, 8],
        &[0x08, 0x0A, 0x00, 0x07, 0x0C, 0x0A, 0x10, 0x00, 0x08],
    );
}

#[test]
fn the_route_before_is_cleared_too_before_the_order_is_compared() {
    // 10.255 clears to 10.128.0.0/9, and 10.128.0.0/16 is above that.
    assert_cleared(
        &[0x09, 0x0A, 0xFF, 0x00, 0x07, 0x10, 0x0A, 0x80, 0x00, 0x08],
        &[0x0A80_0000, 9, 7, 0x0A80_0000, 16, 8],
        &[0x09, 0x0A, 0x80, 0x00, 0x07, 0x10, 0x0A, 0x80, 0x00, 0x08],
    );
}

#[test]
fn two_prefixes_that_are_equal_once_cleared_are_refused_7() {
    assert_second_is_not_above([0x09, 0x0A, 0x80, 0x00, 0x07, 0x09, 0x0A, 0x81, 0x00, 0x08]);
    assert_second_is_not_above([0x09, 0x0A, 0x81, 0x00, 0x07, 0x09, 0x0A, 0x80, 0x00, 0x08]);
    assert_second_is_not_above([0x09, 0x0A, 0x81, 0x00, 0x07, 0x09, 0x0A, 0x81, 0x00, 0x08]);
}

#[test]
fn a_prefix_that_falls_below_the_one_before_once_cleared_is_refused_7() {
    // 10.129 clears to 10.128.0.0/9, which stands before 10.128.0.0/16.
    assert_second_is_not_above([0x10, 0x0A, 0x80, 0x00, 0x07, 0x09, 0x0A, 0x81, 0x00, 0x08]);
    // 10.255 clears to 10.128.0.0/9, which stands before 10.192.0.0/10.
    assert_second_is_not_above([0x0A, 0x0A, 0xC0, 0x00, 0x07, 0x09, 0x0A, 0xFF, 0x00, 0x08]);
}

#[test]
fn a_wrong_port_comes_before_the_order_and_no_room_comes_last() {
    let equal_with_port_0 = file_with(&[0x09, 0x0A, 0x80, 0x00, 0x07, 0x09, 0x0A, 0x81, 0x00, 0x00]);
    assert_eq!(file_read(&equal_with_port_0, &mut [0; 6]), refused(6, [10, 0]));
    let equal = file_with(&[0x09, 0x0A, 0x80, 0x00, 0x07, 0x09, 0x0A, 0x81, 0x00, 0x08]);
    assert_eq!(file_read(&equal, &mut []), refused(7, [10, 0]));
    let rising = file_with(&[0x09, 0x0A, 0x7F, 0x00, 0x07, 0x09, 0x0A, 0x81, 0x00, 0x08]);
    assert_eq!(file_read(&rising, &mut [0; 5]), refused(9, [0, 0]));
    assert_eq!(file_read(&rising, &mut [0; 6]), done([0, 2]));
}

#[test]
fn a_length_of_0_and_multiples_of_8_leave_no_bit_over() {
    let body = [
        &[0x00, 0x00, 0x07][..],
        &[0x08, 0xFF, 0x00, 0x07],
        &[0x10, 0xFF, 0xFF, 0x00, 0x07],
        &[0x18, 0xFF, 0xFF, 0xFF, 0x00, 0x07],
        &[0x20, 0xFF, 0xFF, 0xFF, 0xFF, 0x00, 0x07],
    ]
    .concat();
    let list = [0, 0, 7, 0xFF00_0000, 8, 7, 0xFFFF_0000, 16, 7, 0xFFFF_FF00, 24, 7, 0xFFFF_FFFF, 32, 7];
    assert_cleared(&body, &list, &body);
}

#[test]
fn no_spare_bits_of_any_length_are_refused_5() {
    for length in 0..=32u8 {
        let bytes = vec![0xFF; usize::from(length).div_ceil(8)];
        let file = file_with(&[&[length], &bytes[..], &[0x00, 0x07]].concat());
        let (value, length) = prefix(&"1".repeat(length.into()));
        assert_eq!(read(&file), [value, length, 7]);
    }
}

#[test]
fn a_file_comes_back_with_its_spare_bits_cleared_and_every_other_bit_as_it_was() {
    let mut with_spare_bits = 0;
    for seed in 0..1000 {
        let mut random = Random::new(seed);
        let list = list_of(&random.held(60));
        let mut file = written(&list);
        set_spare_bits(&mut file, &mut random);
        assert_eq!(read(&file), list, "seed {seed}");
        let mut cleared = file.clone();
        clear_spare_bits(&mut cleared);
        assert_eq!(written(&read(&file)), cleared, "seed {seed}");
        with_spare_bits += u32::from(cleared != file);
    }
    assert!(with_spare_bits > 500, "too few files with spare bits to say anything: {with_spare_bits}");
}

#[test]
fn the_runs_of_a_file_with_spare_bits_are_printed() {
    // Example 12 with spare bits: 10.0.0.0/9 and 10.128.0.0/9, both to port 7.
    let halves = file_with(&[0x09, 0x0A, 0x55, 0x00, 0x07, 0x09, 0x0A, 0xAA, 0x00, 0x07]);
    let page = "runs 3\n0.0.0.0 9.255.255.255 0\n10.0.0.0 10.255.255.255 7\n11.0.0.0 255.255.255.255 0\n";
    assert_eq!(runs_text(&halves), page.as_bytes());
    let equal = file_with(&[0x09, 0x0A, 0x80, 0x00, 0x07, 0x09, 0x0A, 0x81, 0x00, 0x08]);
    assert_eq!(runs_text(&equal), b"refused 7 10\n");
}
