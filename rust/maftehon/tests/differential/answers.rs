//! `answer` is lent memory too: every call writes all of it and nothing beside it, done or refused.

use maftehon_sys::*;

const PATTERN: u32 = 0xDEAD_BEEF;
const GUARD: usize = 7;

/// Makes the call with `answer` in the middle of a pattern, and twice, so that no word of it can be left out unseen.
fn assert_answers<const N: usize>(number: u32, answer: [u32; N], call: impl Fn(*mut u32) -> u32) {
    for pattern in [PATTERN, !PATTERN] {
        let mut lent = [pattern; 3 * GUARD];
        assert_eq!(call(lent[GUARD..].as_mut_ptr()), number);
        let mut expected = [pattern; 3 * GUARD];
        expected[GUARD..GUARD + N].copy_from_slice(&answer);
        assert_eq!(lent, expected);
    }
}

/// One route, 10.0.0.0/8 to port 7, as a list, a row, a file, and an image of stride 4 with its two nodes.
const LIST: [u32; 3] = [10 << 24, 8, 7];
const ROW: [u32; 5] = [10 << 24, 8, 7, 0, 0];
const FILE: [u8; 9] = [1, 0, 0, 0, 4, 8, 10, 0, 7];
/// The message that withdraws it.
const MESSAGE: [u8; 25] =
    [255, 255, 255, 255, 255, 255, 255, 255, 255, 255, 255, 255, 255, 255, 255, 255, 0, 25, 2, 0, 2, 8, 10, 0, 0];
/// The counts that a table has.
const COUNTS: usize = 4095;
/// 10.0.0.0/17 to port 7, which makes a segment.
const LIST_OF_17_BITS: [u32; 3] = [10 << 24, 17, 7];

#[test]
fn calls_on_files_and_lists_write_their_answer_alone() {
    let (list, file) = (LIST.as_ptr(), FILE.as_ptr());
    let (mut words, mut bytes) = ([0; 30], [0; 30]);
    let (words, bytes) = (words.as_mut_ptr(), bytes.as_mut_ptr());
    // SAFETY: every pointer is valid for the size that goes with it, and `answer` overlaps none of them.
    unsafe {
        assert_answers(0, [0, 1], |answer| mft_file_read(file, 9, words, 30, answer));
        assert_answers(3, [0, 0], |answer| mft_file_read(file, 8, words, 30, answer));
        assert_answers(0, [0, 9], |answer| mft_file_write(list, 3, bytes, 30, answer));
        assert_answers(9, [0, 0], |answer| mft_file_write(list, 3, bytes, 8, answer));
        assert_answers(0, [0], |answer| mft_list_check(list, 3, answer));
        assert_answers(3, [0], |answer| mft_list_check(list, 2, answer));
        assert_answers(0, [0, 7], |answer| mft_list_scan(list, 3, 10 << 24, answer));
        assert_answers(3, [0, 0], |answer| mft_list_scan(list, 2, 10 << 24, answer));
        assert_answers(0, [0, 3], |answer| mft_list_runs(list, 3, words, 30, answer));
        assert_answers(9, [0, 0], |answer| mft_list_runs(list, 3, words, 8, answer));
    }
}

#[test]
fn calls_on_tables_write_their_answer_alone() {
    let (list, row) = (LIST.as_ptr(), ROW.as_ptr());
    let mut words = [0; 30];
    let words = words.as_mut_ptr();
    // SAFETY: every pointer is valid for the size that goes with it, and `answer` overlaps none of them.
    unsafe {
        assert_answers(0, [0], |answer| mft_table_check(row, 5, 1, answer));
        assert_answers(11, [0], |answer| mft_table_check(row, 5, 2, answer));
        assert_answers(0, [0, 7, 1], |answer| mft_table_lookup(row, 5, 1, 10 << 24, answer));
        assert_answers(11, [0, 0, 0], |answer| mft_table_lookup(row, 5, 2, 10 << 24, answer));
        assert_answers(0, [0, 1], |answer| mft_table_build(list, 3, words, 5, answer));
        assert_answers(9, [0, 0], |answer| mft_table_build(list, 3, words, 4, answer));
        assert_answers(0, [0, 1], |answer| mft_table_save(row, 5, 1, words, 3, answer));
        assert_answers(9, [0, 0], |answer| mft_table_save(row, 5, 1, words, 2, answer));
        assert_answers(0, [0, 3], |answer| mft_table_runs(row, 5, 1, words, 9, answer));
        assert_answers(9, [0, 0], |answer| mft_table_runs(row, 5, 1, words, 8, answer));
    }
}

#[test]
fn calls_on_images_write_their_answer_alone() {
    let list = LIST.as_ptr();
    let (mut nodes, mut ports) = ([0; 30], [0; 60]);
    let (nodes, ports) = (nodes.as_mut_ptr(), ports.as_mut_ptr());
    // SAFETY: every pointer is valid for the size that goes with it, and `answer` overlaps none of them.
    unsafe {
        assert_answers(9, [0, 0, 0], |answer| mft_image_build(4, list, 3, nodes, 3, ports, 60, answer));
        assert_answers(0, [0, 2, 31], |answer| mft_image_build(4, list, 3, nodes, 4, ports, 31, answer));
        assert_answers(0, [0, 7, 2], |answer| mft_image_lookup(4, nodes, 4, ports, 31, 10 << 24, answer));
        assert_answers(12, [0, 0, 0], |answer| mft_image_lookup(3, nodes, 4, ports, 31, 10 << 24, answer));
        assert_answers(0, [0, 7, 2], |answer| mft_image_lookup_4(nodes, 4, ports, 31, 10 << 24, answer));
        assert_answers(11, [0, 0, 1], |answer| mft_image_lookup_4(nodes, 3, ports, 31, 10 << 24, answer));
        assert_answers(11, [0, 0, 0], |answer| mft_image_lookup_1(nodes, 0, ports, 31, 10 << 24, answer));
        assert_answers(11, [0, 0, 0], |answer| mft_image_lookup_2(nodes, 0, ports, 31, 10 << 24, answer));
    }
}

#[test]
fn calls_on_segment_tables_write_their_answer_alone() {
    let (list, of_17_bits) = (LIST.as_ptr(), LIST_OF_17_BITS.as_ptr());
    let (mut first, mut packed) = (vec![0; 65_536], [0; 96]);
    let (first, packed) = (first.as_mut_ptr(), packed.as_mut_ptr());
    let (mut plain, mut last) = ([0; 1], [0; 1]);
    let (plain, last) = (plain.as_mut_ptr(), last.as_mut_ptr());
    // SAFETY: every pointer is valid for the size that goes with it, and `answer` overlaps none of them.
    unsafe {
        let build = |list, first_count, packed_count, answer| {
            mft_segments_build(list, 3, first, first_count, packed, packed_count, plain, 1, last, 1, answer)
        };
        let lookup = |first_count, packed_count, address, answer| {
            mft_segments_lookup(first, first_count, packed, packed_count, plain, 1, last, 1, address, answer)
        };
        assert_answers(9, [0, 0, 0, 0], |answer| build(list, 65_535, 96, answer));
        assert_answers(0, [0, 0, 0, 0], |answer| build(list, 65_536, 96, answer));
        assert_answers(0, [0, 7, 1], |answer| lookup(65_536, 96, 10 << 24, answer));
        assert_answers(9, [0, 0, 0, 0], |answer| build(of_17_bits, 65_536, 95, answer));
        assert_answers(0, [0, 1, 0, 0], |answer| build(of_17_bits, 65_536, 96, answer));
        assert_answers(0, [0, 7, 3], |answer| lookup(65_536, 96, 10 << 24, answer));
        assert_answers(11, [0, 0, 1], |answer| lookup(65_536, 95, 10 << 24, answer));
        assert_answers(11, [0, 0, 0], |answer| lookup(65_535, 96, 10 << 24, answer));
        assert_answers(0, [0, 32, 64], |answer| mft_segments_entries(packed, 96, plain, 1, 32_768, answer));
        assert_answers(0, [0, 0, 0], |answer| mft_segments_entries(packed, 96, plain, 1, 49_152, answer));
    }
}

#[test]
fn calls_that_look_many_addresses_up_write_their_answer_alone() {
    let (nodes, mut ports) = ([0x7FFF, 1, 0xFFFF, 1], [0; 31]);
    // Fifteen leaves of the root, and then slot 10 of the other node.
    ports[15 + 10] = 7;
    let mut first = vec![0; 65_536];
    first[0x0A00..0x0B00].fill(7);
    let addresses = [10 << 24, 0];
    let (mut out, no_block) = ([0; 2], [0; 1]);
    let (nodes, ports, first, no_block) = (nodes.as_ptr(), ports.as_ptr(), first.as_ptr(), no_block.as_ptr());
    let (addresses, out) = (addresses.as_ptr(), out.as_mut_ptr());
    // SAFETY: every pointer is valid for the size that goes with it, and `answer` overlaps none of them.
    unsafe {
        let in_image = |stride, words, count, room, answer| {
            mft_image_lookup_many(stride, nodes, words, ports, 31, addresses, count, out, room, answer)
        };
        assert_answers(0, [0, 0], |answer| in_image(4, 4, 2, 2, answer));
        assert_answers(0, [0, 1], |answer| in_image(4, 3, 2, 2, answer));
        assert_answers(0, [0, 0], |answer| in_image(4, 0, 0, 0, answer));
        assert_answers(9, [0, 0], |answer| in_image(4, 3, 2, 1, answer));
        assert_answers(12, [0, 0], |answer| in_image(3, 3, 2, 1, answer));
        let in_segments = |size, count, room, answer| {
            let [packed, plain, last] = [no_block; 3];
            mft_segments_lookup_many(first, size, packed, 0, plain, 0, last, 0, addresses, count, out, room, answer)
        };
        assert_answers(0, [0, 0], |answer| in_segments(65_536, 2, 2, answer));
        assert_answers(0, [0, 1], |answer| in_segments(65_535, 2, 2, answer));
        assert_answers(0, [0, 0], |answer| in_segments(0, 0, 0, answer));
        assert_answers(9, [0, 0], |answer| in_segments(65_535, 2, 1, answer));
    }
}

#[test]
fn the_call_that_writes_a_message_writes_its_answer_alone() {
    let list = LIST.as_ptr();
    let mut bytes = [0; 30];
    let bytes = bytes.as_mut_ptr();
    // SAFETY: every pointer is valid for the size that goes with it, and `answer` overlaps none of them.
    unsafe {
        assert_answers(0, [0, 25], |answer| mft_message_write(list, 3, bytes, 30, answer));
        assert_answers(9, [0, 0], |answer| mft_message_write(list, 3, bytes, 24, answer));
        assert_answers(3, [0, 0], |answer| mft_message_write(list, 2, bytes, 30, answer));
    }
}

/// The row of the one route, and its counts.
fn table() -> ([u32; 5], [u64; COUNTS]) {
    let mut counts = [0; COUNTS];
    counts[0] = (1 << 32) - (1 << 24);
    counts[7] = 1 << 24;
    (ROW, counts)
}

#[test]
fn calls_on_counts_write_their_answer_alone() {
    let (row, message) = (ROW.as_ptr(), MESSAGE.as_ptr());
    // SAFETY: every pointer is valid for the size that goes with it, and `answer` overlaps none of them.
    unsafe {
        let make = |n, room, answer| mft_counts_make(row, 5, n, table().1.as_mut_ptr(), room, answer);
        assert_answers(0, [0], |answer| make(1, COUNTS, answer));
        assert_answers(9, [0], |answer| make(1, COUNTS - 1, answer));
        assert_answers(11, [0], |answer| make(2, COUNTS, answer));
        let announce = |n, port, room, answer| {
            let (mut rows, mut counts) = table();
            let (rows, counts) = (rows.as_mut_ptr(), counts.as_mut_ptr());
            mft_counted_announce(rows, 5, n, 10 << 24, 8, port, counts, room, answer)
        };
        assert_answers(0, [0, 1], |answer| announce(1, 9, COUNTS, answer));
        assert_answers(9, [0, 1], |answer| announce(1, 9, COUNTS - 1, answer));
        assert_answers(6, [0, 1], |answer| announce(1, 0, COUNTS, answer));
        assert_answers(11, [0, 2], |answer| announce(2, 9, COUNTS, answer));
        let withdraw = |n, length, room, answer| {
            let (mut rows, mut counts) = table();
            let (rows, counts) = (rows.as_mut_ptr(), counts.as_mut_ptr());
            mft_counted_withdraw(rows, 5, n, 10 << 24, length, counts, room, answer)
        };
        assert_answers(0, [0, 0], |answer| withdraw(1, 8, COUNTS, answer));
        assert_answers(9, [0, 1], |answer| withdraw(1, 8, COUNTS - 1, answer));
        assert_answers(10, [0, 1], |answer| withdraw(1, 9, COUNTS, answer));
        assert_answers(11, [0, 0], |answer| withdraw(0, 8, COUNTS, answer));
        let apply = |size, port, n, room, answer| {
            let (mut rows, mut counts) = table();
            let (rows, counts) = (rows.as_mut_ptr(), counts.as_mut_ptr());
            mft_counted_message(message, size, port, rows, 5, n, counts, room, answer)
        };
        assert_answers(0, [0, 0], |answer| apply(25, 7, 1, COUNTS, answer));
        assert_answers(9, [0, 1], |answer| apply(25, 7, 1, COUNTS - 1, answer));
        assert_answers(14, [0, 1], |answer| apply(22, 7, 1, COUNTS, answer));
        assert_answers(14, [16, 1], |answer| apply(24, 7, 1, COUNTS, answer));
        assert_answers(6, [0, 1], |answer| apply(25, 0, 1, COUNTS, answer));
        assert_answers(11, [0, 2], |answer| apply(25, 7, 2, COUNTS, answer));
    }
}
