//! Rules, "Also run", and the round trips of the route file.

use crate::support::{
    announce, done, first_bits_of, full_length_list, list_of, prefix, refused, Random, UNTOUCHED, UNTOUCHED_BYTE,
};
use reference::{file_read, file_write, list_check, table_build, table_runs};
use workload::clear_spare_bits;

/// A file whose stated size is that of its body.
pub fn file_with(body: &[u8]) -> Vec<u8> {
    let mut file = vec![1];
    file.extend((body.len() as u32).to_be_bytes());
    file.extend(body);
    file
}

/// The routes of a file; panics on a refusal.
pub fn read(file: &[u8]) -> Vec<u32> {
    let mut list = vec![UNTOUCHED; 3 * 4096];
    let answer = file_read(file, &mut list);
    assert_eq!((answer.number, answer.answer[0]), (0, 0));
    let words = 3 * answer.answer[1] as usize;
    assert!(list[words..].iter().all(|word| *word == UNTOUCHED), "words past the routes are unchanged");
    list.truncate(words);
    list
}

/// The file of a list; panics on a refusal.
pub fn written(list: &[u32]) -> Vec<u8> {
    let mut file = vec![UNTOUCHED_BYTE; 5 + 7 * 4096];
    let answer = file_write(list, &mut file);
    assert_eq!((answer.number, answer.answer[0]), (0, 0));
    let bytes = answer.answer[1] as usize;
    assert!(file[bytes..].iter().all(|byte| *byte == UNTOUCHED_BYTE), "bytes past the file are unchanged");
    file.truncate(bytes);
    file
}

#[test]
fn length_32_is_accepted() {
    assert_eq!(list_check(&[7, 32, 1]), done([0]));
    assert_eq!(read(&file_with(&[32, 1, 2, 3, 4, 0, 1])), [0x0102_0304, 32, 1]);
    assert_eq!(announce(&mut [UNTOUCHED; 5], 0, 7, 32, 1), done([0, 1]));
}

#[test]
fn length_33_is_refused_4() {
    assert_eq!(list_check(&[0, 33, 1]), refused(4, [0]));
    assert_eq!(file_read(&file_with(&[33, 0, 0, 0, 0, 0, 0, 1]), &mut [0; 3]), refused(4, [5, 0]));
    assert_eq!(announce(&mut [UNTOUCHED; 5], 0, 0, 33, 1), refused(4, [0, 0]));
}

#[test]
fn ports_1_and_4094_are_accepted() {
    assert_eq!(list_check(&[0, 0, 1]), done([0]));
    assert_eq!(list_check(&[0, 0, 4094]), done([0]));
    assert_eq!(read(&file_with(&[0, 0x0F, 0xFE])), [0, 0, 4094]);
    assert_eq!(announce(&mut [UNTOUCHED; 5], 0, 0, 0, 4094), done([0, 1]));
}

#[test]
fn ports_0_and_4095_are_refused_6() {
    for port in [0, 4095] {
        assert_eq!(list_check(&[0, 0, port]), refused(6, [0]));
        assert_eq!(announce(&mut [UNTOUCHED; 5], 0, 0, 0, port), refused(6, [0, 0]));
    }
    assert_eq!(file_read(&file_with(&[0, 0x00, 0x00]), &mut [0; 3]), refused(6, [5, 0]));
    assert_eq!(file_read(&file_with(&[0, 0x0F, 0xFF]), &mut [0; 3]), refused(6, [5, 0]));
}

#[test]
fn routes_4096_are_accepted() {
    let list = full_length_list(4096);
    assert_eq!(list_check(&list), done([0]));
    assert_eq!(read(&written(&list)), list);
    let mut rows = vec![UNTOUCHED; 5 * 4097];
    assert_eq!(table_build(&list, &mut rows), done([0, 4096]));
    assert_eq!(rows[5 * 4096..], [UNTOUCHED; 5]);
    let mut runs = [UNTOUCHED; 6];
    assert_eq!(table_runs(&rows, 4096, &mut runs), done([0, 2]));
    assert_eq!(runs, [0, 4095, 1, 4096, u32::MAX, 0]);
}

#[test]
fn routes_4097_are_refused_8() {
    assert_eq!(list_check(&full_length_list(4097)), refused(8, [0]));
    let body: Vec<u8> = (0..4097u16).flat_map(|value| [32, 0, 0, (value >> 8) as u8, value as u8, 0, 1]).collect();
    let place = 5 + 4096 * 7;
    assert_eq!(file_read(&file_with(&body), &mut vec![0; 3 * 4097]), refused(8, [place, 0]));
}

#[test]
fn an_empty_file_is_refused_1() {
    assert_eq!(file_read(&[], &mut []), refused(1, [0, 0]));
}

#[test]
fn the_file_01_00_00_00_00_is_the_empty_list() {
    assert_eq!(file_read(&[1, 0, 0, 0, 0], &mut []), done([0, 0]));
    assert_eq!(written(&[]), [1, 0, 0, 0, 0]);
}

#[test]
fn a_route_of_length_0_has_no_prefix_byte() {
    assert_eq!(written(&[0, 0, 9]), [1, 0, 0, 0, 3, 0, 0, 9]);
}

#[test]
fn a_prefix_has_the_fewest_bytes_that_hold_its_bits() {
    let (value, _) = prefix("101");
    for (length, bytes) in [(3, 1), (8, 1), (9, 2), (16, 2), (17, 3), (24, 3), (25, 4), (32, 4)] {
        assert_eq!(written(&[value, length, 1]).len(), 5 + 1 + bytes + 2, "length {length}");
    }
}

#[test]
fn a_written_list_is_read_back() {
    for seed in 0..300 {
        let list = list_of(&Random::new(seed).held(60));
        assert_eq!(read(&written(&list)), list, "seed {seed}");
    }
}

/// Random bodies with every fault, most of them small enough to be accepted now and then.
fn random_file(random: &mut Random) -> Vec<u8> {
    let mut body = Vec::new();
    for high in 0..random.below(4) {
        let length = random.below(10);
        body.push(length as u8);
        let value = first_bits_of(high << 30 | random.word() >> 2, length);
        body.extend(&value.to_be_bytes()[..length.div_ceil(8) as usize]);
        body.extend([random.below(16) as u8, random.below(256) as u8]);
    }
    let mut file = file_with(&body);
    if random.below(3) == 0 {
        let at = random.below(file.len() as u32) as usize;
        file[at] = random.below(256) as u8;
    }
    file
}

#[test]
fn an_accepted_file_is_written_back_but_for_its_spare_bits() {
    let mut accepted = 0;
    for seed in 0..5000 {
        let mut file = random_file(&mut Random::new(seed));
        let mut list = [UNTOUCHED; 9];
        let answer = file_read(&file, &mut list);
        if answer.number == 0 {
            accepted += 1;
            clear_spare_bits(&mut file);
            assert_eq!(written(&list[..3 * answer.answer[1] as usize]), file, "seed {seed}");
        } else {
            assert_eq!(list, [UNTOUCHED; 9], "seed {seed}");
            assert_eq!(answer.answer[1], 0, "seed {seed}");
        }
    }
    assert!(accepted > 500, "too few accepted files to say anything: {accepted}");
}
