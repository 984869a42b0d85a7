//! Spare bits are set, cleared and made where the rules have them, and nowhere else.

use std::collections::BTreeSet;
use workload::{clear_spare_bits, set_spare_bits, shorten_prefix, Random};

/// The file of routes that are given as bytes.
fn file_of(routes: &[&[u8]]) -> Vec<u8> {
    let body = routes.concat();
    [&[1], &(body.len() as u32).to_be_bytes()[..], &body].concat()
}

/// Routes of lengths 0, 1, 8, 12 and 25 with every bit of their prefix bytes set.
fn all_set() -> Vec<u8> {
    file_of(&[&[0, 0, 7], &[1, 0xFF, 0, 7], &[8, 0xFF, 0, 7], &[12, 0xFF, 0xFF, 0, 7], &[25, 255, 255, 255, 255, 0, 7]])
}

/// The same with the spare ones cleared: seven, four and seven, and none of lengths 0 and 8.
fn all_clear() -> Vec<u8> {
    file_of(&[&[0, 0, 7], &[1, 0x80, 0, 7], &[8, 0xFF, 0, 7], &[12, 0xFF, 0xF0, 0, 7], &[25, 255, 255, 255, 128, 0, 7]])
}

#[test]
fn the_spare_bits_and_no_others_are_cleared() {
    let mut file = all_set();
    clear_spare_bits(&mut file);
    assert_eq!(file, all_clear());
    clear_spare_bits(&mut file);
    assert_eq!(file, all_clear());
}

#[test]
fn each_spare_bit_and_no_other_is_set_now_and_then() {
    let mut ever_set = all_clear();
    for seed in 0..100 {
        let mut file = all_clear();
        set_spare_bits(&mut file, &mut Random::new(seed));
        ever_set.iter_mut().zip(&file).for_each(|(ever, byte)| *ever |= byte);
        clear_spare_bits(&mut file);
        assert_eq!(file, all_clear(), "seed {seed}");
    }
    assert_eq!(ever_set, all_set());
}

/// The lengths that a prefix of this length comes to have.
fn shortened(length: u8) -> BTreeSet<u8> {
    let file = file_of(&[&[length, 10, 20, 30, 40, 0, 7]]);
    let shorten = |seed| {
        let mut shorter = file.clone();
        shorten_prefix(&mut shorter, &mut Random::new(seed));
        shorter[5]
    };
    (0..100).map(shorten).collect()
}

#[test]
fn a_prefix_is_shortened_in_as_many_bytes() {
    assert_eq!(shortened(32), BTreeSet::from([25, 26, 27, 28, 29, 30, 31, 32]));
    assert_eq!(shortened(27), BTreeSet::from([25, 26, 27]));
    assert_eq!(shortened(25), BTreeSet::from([25]));
    assert_eq!(shortened(0), BTreeSet::from([0]));
}

#[test]
fn any_bytes_pass_for_a_file() {
    for seed in 0..1000 {
        let mut random = Random::new(seed);
        let mut file: Vec<u8> = (0..random.below(60)).map(|_| random.word() as u8).collect();
        set_spare_bits(&mut file, &mut random);
        shorten_prefix(&mut file, &mut random);
        clear_spare_bits(&mut file);
    }
}
