//! Rules, "Addresses, prefixes, the plain scan": the prefix type and the scan.

use crate::support::Random;
use reference::prefix::{plain_scan, Prefix, Route};

fn prefix(value: u32, length: u32) -> Prefix {
    Prefix::checked(value, length, 0).expect("a valid prefix")
}

#[test]
fn the_prefix_of_length_0_is_the_whole_address_space() {
    assert_eq!(Prefix::WHOLE, prefix(0, 0));
    assert_eq!(Prefix::WHOLE.first_address(), 0);
    assert_eq!(Prefix::WHOLE.last_address(), 4_294_967_295);
    assert!(Prefix::WHOLE.matches(0) && Prefix::WHOLE.matches(4_294_967_295));
}

#[test]
fn a_prefix_of_32_bits_is_one_address_without_halves() {
    let one = prefix(7, 32);
    assert_eq!((one.first_address(), one.last_address()), (7, 7));
    assert_eq!(one.halves(), None);
    assert!(one.matches(7) && !one.matches(6));
}

#[test]
fn the_halves_divide_a_prefix() {
    for seed in 0..500 {
        let (value, length) = Random::new(seed).prefix();
        let whole = prefix(value, length);
        let Some([left, right]) = whole.halves() else { continue };
        assert_eq!((left.length(), right.length()), (length + 1, length + 1), "seed {seed}");
        assert_eq!(left.first_address(), whole.first_address(), "seed {seed}");
        assert_eq!(left.last_address() + 1, right.first_address(), "seed {seed}");
        assert_eq!(right.last_address(), whole.last_address(), "seed {seed}");
    }
}

#[test]
fn a_prefix_matches_from_its_first_to_its_last_address() {
    for seed in 0..500 {
        let mut random = Random::new(seed);
        let (value, length) = random.prefix();
        let prefix = prefix(value, length);
        let near = [value, prefix.last_address(), value.wrapping_sub(1), prefix.last_address().wrapping_add(1)];
        for address in near.into_iter().chain([random.word()]) {
            let within = prefix.first_address() <= address && address <= prefix.last_address();
            assert_eq!(prefix.matches(address), within, "seed {seed} address {address}");
        }
    }
}

#[test]
fn the_plain_scan_takes_the_longest_match() {
    let routes = [(0, 0, 5), (0x0A00_0000, 8, 7), (0x0A01_0000, 16, 9)]
        .map(|(value, length, port)| Route::checked(value, length, port, 0).expect("a valid route"));
    assert_eq!(plain_scan(&routes, 0x0A01_0203), 9);
    assert_eq!(plain_scan(&routes, 0x0A02_0203), 7);
    assert_eq!(plain_scan(&routes, 0x0B01_0203), 5);
    assert_eq!(plain_scan(&routes[1..], 0x0B01_0203), 0);
}
