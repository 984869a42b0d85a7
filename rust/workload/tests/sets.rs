//! The route sets are what they are named for, and the same seed gives the same set.

use workload::{first_bits_of, Kind, Random};

#[test]
fn every_shape_gives_as_many_valid_routes_as_asked_for() {
    for kind in Kind::ALL {
        for count in [0, 1, 2, 100, 4096] {
            let held = kind.routes(&mut Random::new(count as u64), count);
            assert_eq!(held.len(), count, "{}", kind.name());
            for ((value, length), port) in held {
                assert!(length <= 32 && first_bits_of(value, length) == value, "{}", kind.name());
                assert!((1..=4094).contains(&port), "{}", kind.name());
            }
        }
    }
}

#[test]
fn the_same_seed_gives_the_same_set() {
    for kind in Kind::ALL {
        let set = || kind.routes(&mut Random::new(5), 300);
        assert_eq!(set(), set(), "{}", kind.name());
    }
}
