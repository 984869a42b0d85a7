//! The addresses are drawn as their names say, and the same seed gives the same ones.

use workload::{first_bits_of, Addresses, Held, Kind, Random};

const COUNT: usize = 10_000;

/// Addresses of each kind for a set of each shape.
fn drawn(addresses: Addresses) -> impl Iterator<Item = (Held, Vec<u32>)> {
    Kind::ALL.into_iter().map(move |kind| {
        let held = kind.routes(&mut Random::new(5), 300);
        let drawn = addresses.draw(&mut Random::new(6), &held, COUNT);
        (held, drawn)
    })
}

fn is_inside_a_route(held: &Held, address: u32) -> bool {
    (0..=32).any(|length| held.contains_key(&(first_bits_of(address, length), length)))
}

/// How often an address is no neighbour of the one before it: their first 28 bits differ.
fn moves(addresses: &[u32]) -> usize {
    addresses.windows(2).filter(|pair| pair[0] >> 4 != pair[1] >> 4).count()
}

#[test]
fn the_same_seed_gives_the_same_addresses_as_many_as_asked_for() {
    for addresses in Addresses::ALL {
        for ((_, some), (_, again)) in drawn(addresses).zip(drawn(addresses)) {
            assert!(some == again && some.len() == COUNT, "{}", addresses.name());
        }
    }
}

#[test]
fn those_inside_routes_and_the_measurements_lie_inside_a_route() {
    for addresses in [Addresses::InsideRoutes, Addresses::Measurements] {
        for (held, some) in drawn(addresses) {
            assert!(some.into_iter().all(|address| is_inside_a_route(&held, address)), "{}", addresses.name());
        }
    }
}

#[test]
fn measurements_come_in_bursts_of_neighbours_from_many_places() {
    for (_, some) in drawn(Addresses::Measurements) {
        // A burst has 32 or 33 on average. Now and then two follow each other in one place.
        assert!((COUNT / 64..COUNT / 24).contains(&moves(&some)), "{}", moves(&some));
    }
}

#[test]
fn uniform_addresses_are_no_neighbours_and_come_from_all_over() {
    for (_, some) in drawn(Addresses::Uniform) {
        assert!(moves(&some) > COUNT - 10);
        assert!((0..=255).all(|octet| some.iter().any(|address| address >> 24 == octet)));
    }
}
