//! The runners of the bulk race give every address the same port; otherwise it would measure nothing.

use tools::bulk::Course;
use workload::{Addresses, Kind};

const ADDRESSES: usize = 3000;

#[test]
fn the_runners_agree_in_every_set_on_every_kind_of_addresses() {
    for kind in Kind::ALL {
        for drawn in Addresses::ALL {
            let measured = Course::new(kind, drawn, ADDRESSES).race(1);
            assert_eq!(measured.err(), None);
        }
    }
    assert_eq!(Course::of_first_steps(ADDRESSES).race(1).err(), None);
}

#[test]
fn a_wrong_port_and_a_lookup_that_is_refused_are_told() {
    for wrong in [9, u16::MAX] {
        let mut course = Course::new(Kind::FewPorts, Addresses::InsideRoutes, ADDRESSES);
        let [.., (_, ports)] = &mut course.subject.images;
        ports.fill(wrong);
        let difference = course.race(1).err().expect("the image and the trie differ");
        assert!(difference.contains(&format!("has port {wrong} by stride 4")), "{difference}");
    }
}
