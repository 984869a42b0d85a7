//! What a race goes over: a set of 4,096 routes with what is built of it, and the addresses asked for.

use crate::bench::subject::{some_of, Subject};
use maftehon::ROUTES_LAST;
use workload::{Addresses, Kind, Prefix, Random};

/// Another seed than those of the sets.
const SEED: u64 = 4_000_000;
/// No prefix of the upper half of the space is before it.
const UPPER_HALF: Prefix = (1 << 31, 0);

pub struct Course {
    pub set: &'static str,
    /// How the addresses are drawn.
    pub drawn: &'static str,
    pub subject: Subject,
    pub addresses: Vec<u32>,
}

impl Course {
    /// So many addresses, drawn in this way, and the set of this shape.
    pub fn new(kind: Kind, drawn: Addresses, count: usize) -> Course {
        let held = crate::full_set(kind);
        let addresses = drawn.draw(&mut Random::new(SEED), &held, count);
        Course { set: kind.name(), drawn: drawn.name(), subject: Subject::of(held), addresses }
    }

    /// The best course for a plain trie: all routes lie in one half of the space and all addresses in the other, so that
    /// it leaves at its first step.
    pub fn of_first_steps(count: usize) -> Course {
        let upper_half = Kind::InternetLike.routes(&mut Random::new(0), 3 * ROUTES_LAST).split_off(&UPPER_HALF);
        let held = some_of(&upper_half, ROUTES_LAST);
        let anywhere = Addresses::Uniform.draw(&mut Random::new(SEED), &held, count);
        Course {
            set: "internet-like, in the upper half",
            drawn: "uniform in the lower half",
            subject: Subject::of(held),
            addresses: anywhere.into_iter().map(|address| address >> 1).collect(),
        }
    }
}
