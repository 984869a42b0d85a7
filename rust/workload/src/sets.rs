//! Sets of routes of the shapes that matter: like the Internet's table, nested, full length, neighbouring, crowded.

use crate::random::Random;
use crate::routes::{first_bits_of, Held, Prefix};

/// The shape of a set of routes.
#[derive(Clone, Copy, PartialEq, Eq, Debug)]
pub enum Kind {
    /// Lengths spread as in a table of the Internet, mostly 24 bits, some inside others.
    InternetLike,
    /// Every length from 0 to 32 along random addresses: the deepest tries, and the most nested matches.
    NestedChains,
    /// Routes of 32 bits spread over the space: the largest images.
    FullLength,
    /// Prefixes side by side with equal ports: runs that join.
    Neighbours,
    /// Like the Internet's, with two ports.
    FewPorts,
    /// Short and long prefixes that crowd at few places.
    Crowded,
}

/// Of a thousand routes, how many have each length: after the lengths seen in the Internet's tables.
const INTERNET_LENGTHS: [(u32, u32); 14] = [
    (24, 600),
    (22, 105),
    (23, 95),
    (21, 45),
    (20, 45),
    (19, 30),
    (16, 20),
    (18, 15),
    (17, 10),
    (32, 10),
    (28, 10),
    (14, 7),
    (12, 5),
    (8, 3),
];

impl Kind {
    pub const ALL: [Kind; 6] =
        [Kind::InternetLike, Kind::NestedChains, Kind::FullLength, Kind::Neighbours, Kind::FewPorts, Kind::Crowded];

    pub fn name(self) -> &'static str {
        match self {
            Kind::InternetLike => "internet-like",
            Kind::NestedChains => "nested chains",
            Kind::FullLength => "all /32",
            Kind::Neighbours => "neighbours",
            Kind::FewPorts => "few ports",
            Kind::Crowded => "crowded",
        }
    }

    /// A set of exactly that many routes; every shape has more than 4,096 prefixes to draw from.
    pub fn routes(self, random: &mut Random, count: usize) -> Held {
        let mut held = Held::new();
        while held.len() < count {
            for (prefix, port) in self.some(random, &held) {
                // Those held already do not count.
                if held.len() < count {
                    held.insert(prefix, port);
                }
            }
        }
        held
    }

    /// A few routes more, some of them perhaps held already.
    fn some(self, random: &mut Random, held: &Held) -> Vec<(Prefix, u32)> {
        match self {
            Kind::InternetLike => vec![(internet_prefix(random, held), any_port(random))],
            Kind::NestedChains => chain(random),
            Kind::FullLength => vec![((random.word(), 32), any_port(random))],
            Kind::Neighbours => neighbours(random),
            Kind::FewPorts => vec![(internet_prefix(random, held), 1 + random.below(2))],
            Kind::Crowded => vec![(random.prefix(), random.port())],
        }
    }
}

fn any_port(random: &mut Random) -> u32 {
    1 + random.below(4094)
}

/// A third lie inside a prefix that is there already, as customers' routes do.
fn internet_prefix(random: &mut Random, held: &Held) -> Prefix {
    let length = internet_length(random);
    let any = random.word();
    let around = held.range((any, 0)..).next().filter(|_| random.below(3) == 0);
    let value = match around {
        Some(((value, outer), _)) if *outer < length => value | (any & !first_bits_of(u32::MAX, *outer)),
        _ => any,
    };
    (first_bits_of(value, length), length)
}

fn internet_length(random: &mut Random) -> u32 {
    let mut left = random.below(1000);
    for (length, share) in INTERNET_LENGTHS {
        if left < share {
            return length;
        }
        left -= share;
    }
    unreachable!("the shares are a thousand")
}

/// All 33 prefixes of one address.
fn chain(random: &mut Random) -> Vec<(Prefix, u32)> {
    let address = random.word();
    (0..=32).map(|length| ((first_bits_of(address, length), length), any_port(random))).collect()
}

/// Up to eight prefixes of one length side by side, all with one port.
fn neighbours(random: &mut Random) -> Vec<(Prefix, u32)> {
    let length = 8 + random.below(25);
    let (first, port) = (first_bits_of(random.word(), length), random.port());
    let step = 1 << (32 - length);
    (0..=random.below(8)).map(|number| ((first.wrapping_add(number * step), length), port)).collect()
}
