//! Addresses to look up by the million: from anywhere, from inside routes, and as measurements come.

use crate::random::Random;
use crate::routes::{first_bits_of, Held, Prefix};

/// How addresses are drawn.
#[derive(Clone, Copy, PartialEq, Eq, Debug)]
pub enum Addresses {
    /// Each from anywhere.
    Uniform,
    /// Each from anywhere inside a route, and every route is as likely.
    InsideRoutes,
    /// In bursts of neighbours: a station inside a route measures, and then another one.
    Measurements,
}

const WHOLE_SPACE: Prefix = (0, 0);
/// The most measurements of a burst.
const BURST_LAST: usize = 64;
/// Bits that neighbours share, so that a station has sixteen addresses.
const STATION_LENGTH: u32 = 28;

impl Addresses {
    pub const ALL: [Addresses; 3] = [Addresses::Uniform, Addresses::InsideRoutes, Addresses::Measurements];

    pub fn name(self) -> &'static str {
        match self {
            Addresses::Uniform => "uniform",
            Addresses::InsideRoutes => "inside routes",
            Addresses::Measurements => "as measurements come",
        }
    }

    /// That many addresses for lookups in a set, which has a route.
    pub fn draw(self, random: &mut Random, held: &Held, count: usize) -> Vec<u32> {
        let routes: Vec<Prefix> = held.keys().copied().collect();
        let mut addresses = Vec::with_capacity(count + BURST_LAST);
        while addresses.len() < count {
            let (from, burst) = self.burst(random, &routes);
            addresses.extend((0..burst).map(|_| inside(random, from)));
        }
        addresses.truncate(count);
        addresses
    }

    /// The prefix that the next addresses come from, and how many they are.
    fn burst(self, random: &mut Random, routes: &[Prefix]) -> (Prefix, usize) {
        match self {
            Addresses::Uniform => (WHOLE_SPACE, 1),
            Addresses::InsideRoutes => (random.pick(routes), 1),
            Addresses::Measurements => (station(random, routes), 1 + random.index(BURST_LAST)),
        }
    }
}

/// Sixteen addresses of a route, or all that it has.
fn station(random: &mut Random, routes: &[Prefix]) -> Prefix {
    let route = random.pick(routes);
    let length = STATION_LENGTH.max(route.1);
    (first_bits_of(inside(random, route), length), length)
}

/// Any address of a prefix.
fn inside(random: &mut Random, (value, length): Prefix) -> u32 {
    value | (random.word() & !first_bits_of(u32::MAX, length))
}
