//! Addresses, prefixes, routes and the plain scan: rules, "Addresses, prefixes, the plain scan".

use crate::refusal::{refuse, Refusal, LONG_PREFIX, SPARE_BITS, WRONG_PORT};

/// Bits of an address, and the longest prefix.
pub const WIDTH: u32 = 32;
pub const PORT_FIRST: u32 = 1;
pub const PORT_LAST: u32 = 4094;
/// Port 0 means "no route".
pub const NO_PORT: u32 = 0;

/// A value and a length; the bits of the value from the length on are zero. The derived order is that of a route
/// list: by value, then by length.
#[derive(Clone, Copy, PartialEq, Eq, PartialOrd, Ord, Debug)]
pub struct Prefix {
    value: u32,
    length: u32,
}

/// A prefix and a port.
#[derive(Clone, Copy, PartialEq, Eq, Debug)]
pub struct Route {
    pub prefix: Prefix,
    pub port: u32,
}

/// The first `count` bits as a number. The shift is on 64 bits because `count` may be 0.
fn first_bits(address: u32, count: u32) -> u64 {
    u64::from(address) >> (WIDTH - count)
}

/// The value with its bits from the length on made zero.
pub(crate) fn cleared(value: u32, length: u32) -> u32 {
    (first_bits(value, length) << (WIDTH - length)) as u32
}

/// Bit 0 is the most significant.
pub fn bit(address: u32, index: u32) -> usize {
    (address >> (WIDTH - 1 - index) & 1) as usize
}

/// The number that `count` bits of the address make, from bit `from` on.
pub(crate) fn bits_from(address: u32, from: u32, count: u32) -> u32 {
    address >> (WIDTH - from - count) & ((1 << count) - 1)
}

/// Whether the first `count` bits of two addresses agree.
pub fn agree(a: u32, b: u32, count: u32) -> bool {
    first_bits(a, count) == first_bits(b, count)
}

pub(crate) fn check_length(length: u32, place: u32) -> Result<(), Refusal> {
    if length > WIDTH {
        return refuse(LONG_PREFIX, place);
    }
    Ok(())
}

pub(crate) fn check_port(port: u32, place: u32) -> Result<(), Refusal> {
    if !(PORT_FIRST..=PORT_LAST).contains(&port) {
        return refuse(WRONG_PORT, place);
    }
    Ok(())
}

impl Prefix {
    /// The prefix of length 0: the whole address space.
    pub const WHOLE: Prefix = Prefix { value: 0, length: 0 };

    /// The prefix of this value and length.
    ///
    /// # Errors
    ///
    /// 4 for a length above 32, then 5 for bits past the length, both at `place`.
    pub fn checked(value: u32, length: u32, place: u32) -> Result<Prefix, Refusal> {
        check_length(length, place)?;
        if cleared(value, length) != value {
            return refuse(SPARE_BITS, place);
        }
        Ok(Prefix { value, length })
    }

    pub fn value(self) -> u32 {
        self.value
    }

    pub fn length(self) -> u32 {
        self.length
    }

    pub fn matches(self, address: u32) -> bool {
        agree(self.value, address, self.length)
    }

    /// Whether this prefix begins with the bits of `path`.
    pub fn begins_with(self, path: Prefix) -> bool {
        self.length >= path.length && path.matches(self.value)
    }

    pub fn first_address(self) -> u32 {
        self.value
    }

    pub fn last_address(self) -> u32 {
        self.value + (first_bits(u32::MAX, WIDTH - self.length) as u32)
    }

    /// The left and the right half; none at 32 bits.
    pub fn halves(self) -> Option<[Prefix; 2]> {
        if self.length == WIDTH {
            return None;
        }
        let length = self.length + 1;
        let right = self.value + (1 << (WIDTH - length));
        Some([Prefix { value: self.value, length }, Prefix { value: right, length }])
    }
}

impl Route {
    /// The route of this prefix to this port.
    ///
    /// # Errors
    ///
    /// 4 and 5 for its prefix, then 6 for a port outside 1..4094, each at `place`.
    pub fn checked(value: u32, length: u32, port: u32, place: u32) -> Result<Route, Refusal> {
        let prefix = Prefix::checked(value, length, place)?;
        check_port(port, place)?;
        Ok(Route { prefix, port })
    }
}

/// Of the routes that match, the port of the longest; 0 if none matches.
pub fn plain_scan(routes: &[Route], address: u32) -> u32 {
    let matching = routes.iter().filter(|route| route.prefix.matches(address));
    let longest = matching.max_by_key(|route| route.prefix.length);
    longest.map_or(NO_PORT, |route| route.port)
}
