//! A set of routes, its words as a list, and how many counts its table has.

use std::collections::BTreeMap;

/// Value and length.
pub type Prefix = (u32, u32);
/// A set of routes: the port of each prefix. Its order is that of a route list.
pub type Held = BTreeMap<Prefix, u32>;

/// The counts of a table, one for each port 0..4094. What is lent past them belongs to nothing.
pub const COUNTS: usize = 4095;

pub fn list_of(held: &Held) -> Vec<u32> {
    held.iter().flat_map(|((value, length), port)| [*value, *length, *port]).collect()
}

/// That many routes of length 32 with port 1, from address 0 up.
pub fn full_length_list(count: u32) -> Vec<u32> {
    (0..count).flat_map(|value| [value, 32, 1]).collect()
}

/// The value with its bits from the length on made zero.
pub fn first_bits_of(value: u32, length: u32) -> u32 {
    if length == 0 {
        return 0;
    }
    value >> (32 - length) << (32 - length)
}
