//! A prefix: the addresses that share their first bits.

use crate::refusal::Refusal;
use crate::route::Route;
use std::net::Ipv4Addr;

/// The library checks whole routes; with a port that is never refused, what it refuses is the prefix.
const VALID_PORT: u32 = 1;

/// An address and how many of its bits count; always valid. Prefixes stand in the order of a route list: by address,
/// then by length.
///
/// ```
/// use maftehon::{ParseError, Prefix};
/// use std::net::Ipv4Addr;
///
/// let prefix: Prefix = "10.20.1.0/24".parse()?;
/// assert_eq!(prefix, Prefix::new(Ipv4Addr::new(10, 20, 1, 0), 24)?);
/// assert_eq!(prefix.to_string(), "10.20.1.0/24");
/// # Ok::<(), ParseError>(())
/// ```
#[derive(Clone, Copy, PartialEq, Eq, PartialOrd, Ord, Hash, Debug)]
pub struct Prefix {
    address: Ipv4Addr,
    length: u8,
}

impl Prefix {
    /// The prefix of this address and length.
    ///
    /// # Errors
    ///
    /// - 4, [`Refusal::LongPrefix`]: the length is above 32.
    /// - 5, [`Refusal::SpareBits`]: the address has bits set past the length.
    pub fn new(address: Ipv4Addr, length: u8) -> Result<Prefix, Refusal> {
        Prefix::checked(address, u32::from(length))
    }

    /// [`Prefix::new`] for a length of any size.
    pub(crate) fn checked(address: Ipv4Addr, length: u32) -> Result<Prefix, Refusal> {
        Route::checked(address, length, VALID_PORT).map(Route::prefix)
    }

    /// Its first address.
    pub fn address(self) -> Ipv4Addr {
        self.address
    }

    /// How many bits count, 0..32.
    pub fn length(self) -> u8 {
        self.length
    }

    /// A prefix that has been checked.
    pub(crate) fn of_words(value: u32, length: u32) -> Prefix {
        Prefix { address: value.into(), length: length as u8 }
    }

    /// Value and length.
    pub(crate) fn words(self) -> [u32; 2] {
        [self.address.into(), self.length.into()]
    }
}
