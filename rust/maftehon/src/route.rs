//! A route, a run of addresses, and what a lookup finds.

use crate::calls;
use crate::prefix::Prefix;
use crate::refusal::Refusal;
use std::fmt;
use std::net::Ipv4Addr;

/// Words of a route in a list: value, length, port.
pub(crate) const ROUTE_WORDS: usize = 3;
/// Words of a run: first address, last address, port.
pub(crate) const RUN_WORDS: usize = 3;

/// A prefix and the port that its addresses go to; always valid.
///
/// ```
/// use maftehon::{ParseError, Route};
/// use std::net::Ipv4Addr;
///
/// let route: Route = "10.1.0.0/16 9".parse()?;
/// assert_eq!(route, Route::new(Ipv4Addr::new(10, 1, 0, 0), 16, 9)?);
/// assert_eq!(route.to_string(), "10.1.0.0/16 9");
/// assert_eq!(Route::new(Ipv4Addr::new(10, 1, 0, 0), 8, 9).unwrap_err().number(), 5);
/// # Ok::<(), ParseError>(())
/// ```
#[derive(Clone, Copy, PartialEq, Eq, Hash, Debug)]
pub struct Route {
    prefix: Prefix,
    port: u16,
}

impl Route {
    /// The route of this prefix, by its address and its length, to this port.
    ///
    /// # Errors
    ///
    /// - 4, [`Refusal::LongPrefix`]: the length is above 32.
    /// - 5, [`Refusal::SpareBits`]: the address has bits set past the length.
    /// - 6, [`Refusal::WrongPort`]: the port is outside 1..4094.
    pub fn new(address: Ipv4Addr, length: u8, port: u16) -> Result<Route, Refusal> {
        Route::checked(address, u32::from(length), u32::from(port))
    }

    /// [`Route::new`] for a length and a port of any size.
    pub(crate) fn checked(address: Ipv4Addr, length: u32, port: u32) -> Result<Route, Refusal> {
        let words = [address.into(), length, port];
        calls::list_check(&words).of_whole()?;
        Ok(Route::of_words(&words))
    }

    /// The prefix.
    pub fn prefix(self) -> Prefix {
        self.prefix
    }

    /// The first address of the prefix.
    pub fn address(self) -> Ipv4Addr {
        self.prefix.address()
    }

    /// The prefix length, 0..32.
    pub fn length(self) -> u8 {
        self.prefix.length()
    }

    /// The port, 1..4094.
    pub fn port(self) -> u16 {
        self.port
    }

    /// A route of a list that has been checked.
    pub(crate) fn of_words(words: &[u32]) -> Route {
        Route { prefix: Prefix::of_words(words[0], words[1]), port: words[2] as u16 }
    }

    /// Value, length and port.
    pub(crate) fn words(self) -> [u32; ROUTE_WORDS] {
        let [value, length] = self.prefix.words();
        [value, length, self.port.into()]
    }
}

/// A longest run of neighbouring addresses that go to one port.
#[derive(Clone, Copy, PartialEq, Eq, Debug)]
pub struct Run {
    /// The first address.
    pub first: Ipv4Addr,
    /// The last address.
    pub last: Ipv4Addr,
    /// The port; none where no route matches.
    pub port: Option<u16>,
}

impl Run {
    /// The runs that a listing has written.
    pub(crate) fn all_of(words: &[u32]) -> Vec<Run> {
        let run = |run: &[u32]| Run { first: run[0].into(), last: run[1].into(), port: port_of(run[2]) };
        words.chunks(RUN_WORDS).map(run).collect()
    }
}

impl fmt::Display for Run {
    fn fmt(&self, formatter: &mut fmt::Formatter) -> fmt::Result {
        write!(formatter, "{} {} {}", self.first, self.last, self.port.unwrap_or(0))
    }
}

/// What a lookup finds.
#[derive(Clone, Copy, PartialEq, Eq, Debug)]
pub struct Found {
    /// The port of the longest match; none where no route matches.
    pub port: Option<u16>,
    /// The rows, the nodes, or the words of segment tables, read on the way.
    pub read: u32,
}

impl Found {
    pub(crate) fn of([_, port, read]: [u32; 3]) -> Found {
        Found { port: port_of(port), read }
    }
}

/// Port 0 means that there is no route.
pub(crate) fn port_of(word: u32) -> Option<u16> {
    Some(word as u16).filter(|port| *port != 0)
}
