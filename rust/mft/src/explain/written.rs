//! The routes of a file as its bytes say them, for display alone: nothing here is checked.

use maftehon::{Route, RouteList};
use std::fmt;
use std::net::Ipv4Addr;

/// The bytes before the routes of a file.
const HEAD_BYTES: usize = 5;
const PORT_BYTES: usize = 2;
const BYTE_BITS: u8 = 8;
const LENGTH_LAST: u8 = 32;

/// A route as it is written in a file.
#[derive(Clone, Copy, PartialEq, Eq, Debug)]
pub struct Written<'a> {
    /// Its number, from 1.
    pub number: usize,
    /// The offset of its first byte.
    pub at: usize,
    /// Its bytes, as far as they are there.
    bytes: &'a [u8],
}

/// The routes of a file one after the other, each as long as its length byte says. Past a length above 32 it is not
/// known where they go on; what the library refuses comes no later than that.
pub fn routes_of(file: &[u8]) -> impl Iterator<Item = Written<'_>> {
    let mut at = HEAD_BYTES;
    (1..).map_while(move |number| {
        let rest = file.get(at..)?;
        let bytes = &rest[..rest.len().min(size(*rest.first()?))];
        let route = Written { number, at, bytes };
        at += bytes.len();
        Some(route)
    })
}

/// The bytes of a route of this length.
fn size(length: u8) -> usize {
    1 + prefix_bytes(length) + PORT_BYTES
}

fn prefix_bytes(length: u8) -> usize {
    usize::from(length.div_ceil(BYTE_BITS))
}

impl Written<'_> {
    /// The prefix length that its first byte says.
    pub fn length(&self) -> u8 {
        self.bytes.first().copied().unwrap_or_default()
    }

    /// How many bytes it has, and how many it would need.
    pub fn sizes(&self) -> (usize, usize) {
        (self.bytes.len(), size(self.length()))
    }

    /// Whether these are its bytes.
    pub fn is_written_as(&self, bytes: &[u8]) -> bool {
        self.bytes == bytes
    }

    /// Where its bytes stand in the file.
    pub fn place(&self) -> std::ops::Range<usize> {
        self.at..self.at + self.bytes.len()
    }

    /// The port, if all bytes are there.
    pub fn port(&self) -> Option<u16> {
        let port = self.bytes.get(1 + prefix_bytes(self.length())..)?;
        Some(u16::from_be_bytes(port.try_into().ok()?))
    }

    /// The address as it is written, with whatever spare bits are set.
    pub fn address(&self) -> Ipv4Addr {
        let mut octets = [0; 4];
        let prefix = self.bytes.iter().skip(1).take(prefix_bytes(self.length()));
        octets.iter_mut().zip(prefix).for_each(|(octet, byte)| *octet = *byte);
        octets.into()
    }

    /// The route that the library reads in a file of these bytes alone.
    pub fn read_alone(&self) -> Option<Route> {
        let size = u32::try_from(self.bytes.len()).ok()?;
        let file = [&[1], &size.to_be_bytes()[..], self.bytes].concat();
        RouteList::read(&file).ok()?.routes().next()
    }
}

impl fmt::Display for Written<'_> {
    /// `10.129.0.0/9 9, read as 10.128.0.0/9`, or as much as can be said.
    fn fmt(&self, formatter: &mut fmt::Formatter) -> fmt::Result {
        let (address, length) = (self.address(), self.length());
        match self.port() {
            _ if length > LENGTH_LAST => write!(formatter, "length {length}"),
            None => write!(formatter, "length {length}, cut off"),
            Some(port) => write!(formatter, "{address}/{length} {port}"),
        }?;
        match self.read_alone() {
            Some(route) if route.address() != address => write!(formatter, ", read as {}", route.prefix()),
            _ => Ok(()),
        }
    }
}
