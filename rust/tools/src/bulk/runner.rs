//! Who looks the addresses up: each has the same ones before it, and gives all their ports in one pass.

use crate::bench::subject::Subject;
use maftehon::calls::{self, Reply};

#[derive(Clone, Copy, PartialEq, Eq, Debug)]
pub enum Runner {
    /// The plain trie.
    Trie,
    /// An image at stride 4, by a call for each address that has the stride in its name.
    Constant,
    /// The same image, by a call for each address that is told the stride.
    General,
    /// The same image, by one call for all addresses.
    Many,
    /// Segment tables, by one call for all addresses.
    Segments,
}

/// Stands for the port where a lookup is refused; no port is as large.
pub const REFUSED: u16 = u16::MAX;

impl Runner {
    pub const ALL: [Runner; 5] = [Runner::Trie, Runner::Constant, Runner::General, Runner::Many, Runner::Segments];
    /// Those of the proved library.
    pub const PROVED: [Runner; 4] = [Runner::Constant, Runner::General, Runner::Many, Runner::Segments];

    pub fn name(self) -> &'static str {
        match self {
            Runner::Trie => "trie",
            Runner::Constant => "stride 4",
            Runner::General => "stride 4, general call",
            Runner::Many => "stride 4, one call for all",
            Runner::Segments => "segment tables, one call for all",
        }
    }

    /// Looks every address up, and leaves its port in its place.
    pub fn pass(self, subject: &Subject, addresses: &[u32], out: &mut [u16]) {
        let Subject { trie, images: [.., (nodes, ports)], segments: [first, packed, plain, last], .. } = subject;
        match self {
            Runner::Trie => one_by_one(addresses, out, |address| trie.lookup(address) as u16),
            Runner::Constant => {
                one_by_one(addresses, out, |address| port_of(calls::image_lookup_4(nodes, ports, address)))
            }
            Runner::General => {
                one_by_one(addresses, out, |address| port_of(calls::image_lookup(4, nodes, ports, address)))
            }
            Runner::Many => {
                calls::image_lookup_many(4, nodes, ports, addresses, out);
            }
            Runner::Segments => {
                calls::segments_lookup_many(first, packed, plain, last, addresses, out);
            }
        }
    }
}

fn one_by_one(addresses: &[u32], out: &mut [u16], lookup: impl Fn(u32) -> u16) {
    for (port, address) in out.iter_mut().zip(addresses) {
        *port = lookup(*address);
    }
}

/// As the calls for all addresses have it; a program must look at the number too.
fn port_of(found: Reply<3>) -> u16 {
    match found.number {
        0 => found.answer[1] as u16,
        _ => REFUSED,
    }
}
