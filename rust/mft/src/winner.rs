//! Which route decides about an address, asked of the library.

use maftehon::{Route, RouteList};
use std::net::Ipv4Addr;

/// Two digits of this base number 4,096 routes.
const BASE: u32 = 64;

/// A list whose routes can be told apart by what a lookup answers.
///
/// A lookup answers a port, and two routes may have one port. So the routes are given their own numbers in place of
/// their ports, and the longest match, which the library finds, answers its number. There are 4,096 numbers and 4,094
/// ports: hence two digits of base 64, in two lists with the prefixes of the first. Both have the same longest match,
/// and the two ports that they answer are the digits of its number.
pub struct Labelled {
    routes: Vec<Route>,
    high: RouteList,
    low: RouteList,
}

impl Labelled {
    /// The routes of this list, numbered.
    pub fn of(list: &RouteList) -> Labelled {
        let high = relabelled(list, |number| number / BASE);
        let low = relabelled(list, |number| number % BASE);
        Labelled { routes: list.routes().collect(), high, low }
    }

    /// The route that decides about the address; none where no route matches.
    pub fn winner(&self, address: Ipv4Addr) -> Option<Route> {
        let [high, low] = [&self.high, &self.low].map(|list| list.scan(address).map(digit_of));
        let number = high? * BASE + low?;
        self.routes.get(number as usize).copied()
    }
}

/// The list with a digit of each route's number in place of its port.
fn relabelled(list: &RouteList, digit: impl Fn(u32) -> u32) -> RouteList {
    let labelled =
        |(number, route): (u32, Route)| [route.address().into(), route.length().into(), port_of(digit(number))];
    let words = (0..).zip(list.routes()).flat_map(labelled).collect();
    RouteList::from_words(words).expect("a valid list stays valid with other ports from 1 to 64")
}

/// Port 0 means that there is no route, so that digit 0 is port 1.
fn port_of(digit: u32) -> u32 {
    digit + 1
}

fn digit_of(port: u16) -> u32 {
    u32::from(port) - 1
}
