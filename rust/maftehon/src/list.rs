//! The route list: checked once, valid ever after.

use crate::calls;
use crate::refusal::Refusal;
use crate::route::{port_of, Route, Run, ROUTE_WORDS, RUN_WORDS};
use std::net::Ipv4Addr;

/// The most routes of a list, a file or a table.
pub const ROUTES_LAST: usize = 4096;

/// The bytes before the routes of a file, and the most bytes of a route there.
const FILE_HEAD_BYTES: usize = 5;
const FILE_ROUTE_BYTES_LAST: usize = 7;

/// The most bytes of a message.
const MESSAGE_BYTES_LAST: usize = 4096;

/// A valid route list: at most 4,096 routes, ascending by address, then by length.
///
/// ```
/// use maftehon::{Refusal, RouteList};
/// use std::net::Ipv4Addr;
///
/// // Version 1, nine bytes: 10.0.0.0/8 to port 7, and 10.0.0.0/16 to port 9.
/// let file = [1, 0, 0, 0, 9, 8, 10, 0, 7, 16, 10, 0, 0, 9];
/// let list = RouteList::read(&file)?;
/// assert_eq!(list.scan(Ipv4Addr::new(10, 0, 3, 4)), Some(9));
/// assert_eq!(list.scan(Ipv4Addr::new(11, 0, 0, 0)), None);
/// assert_eq!(list.runs().len(), 4);
/// assert_eq!(list.write(), file);
/// # Ok::<(), Refusal>(())
/// ```
#[derive(Clone, PartialEq, Eq, Debug, Default)]
pub struct RouteList {
    words: Vec<u32>,
}

impl RouteList {
    /// Takes words that make a valid list, three a route: value, length, port.
    ///
    /// # Errors
    ///
    /// - 3, [`Refusal::WrongSize`]: the words are no whole number of routes.
    /// - 8, [`Refusal::TooManyRoutes`]: there are more than 4,096 routes.
    ///
    /// Then the first route that is wrong, which is the place, and of its faults the first:
    ///
    /// - 4, [`Refusal::LongPrefix`]: the length is above 32.
    /// - 5, [`Refusal::SpareBits`]: the value has bits set past the length.
    /// - 6, [`Refusal::WrongPort`]: the port is outside 1..4094.
    /// - 7, [`Refusal::NotAbove`]: the route is not above the one before it.
    pub fn from_words(words: Vec<u32>) -> Result<RouteList, Refusal> {
        calls::list_check(&words).of_list()?;
        Ok(RouteList { words })
    }

    /// Takes routes in list order.
    ///
    /// # Errors
    ///
    /// - 8, [`Refusal::TooManyRoutes`]: there are more than 4,096 routes.
    /// - 7, [`Refusal::NotAbove`]: a route, which is the place, is not above the one before it.
    pub fn from_routes(routes: &[Route]) -> Result<RouteList, Refusal> {
        RouteList::from_words(routes.iter().flat_map(|route| route.words()).collect())
    }

    /// Reads a route file. Bits of an address past the length are cleared: [`RouteList::write`] gives the same bytes
    /// where they are zero, and otherwise the file with them cleared.
    ///
    /// ```
    /// use maftehon::{Refusal, RouteList};
    ///
    /// // 10.128.0.0/9 to port 7, with two of its seven spare bits set.
    /// let list = RouteList::read(&[1, 0, 0, 0, 5, 9, 10, 0b1000_0011, 0, 7])?;
    /// assert_eq!(list.write(), [1, 0, 0, 0, 5, 9, 10, 0b1000_0000, 0, 7]);
    /// # Ok::<(), Refusal>(())
    /// ```
    ///
    /// # Errors
    ///
    /// - 1, [`Refusal::ShortFile`]: there are under 5 bytes.
    /// - 2, [`Refusal::WrongVersion`]: the version byte is not 1.
    /// - 3, [`Refusal::WrongSize`]: the stated size is not that of the bytes that follow it.
    ///
    /// Then the first route that is wrong, whose first byte is the place, and of its faults the first:
    ///
    /// - 8, [`Refusal::TooManyRoutes`]: 4,096 routes stand before it.
    /// - 4, [`Refusal::LongPrefix`]: the length is above 32.
    /// - 3, [`Refusal::WrongSize`]: it runs past the end of the file.
    /// - 6, [`Refusal::WrongPort`]: the port is outside 1..4094.
    /// - 7, [`Refusal::NotAbove`]: the route is not above the one before it, both with those bits cleared.
    pub fn read(file: &[u8]) -> Result<RouteList, Refusal> {
        // A route takes three bytes at least and three words, so as many words as bytes are room enough.
        let mut words = vec![0; file.len().min(ROUTES_LAST * ROUTE_WORDS)];
        let [_, routes] = calls::file_read(file, &mut words).of_file()?;
        words.truncate(routes as usize * ROUTE_WORDS);
        Ok(RouteList { words })
    }

    /// The route file of this list.
    pub fn write(&self) -> Vec<u8> {
        let mut file = vec![0; FILE_HEAD_BYTES + self.len() * FILE_ROUTE_BYTES_LAST];
        let [_, bytes] = calls::file_write(&self.words, &mut file).done();
        file.truncate(bytes as usize);
        file
    }

    /// The UPDATE message of RFC 4271 that withdraws the prefixes of this list, and does nothing else.
    ///
    /// ```
    /// use maftehon::{RouteList, Table};
    ///
    /// let list = RouteList::from_routes(&["10.0.0.0/8 7".parse()?, "10.1.0.0/16 9".parse()?])?;
    /// let message = list.withdrawal()?;
    /// // The marker, 28 bytes in all, type 2, five bytes of withdrawn prefixes, and no attributes.
    /// assert_eq!(message[16..], [0, 28, 2, 0, 5, 8, 10, 16, 10, 1, 0, 0]);
    ///
    /// let mut table = Table::build(&list, 2)?;
    /// table.apply(&message, 1)?;
    /// assert!(table.is_empty());
    /// # Ok::<(), Box<dyn std::error::Error>>(())
    /// ```
    ///
    /// # Errors
    ///
    /// - 9, [`Refusal::NoRoom`]: the message would have over 4,096 bytes.
    pub fn withdrawal(&self) -> Result<Vec<u8>, Refusal> {
        let mut message = vec![0; MESSAGE_BYTES_LAST];
        let [_, bytes] = calls::message_write(&self.words, &mut message).of_list()?;
        message.truncate(bytes as usize);
        Ok(message)
    }

    /// The port of the longest route that matches, by going through all of them.
    pub fn scan(&self, address: Ipv4Addr) -> Option<u16> {
        let [_, port] = calls::list_scan(&self.words, address.into()).done();
        port_of(port)
    }

    /// The runs of the whole address space, ascending.
    pub fn runs(&self) -> Vec<Run> {
        let mut runs = room_for_runs(self.len());
        let [_, count] = calls::list_runs(&self.words, &mut runs).done();
        Run::all_of(&runs[..count as usize * RUN_WORDS])
    }

    /// The routes, in list order.
    pub fn routes(&self) -> impl Iterator<Item = Route> + '_ {
        self.words.chunks(ROUTE_WORDS).map(Route::of_words)
    }

    /// How many routes there are.
    pub fn len(&self) -> usize {
        self.words.len() / ROUTE_WORDS
    }

    /// Whether there is no route.
    pub fn is_empty(&self) -> bool {
        self.words.is_empty()
    }

    /// The words of the list: value, length, port of each route.
    pub fn words(&self) -> &[u32] {
        &self.words
    }
}

/// n routes make at most 2n+1 runs.
pub(crate) fn room_for_runs(routes: usize) -> Vec<u32> {
    vec![0; (2 * routes + 1) * RUN_WORDS]
}
