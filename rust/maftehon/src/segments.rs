//! Segment tables: entries by the first sixteen bits, the third octet and the fourth, built afresh from a list and
//! read-only.

use crate::calls::{self, Reply};
use crate::list::RouteList;
use crate::refusal::Refusal;
use crate::route::Found;
use std::net::Ipv4Addr;

/// Entries of the first table, one for each value of the first sixteen bits.
const FIRST_ENTRIES: usize = 1 << 16;
/// Words of a packed segment: thirty-two codewords, then 64 entries.
const PACKED_WORDS: usize = 96;
/// Entries of a plain segment, and of a last block.
const OCTET_ENTRIES: usize = 256;
/// The least entry of the first table that names a plain segment.
const PLAIN_FIRST: u16 = 49_152;

/// The segment tables of a list, for the old line cards.
///
/// ```
/// use maftehon::{RouteList, SegmentTables};
/// use std::net::Ipv4Addr;
///
/// let list = RouteList::from_routes(&["10.0.0.0/8 7".parse()?, "10.1.128.0/17 9".parse()?])?;
/// let tables = SegmentTables::build(&list);
/// let found = tables.lookup(Ipv4Addr::new(10, 2, 3, 4));
/// assert_eq!((found.port, found.read), (Some(7), 1));
/// let found = tables.lookup(Ipv4Addr::new(10, 1, 200, 4));
/// assert_eq!((found.port, found.read), (Some(9), 3));
/// # Ok::<(), Box<dyn std::error::Error>>(())
/// ```
#[derive(Clone, PartialEq, Eq, Debug)]
pub struct SegmentTables {
    first: Vec<u16>,
    packed: Vec<u16>,
    plain: Vec<u16>,
    last: Vec<u16>,
}

impl SegmentTables {
    /// The segment tables of a list.
    pub fn build(list: &RouteList) -> SegmentTables {
        // Every segment has a route of its own, and so has every last block.
        let blocks_last = list.len();
        let mut first = vec![0; FIRST_ENTRIES];
        let mut packed = vec![0; blocks_last * PACKED_WORDS];
        let mut plain = vec![0; blocks_last * OCTET_ENTRIES];
        let mut last = vec![0; blocks_last * OCTET_ENTRIES];
        let [_, packed_count, plain_count, last_count] =
            calls::segments_build(list.words(), &mut first, &mut packed, &mut plain, &mut last).done();
        cut(&mut packed, packed_count as usize * PACKED_WORDS);
        cut(&mut plain, plain_count as usize * OCTET_ENTRIES);
        cut(&mut last, last_count as usize * OCTET_ENTRIES);
        SegmentTables { first, packed, plain, last }
    }

    /// The port of the longest match, and the words read, at most four.
    #[inline]
    pub fn lookup(&self, address: Ipv4Addr) -> Found {
        Found::of(calls::segments_lookup(&self.first, &self.packed, &self.plain, &self.last, address.into()).done())
    }

    /// The port of each address, all in one call; 0 where no route matches. Addresses and ports are bare numbers, as they
    /// are to [`Image::lookup_many`](crate::Image::lookup_many), which says why.
    ///
    /// ```
    /// use maftehon::{RouteList, SegmentTables};
    /// use std::net::Ipv4Addr;
    ///
    /// let list = RouteList::from_routes(&["10.0.0.0/8 7".parse()?, "10.1.128.0/17 9".parse()?])?;
    /// let tables = SegmentTables::build(&list);
    /// let measured = [Ipv4Addr::new(10, 1, 200, 4), Ipv4Addr::new(11, 0, 0, 0), Ipv4Addr::new(10, 2, 3, 4)];
    /// let addresses: Vec<u32> = measured.into_iter().map(u32::from).collect();
    /// assert_eq!(tables.lookup_many(&addresses), [9, 0, 7]);
    /// # Ok::<(), Box<dyn std::error::Error>>(())
    /// ```
    pub fn lookup_many(&self, addresses: &[u32]) -> Vec<u16> {
        let mut ports = vec![0; addresses.len()];
        self.look_many(addresses, &mut ports).done();
        ports
    }

    /// [`SegmentTables::lookup_many`] into memory that the caller has, and can use again: the first elements of `ports`,
    /// as many as there are addresses. The rest stays as it was.
    ///
    /// ```
    /// use maftehon::{Refusal, RouteList, SegmentTables};
    ///
    /// let tables = SegmentTables::build(&RouteList::from_routes(&["10.0.0.0/8 7".parse()?])?);
    /// let mut ports = [1; 3];
    /// tables.lookup_many_into(&[0x0A01_0203, 0x0B00_0000], &mut ports)?;
    /// assert_eq!(ports, [7, 0, 1]);
    /// assert_eq!(tables.lookup_many_into(&[0; 4], &mut ports), Err(Refusal::NoRoom));
    /// # Ok::<(), Box<dyn std::error::Error>>(())
    /// ```
    ///
    /// # Errors
    ///
    /// - 9, [`Refusal::NoRoom`]: there are more addresses than `ports` has elements.
    pub fn lookup_many_into(&self, addresses: &[u32], ports: &mut [u16]) -> Result<(), Refusal> {
        self.look_many(addresses, ports).of_whole()?;
        Ok(())
    }

    /// Built tables have no lookup that answers 11, so none of the elements is 65,535.
    fn look_many(&self, addresses: &[u32], out: &mut [u16]) -> Reply<2> {
        calls::segments_lookup_many(&self.first, &self.packed, &self.plain, &self.last, addresses, out)
    }

    /// The entries of the segment of these first sixteen bits, where they stand: all 256 of a plain one, all 64 of a
    /// packed one, and none where there is no segment.
    ///
    /// ```
    /// use maftehon::{RouteList, SegmentTables};
    ///
    /// let tables = SegmentTables::build(&RouteList::from_routes(&["10.1.128.0/17 9".parse()?])?);
    /// // 10.1 is packed: port 0 up to the third octet 127, and port 9 from there on.
    /// let entries = tables.entries(0x0A01);
    /// assert_eq!((&entries[..3], entries.len()), (&[0, 9, 0][..], 64));
    /// assert!(tables.entries(0x0A02).is_empty());
    /// # Ok::<(), Box<dyn std::error::Error>>(())
    /// ```
    pub fn entries(&self, first_bits: u16) -> &[u16] {
        let entry = self.first[usize::from(first_bits)];
        let [_, offset, count] = calls::segments_entries(&self.packed, &self.plain, entry.into()).done();
        let store = if entry < PLAIN_FIRST { &self.packed } else { &self.plain };
        &store[offset as usize..][..count as usize]
    }

    /// How many packed segments there are.
    pub fn packed_count(&self) -> usize {
        self.packed.len() / PACKED_WORDS
    }

    /// How many plain segments there are.
    pub fn plain_count(&self) -> usize {
        self.plain.len() / OCTET_ENTRIES
    }

    /// How many last blocks there are.
    pub fn last_count(&self) -> usize {
        self.last.len() / OCTET_ENTRIES
    }
}

/// Keeps so many words of a store, and their memory alone.
fn cut(store: &mut Vec<u16>, words: usize) {
    store.truncate(words);
    store.shrink_to_fit();
}
