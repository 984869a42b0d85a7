//! Plain segment tables in C (`plain_segments.c`): built from a list that is taken to be valid, and looked up as the
//! library's are, or without a check.

use maftehon::calls::Reply;
use maftehon::RouteList;
use workload::segments::{room_for, Stores};

type Store = *const u16;

/// What a lookup in C is lent: each store and its length, the address, and three words for the answer.
type Lookup = unsafe extern "C" fn(Store, usize, Store, usize, Store, usize, Store, usize, u32, *mut u32) -> u32;

extern "C" {
    fn plain_segments_build(
        list: *const u32,
        list_words: usize,
        first: *mut u16,
        packed: *mut u16,
        plain: *mut u16,
        last: *mut u16,
        blocks: *mut u32,
    );
    fn plain_segments_lookup(
        first: *const u16,
        first_count: usize,
        packed: *const u16,
        packed_count: usize,
        plain: *const u16,
        plain_count: usize,
        last: *const u16,
        last_count: usize,
        address: u32,
        answer: *mut u32,
    ) -> u32;
    fn plain_segments_lookup_unchecked(
        first: *const u16,
        first_count: usize,
        packed: *const u16,
        packed_count: usize,
        plain: *const u16,
        plain_count: usize,
        last: *const u16,
        last_count: usize,
        address: u32,
        answer: *mut u32,
    ) -> u32;
}

/// Builds the tables of a list, and gives how many packed segments, plain segments and last blocks they have.
///
/// # Panics
///
/// Where a store is shorter than [`room_for`] the routes, which is what the worst list needs.
pub fn build(list: &RouteList, stores: &mut Stores) -> [u32; 3] {
    let room = room_for(list.len());
    assert!(stores.iter().zip(room).all(|(store, room)| store.len() >= room), "too little room");
    let [first, packed, plain, last] = stores.each_mut().map(Vec::as_mut_ptr);
    let (words, mut blocks) = (list.words(), [0; 3]);
    // SAFETY: the list is valid, so that it makes no more blocks than it has routes, and no store is shorter than that
    // many; the pointers are those of vectors and of an array of three words; none is kept.
    unsafe { plain_segments_build(words.as_ptr(), words.len(), first, packed, plain, last, blocks.as_mut_ptr()) };
    blocks
}

/// Calls a lookup in C.
///
/// # Safety
///
/// The lookup keeps within the stores that it is lent.
#[inline(always)]
unsafe fn call(lookup: Lookup, [first, packed, plain, last]: [&[u16]; 4], address: u32) -> Reply<3> {
    let mut answer = [0; 3];
    // SAFETY: the pointers are those of slices, with their lengths, and of an array of three words; none is kept.
    let number = unsafe {
        lookup(
            first.as_ptr(),
            first.len(),
            packed.as_ptr(),
            packed.len(),
            plain.as_ptr(),
            plain.len(),
            last.as_ptr(),
            last.len(),
            address,
            answer.as_mut_ptr(),
        )
    };
    Reply { number, answer }
}

/// The answer of `calls::segments_lookup`.
pub fn lookup(first: &[u16], packed: &[u16], plain: &[u16], last: &[u16], address: u32) -> Reply<3> {
    // SAFETY: it compares every offset with the length of its store.
    unsafe { call(plain_segments_lookup, [first, packed, plain, last], address) }
}

/// The same without a check.
///
/// # Safety
///
/// The stores are those that a build has left for a valid list.
pub unsafe fn lookup_unchecked(first: &[u16], packed: &[u16], plain: &[u16], last: &[u16], address: u32) -> Reply<3> {
    // SAFETY: the entries of built stores name blocks that are in them.
    unsafe { call(plain_segments_lookup_unchecked, [first, packed, plain, last], address) }
}
