//! A route library as a value: one function for each call of the C boundary.

use maftehon::calls::{self, Reply};
use reference::Answer;

/// Stride, nodes, ports, addresses, out.
pub type ImageLookupMany = fn(u32, &[u32], &[u16], &[u32], &mut [u16]) -> Answer<2>;
/// First, packed, plain and last, addresses, out.
pub type SegmentsLookupMany = fn([&[u16]; 4], &[u32], &mut [u16]) -> Answer<2>;
/// Rows, n, value, length, port, counts.
pub type CountedAnnounce = fn(&mut [u32], u32, u32, u32, u32, &mut [u64]) -> Answer<2>;
/// Message, port, rows, n, counts.
pub type CountedMessage = fn(&[u8], u32, &mut [u32], u32, &mut [u64]) -> Answer<2>;

/// The calls of the boundary. A wrong library, to try the comparison itself, is `Library { call: .., ..REFERENCE }`.
pub struct Library {
    pub file_read: fn(&[u8], &mut [u32]) -> Answer<2>,
    pub file_write: fn(&[u32], &mut [u8]) -> Answer<2>,
    pub list_check: fn(&[u32]) -> Answer<1>,
    pub list_scan: fn(&[u32], u32) -> Answer<2>,
    pub table_check: fn(&[u32], u32) -> Answer<1>,
    pub table_lookup: fn(&[u32], u32, u32) -> Answer<3>,
    pub table_build: fn(&[u32], &mut [u32]) -> Answer<2>,
    pub table_save: fn(&[u32], u32, &mut [u32]) -> Answer<2>,
    pub image_build: fn(u32, &[u32], &mut [u32], &mut [u16]) -> Answer<3>,
    pub image_lookup: fn(u32, &[u32], &[u16], u32) -> Answer<3>,
    /// The lookup whose stride is a constant, 1, 2 or 4.
    pub image_lookup_constant: fn(u32, &[u32], &[u16], u32) -> Answer<3>,
    pub list_runs: fn(&[u32], &mut [u32]) -> Answer<2>,
    pub table_runs: fn(&[u32], u32, &mut [u32]) -> Answer<2>,
    /// The stores are first, packed, plain and last.
    pub segments_build: fn(&[u32], [&mut [u16]; 4]) -> Answer<4>,
    pub segments_lookup: fn([&[u16]; 4], u32) -> Answer<3>,
    /// The stores are packed and plain.
    pub segments_entries: fn([&[u16]; 2], u32) -> Answer<3>,
    pub image_lookup_many: ImageLookupMany,
    pub segments_lookup_many: SegmentsLookupMany,
    pub message_write: fn(&[u32], &mut [u8]) -> Answer<2>,
    pub counts_make: fn(&[u32], u32, &mut [u64]) -> Answer<1>,
    pub counted_announce: CountedAnnounce,
    pub counted_withdraw: fn(&mut [u32], u32, u32, u32, &mut [u64]) -> Answer<2>,
    pub counted_message: CountedMessage,
}

/// The rules in plain Rust, which have one image lookup for every stride.
pub const REFERENCE: Library = Library {
    file_read: reference::file_read,
    file_write: reference::file_write,
    list_check: reference::list_check,
    list_scan: reference::list_scan,
    table_check: reference::table_check,
    table_lookup: reference::table_lookup,
    table_build: reference::table_build,
    table_save: reference::table_save,
    image_build: reference::image_build,
    image_lookup: reference::image_lookup,
    image_lookup_constant: reference::image_lookup,
    list_runs: reference::list_runs,
    table_runs: reference::table_runs,
    segments_build: |list, [first, packed, plain, last]| reference::segments_build(list, first, packed, plain, last),
    segments_lookup: |[first, packed, plain, last], address| {
        reference::segments_lookup(first, packed, plain, last, address)
    },
    segments_entries: |[packed, plain], entry| reference::segments_entries(packed, plain, entry),
    image_lookup_many: reference::image_lookup_many,
    segments_lookup_many: |[first, packed, plain, last], addresses, out| {
        reference::segments_lookup_many(first, packed, plain, last, addresses, out)
    },
    message_write: reference::message_write,
    counts_make: reference::counts_make,
    counted_announce: reference::counted_announce,
    counted_withdraw: reference::counted_withdraw,
    counted_message: reference::counted_message,
};

/// The proved library, through its C boundary.
pub const PROVED: Library = Library {
    file_read: |file, list| of(calls::file_read(file, list)),
    file_write: |list, file| of(calls::file_write(list, file)),
    list_check: |list| of(calls::list_check(list)),
    list_scan: |list, address| of(calls::list_scan(list, address)),
    table_check: |rows, n| of(calls::table_check(rows, n)),
    table_lookup: |rows, n, address| of(calls::table_lookup(rows, n, address)),
    table_build: |list, rows| of(calls::table_build(list, rows)),
    table_save: |rows, n, list| of(calls::table_save(rows, n, list)),
    image_build: |stride, list, nodes, ports| of(calls::image_build(stride, list, nodes, ports)),
    image_lookup: |stride, nodes, ports, address| of(calls::image_lookup(stride, nodes, ports, address)),
    image_lookup_constant: |stride, nodes, ports, address| {
        let lookup = match stride {
            1 => calls::image_lookup_1,
            2 => calls::image_lookup_2,
            4 => calls::image_lookup_4,
            _ => panic!("there is no lookup of the constant stride {stride}"),
        };
        of(lookup(nodes, ports, address))
    },
    list_runs: |list, runs| of(calls::list_runs(list, runs)),
    table_runs: |rows, n, runs| of(calls::table_runs(rows, n, runs)),
    segments_build: |list, [first, packed, plain, last]| of(calls::segments_build(list, first, packed, plain, last)),
    segments_lookup: |[first, packed, plain, last], address| {
        of(calls::segments_lookup(first, packed, plain, last, address))
    },
    segments_entries: |[packed, plain], entry| of(calls::segments_entries(packed, plain, entry)),
    image_lookup_many: |stride, nodes, ports, addresses, out| {
        of(calls::image_lookup_many(stride, nodes, ports, addresses, out))
    },
    segments_lookup_many: |[first, packed, plain, last], addresses, out| {
        of(calls::segments_lookup_many(first, packed, plain, last, addresses, out))
    },
    message_write: |list, message| of(calls::message_write(list, message)),
    counts_make: |rows, n, counts| of(calls::counts_make(rows, n, counts)),
    counted_announce: |rows, n, value, length, port, counts| {
        of(calls::counted_announce(rows, n, value, length, port, counts))
    },
    counted_withdraw: |rows, n, value, length, counts| of(calls::counted_withdraw(rows, n, value, length, counts)),
    counted_message: |message, port, rows, n, counts| of(calls::counted_message(message, port, rows, n, counts)),
};

fn of<const N: usize>(reply: Reply<N>) -> Answer<N> {
    Answer { number: reply.number, answer: reply.answer }
}
