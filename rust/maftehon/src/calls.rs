//! The calls of the C boundary on slices, one for one: lent memory in, the refusal number and the words of `answer`
//! out.
//!
//! SAFETY, once for every `unsafe` block below: the boundary asks that each pointer is valid for its size, aligned and
//! not null, and that neither `answer` nor memory to be written overlaps anything else. A slice's pointer is all of the
//! first even where the slice is empty, its length counts elements as the boundary does, a `&mut` slice overlaps no
//! other slice, and `answer` is a fresh array of the size that the header states. The library keeps no pointer after
//! the call.
//!
//! The lookups are so short that they are inlined: nothing comes between a program and the library. What the calls on
//! counts take of the stack is much, and the header says how much.

use maftehon_sys as sys;

/// What a call answers: its number, 0 where it is done, and the words of `answer`, the place first.
#[derive(Clone, Copy, PartialEq, Eq, Debug)]
pub struct Reply<const N: usize> {
    /// 0, or the number of the refusal.
    pub number: u32,
    /// The place, then the results that the call names.
    pub answer: [u32; N],
}

/// The reply of a call that fills the `answer` that it is lent.
fn reply<const N: usize>(call: impl FnOnce(*mut u32) -> u32) -> Reply<N> {
    let mut answer = [0; N];
    let number = call(answer.as_mut_ptr());
    Reply { number, answer }
}

/// Reads a route file into a list. Answer: place, routes read.
pub fn file_read(file: &[u8], list: &mut [u32]) -> Reply<2> {
    reply(|answer| unsafe { sys::mft_file_read(file.as_ptr(), file.len(), list.as_mut_ptr(), list.len(), answer) })
}

/// Writes a list as a route file. Answer: place, bytes written.
pub fn file_write(list: &[u32], file: &mut [u8]) -> Reply<2> {
    reply(|answer| unsafe { sys::mft_file_write(list.as_ptr(), list.len(), file.as_mut_ptr(), file.len(), answer) })
}

/// Checks a list. Answer: place.
pub fn list_check(list: &[u32]) -> Reply<1> {
    reply(|answer| unsafe { sys::mft_list_check(list.as_ptr(), list.len(), answer) })
}

/// The plain scan of a list. Answer: place, port.
pub fn list_scan(list: &[u32], address: u32) -> Reply<2> {
    reply(|answer| unsafe { sys::mft_list_scan(list.as_ptr(), list.len(), address, answer) })
}

/// Checks that a table is in good order. Answer: place.
pub fn table_check(rows: &[u32], n: u32) -> Reply<1> {
    reply(|answer| unsafe { sys::mft_table_check(rows.as_ptr(), rows.len(), n, answer) })
}

/// Looks an address up in any rows. Answer: place, port, rows read.
#[inline]
pub fn table_lookup(rows: &[u32], n: u32, address: u32) -> Reply<3> {
    reply(|answer| unsafe { sys::mft_table_lookup(rows.as_ptr(), rows.len(), n, address, answer) })
}

/// Builds a table from a list. Answer: place, n.
pub fn table_build(list: &[u32], rows: &mut [u32]) -> Reply<2> {
    reply(|answer| unsafe { sys::mft_table_build(list.as_ptr(), list.len(), rows.as_mut_ptr(), rows.len(), answer) })
}

/// Saves a table as a list. Answer: place, routes.
pub fn table_save(rows: &[u32], n: u32, list: &mut [u32]) -> Reply<2> {
    reply(|answer| unsafe { sys::mft_table_save(rows.as_ptr(), rows.len(), n, list.as_mut_ptr(), list.len(), answer) })
}

/// Builds an image from a list. Answer: place, nodes, ports written.
pub fn image_build(stride: u32, list: &[u32], nodes: &mut [u32], ports: &mut [u16]) -> Reply<3> {
    let (node_words, port_count) = (nodes.len(), ports.len());
    let (nodes, ports) = (nodes.as_mut_ptr(), ports.as_mut_ptr());
    reply(|answer| unsafe {
        sys::mft_image_build(stride, list.as_ptr(), list.len(), nodes, node_words, ports, port_count, answer)
    })
}

/// Looks an address up in any image. Answer: place, port, nodes read.
#[inline]
pub fn image_lookup(stride: u32, nodes: &[u32], ports: &[u16], address: u32) -> Reply<3> {
    reply(|answer| unsafe {
        sys::mft_image_lookup(stride, nodes.as_ptr(), nodes.len(), ports.as_ptr(), ports.len(), address, answer)
    })
}

/// [`image_lookup`] at stride 1. Answer: place, port, nodes read.
#[inline]
pub fn image_lookup_1(nodes: &[u32], ports: &[u16], address: u32) -> Reply<3> {
    reply(|answer| unsafe {
        sys::mft_image_lookup_1(nodes.as_ptr(), nodes.len(), ports.as_ptr(), ports.len(), address, answer)
    })
}

/// [`image_lookup`] at stride 2. Answer: place, port, nodes read.
#[inline]
pub fn image_lookup_2(nodes: &[u32], ports: &[u16], address: u32) -> Reply<3> {
    reply(|answer| unsafe {
        sys::mft_image_lookup_2(nodes.as_ptr(), nodes.len(), ports.as_ptr(), ports.len(), address, answer)
    })
}

/// [`image_lookup`] at stride 4. Answer: place, port, nodes read.
#[inline]
pub fn image_lookup_4(nodes: &[u32], ports: &[u16], address: u32) -> Reply<3> {
    reply(|answer| unsafe {
        sys::mft_image_lookup_4(nodes.as_ptr(), nodes.len(), ports.as_ptr(), ports.len(), address, answer)
    })
}

/// Lists the runs of a list. Answer: place, runs.
pub fn list_runs(list: &[u32], runs: &mut [u32]) -> Reply<2> {
    reply(|answer| unsafe { sys::mft_list_runs(list.as_ptr(), list.len(), runs.as_mut_ptr(), runs.len(), answer) })
}

/// Lists the runs of a table. Answer: place, runs.
pub fn table_runs(rows: &[u32], n: u32, runs: &mut [u32]) -> Reply<2> {
    reply(|answer| unsafe { sys::mft_table_runs(rows.as_ptr(), rows.len(), n, runs.as_mut_ptr(), runs.len(), answer) })
}

/// Builds segment tables from a list. Answer: place, packed segments, plain segments, last blocks.
pub fn segments_build(
    list: &[u32],
    first: &mut [u16],
    packed: &mut [u16],
    plain: &mut [u16],
    last: &mut [u16],
) -> Reply<4> {
    reply(|answer| unsafe {
        sys::mft_segments_build(
            list.as_ptr(),
            list.len(),
            first.as_mut_ptr(),
            first.len(),
            packed.as_mut_ptr(),
            packed.len(),
            plain.as_mut_ptr(),
            plain.len(),
            last.as_mut_ptr(),
            last.len(),
            answer,
        )
    })
}

/// Looks an address up in any segment tables. Answer: place, port, reads.
#[inline]
pub fn segments_lookup(first: &[u16], packed: &[u16], plain: &[u16], last: &[u16], address: u32) -> Reply<3> {
    reply(|answer| unsafe {
        sys::mft_segments_lookup(
            first.as_ptr(),
            first.len(),
            packed.as_ptr(),
            packed.len(),
            plain.as_ptr(),
            plain.len(),
            last.as_ptr(),
            last.len(),
            address,
            answer,
        )
    })
}

/// Where the entries of the segment stand that an entry of the first table names: in `plain` if it is 49,152 or more,
/// else in `packed`. Answer: place, offset, how many.
pub fn segments_entries(packed: &[u16], plain: &[u16], entry: u32) -> Reply<3> {
    reply(|answer| unsafe {
        sys::mft_segments_entries(packed.as_ptr(), packed.len(), plain.as_ptr(), plain.len(), entry, answer)
    })
}

/// Looks many addresses up in any image: the port of each in the element of `out` with its number, or 65,535 where
/// [`image_lookup`] answers 11. Answer: place, 1 if some element is 65,535, else 0.
pub fn image_lookup_many(stride: u32, nodes: &[u32], ports: &[u16], addresses: &[u32], out: &mut [u16]) -> Reply<2> {
    reply(|answer| unsafe {
        sys::mft_image_lookup_many(
            stride,
            nodes.as_ptr(),
            nodes.len(),
            ports.as_ptr(),
            ports.len(),
            addresses.as_ptr(),
            addresses.len(),
            out.as_mut_ptr(),
            out.len(),
            answer,
        )
    })
}

/// Looks many addresses up in any segment tables: the port of each in the element of `out` with its number, or 65,535
/// where [`segments_lookup`] answers 11. Answer: place, 1 if some element is 65,535, else 0.
pub fn segments_lookup_many(
    first: &[u16],
    packed: &[u16],
    plain: &[u16],
    last: &[u16],
    addresses: &[u32],
    out: &mut [u16],
) -> Reply<2> {
    reply(|answer| unsafe {
        sys::mft_segments_lookup_many(
            first.as_ptr(),
            first.len(),
            packed.as_ptr(),
            packed.len(),
            plain.as_ptr(),
            plain.len(),
            last.as_ptr(),
            last.len(),
            addresses.as_ptr(),
            addresses.len(),
            out.as_mut_ptr(),
            out.len(),
            answer,
        )
    })
}

/// Writes the UPDATE message that withdraws the prefixes of a list. Answer: place, bytes written.
pub fn message_write(list: &[u32], message: &mut [u8]) -> Reply<2> {
    reply(|answer| unsafe {
        sys::mft_message_write(list.as_ptr(), list.len(), message.as_mut_ptr(), message.len(), answer)
    })
}

/// Makes the counts of a table afresh: how many addresses have no route, and how many go to each port 1..4094. What is
/// lent past these 4,095 is neither read nor written, by the updates below too. Answer: place.
pub fn counts_make(rows: &[u32], n: u32, counts: &mut [u64]) -> Reply<1> {
    reply(|answer| unsafe {
        sys::mft_counts_make(rows.as_ptr(), rows.len(), n, counts.as_mut_ptr(), counts.len(), answer)
    })
}

/// Announces a route, and rewrites the counts. Answer: place, n.
pub fn counted_announce(rows: &mut [u32], n: u32, value: u32, length: u32, port: u32, counts: &mut [u64]) -> Reply<2> {
    reply(|answer| unsafe {
        sys::mft_counted_announce(
            rows.as_mut_ptr(),
            rows.len(),
            n,
            value,
            length,
            port,
            counts.as_mut_ptr(),
            counts.len(),
            answer,
        )
    })
}

/// Withdraws a prefix, and rewrites the counts. Answer: place, n.
pub fn counted_withdraw(rows: &mut [u32], n: u32, value: u32, length: u32, counts: &mut [u64]) -> Reply<2> {
    reply(|answer| unsafe {
        sys::mft_counted_withdraw(
            rows.as_mut_ptr(),
            rows.len(),
            n,
            value,
            length,
            counts.as_mut_ptr(),
            counts.len(),
            answer,
        )
    })
}

/// Applies an UPDATE message to a table, its announced prefixes with this port, and rewrites the counts.
/// Answer: place, n.
pub fn counted_message(message: &[u8], port: u32, rows: &mut [u32], n: u32, counts: &mut [u64]) -> Reply<2> {
    reply(|answer| unsafe {
        sys::mft_counted_message(
            message.as_ptr(),
            message.len(),
            port,
            rows.as_mut_ptr(),
            rows.len(),
            n,
            counts.as_mut_ptr(),
            counts.len(),
            answer,
        )
    })
}
