//! Segment tables, built from a list, their lookup and the call for the debug page: rules, "Segment tables", "Lookup in
//! segment tables", "The entries of a segment".

use crate::list::routes_of;
use crate::prefix::{bits_from, Route, NO_PORT, PORT_LAST};
use crate::refusal::{check_room, refuse, write_out, Answer, Refusal, NOT_IN_ORDER};

/// Address bits that the first table goes by, and then a segment and a last block, an octet each.
const FIRST_BITS: u32 = 16;
const OCTET_BITS: u32 = 8;
const FIRST_ENTRIES: usize = 1 << FIRST_BITS;
/// Entries of a segment, which are all of a plain block, and entries of a last block.
const OCTET_ENTRIES: usize = 1 << OCTET_BITS;

/// A packed block: its codewords, then the entries that it keeps.
const CODEWORDS: usize = 32;
const KEPT_ENTRIES: usize = 64;
const PACKED_WORDS: usize = CODEWORDS + KEPT_ENTRIES;
/// Bits of the bitmap in a codeword; the rest of it is its base.
const CODEWORD_BITS: usize = 8;

/// Set in an entry that names a block.
const POINTER: u16 = 1 << 15;
/// Set besides, in the first table, where the block is a plain segment.
const PLAIN: u16 = 1 << 14;

/// The list checks, then 9 for each store in turn. Answer: place, packed segments, plain segments, last blocks.
pub fn segments_build(
    list: &[u32],
    first: &mut [u16],
    packed: &mut [u16],
    plain: &mut [u16],
    last: &mut [u16],
) -> Answer<4> {
    Answer::of(build_into(list, first, packed, plain, last), [0, 0, 0])
}

/// The port that the address reaches; 11 as the rules' lookup says. Answer: place, port, reads.
pub fn segments_lookup(first: &[u16], packed: &[u16], plain: &[u16], last: &[u16], address: u32) -> Answer<3> {
    let mut reads = 0;
    let port = search(first, packed, plain, last, address, &mut reads);
    Answer::of(port.map(|port| [port, reads]), [NO_PORT, reads])
}

/// Where the entries of the segment stand that an entry of the first table names. Answer: place, the offset of the
/// first of them in its store, and how many they are; none, at offset 0, where it names no segment in its store.
pub fn segments_entries(packed: &[u16], plain: &[u16], entry: u32) -> Answer<3> {
    Answer::of(Ok(entries_named(packed, plain, entry).unwrap_or([0, 0])), [0, 0])
}

fn build_into(
    list: &[u32],
    first: &mut [u16],
    packed: &mut [u16],
    plain: &mut [u16],
    last: &mut [u16],
) -> Result<[u32; 3], Refusal> {
    let routes = routes_of(list)?;
    check_room(first, FIRST_ENTRIES)?;
    let tables = Tables::of(routes);
    check_room(packed, tables.packed.len())?;
    check_room(plain, tables.plain.len())?;
    check_room(last, tables.last.len())?;
    write_out(&tables.first, first)?;
    write_out(&tables.packed, packed)?;
    write_out(&tables.plain, plain)?;
    write_out(&tables.last, last)?;
    let blocks = |store: &[u16], size: usize| (store.len() / size) as u32;
    Ok([
        blocks(&tables.packed, PACKED_WORDS),
        blocks(&tables.plain, OCTET_ENTRIES),
        blocks(&tables.last, OCTET_ENTRIES),
    ])
}

/// The addresses that have their first bits in common.
#[derive(Clone)]
struct Part {
    /// Of the routes that are no longer than these bits, the port of the longest that matches; 0 if none does.
    port: u32,
    /// The routes that are longer and begin with these bits, in list order.
    longer: Vec<Route>,
}

impl Part {
    /// All addresses: no bits in common. The route of length 0 stands with the longer ones until the first split.
    fn whole(routes: Vec<Route>) -> Part {
        Part { port: NO_PORT, longer: routes }
    }

    /// The parts that the next bits make of it, in address order.
    ///
    /// Of two routes that match one address the longer stands later in the list. So each route in turn gives its port
    /// to all parts that it reaches, over what they had, and in the end each has the port of its longest match.
    fn split(&self, used: u32, bits: u32) -> Vec<Part> {
        let mut parts = vec![Part { port: self.port, longer: Vec::new() }; 1 << bits];
        let number = |address| bits_from(address, used, bits) as usize;
        for route in &self.longer {
            let reached = number(route.prefix.first_address())..=number(route.prefix.last_address());
            if route.prefix.length() > used + bits {
                parts[*reached.start()].longer.push(*route);
            } else {
                parts[reached].iter_mut().for_each(|part| part.port = route.port);
            }
        }
        parts
    }
}

/// The four stores of a list, not yet written.
#[derive(Default)]
struct Tables {
    first: Vec<u16>,
    packed: Vec<u16>,
    plain: Vec<u16>,
    last: Vec<u16>,
}

impl Tables {
    fn of(routes: Vec<Route>) -> Tables {
        let mut tables = Tables::default();
        for part in Part::whole(routes).split(0, FIRST_BITS) {
            let entry = tables.first_entry(&part);
            tables.first.push(entry);
        }
        tables
    }

    /// A port, or a pointer to a segment exactly where a route longer than sixteen bits begins with these.
    fn first_entry(&mut self, part: &Part) -> u16 {
        if part.longer.is_empty() {
            return part.port as u16;
        }
        let octets = part.split(FIRST_BITS, OCTET_BITS);
        let entries: Vec<u16> = octets.iter().map(|part| self.segment_entry(part)).collect();
        let bitmap = bitmap_of(&entries);
        if ones(&bitmap) <= KEPT_ENTRIES {
            POINTER + add_block(&mut self.packed, &packed_block(&entries, &bitmap))
        } else {
            POINTER + PLAIN + add_block(&mut self.plain, &entries)
        }
    }

    /// A port, or a pointer to a last block exactly where a route longer than 24 bits begins with these.
    fn segment_entry(&mut self, part: &Part) -> u16 {
        if part.longer.is_empty() {
            return part.port as u16;
        }
        // No route is longer than 32 bits, so these parts have a port each.
        let octets = part.split(FIRST_BITS + OCTET_BITS, OCTET_BITS);
        let ports: Vec<u16> = octets.iter().map(|part| part.port as u16).collect();
        POINTER + add_block(&mut self.last, &ports)
    }
}

/// Adds a block to its store and gives its number: the blocks of each store are numbered from 0, in address order.
fn add_block(store: &mut Vec<u16>, block: &[u16]) -> u16 {
    let number = store.len() / block.len();
    store.extend(block);
    number as u16
}

/// "Bit i of a segment's bitmap is 1 if i is 0 or entry i differs from entry i-1."
fn bitmap_of(entries: &[u16]) -> Vec<bool> {
    (0..entries.len()).map(|i| i == 0 || entries[i] != entries[i - 1]).collect()
}

fn ones(bits: &[bool]) -> usize {
    bits.iter().filter(|bit| **bit).count()
}

/// Each codeword has eight bits of the bitmap, the lowest entry's highest, and then the ones before them. The entries
/// kept are those whose bit is 1, and unused ones are 0.
fn packed_block(entries: &[u16], bitmap: &[bool]) -> Vec<u16> {
    let codeword = |from: usize| {
        let bits = &bitmap[from..from + CODEWORD_BITS];
        let eight = bits.iter().fold(0, |eight, bit| eight << 1 | u16::from(*bit));
        eight << CODEWORD_BITS | ones(&bitmap[..from]) as u16
    };
    let mut block: Vec<u16> = (0..OCTET_ENTRIES).step_by(CODEWORD_BITS).map(codeword).collect();
    block.extend((0..OCTET_ENTRIES).filter(|i| bitmap[*i]).map(|i| entries[i]));
    block.resize(PACKED_WORDS, 0);
    block
}

/// What an entry of the first table is.
enum FirstEntry {
    Port(u16),
    /// The number of a packed segment.
    Packed(usize),
    /// The number of a plain segment.
    Plain(usize),
}

impl FirstEntry {
    fn of(entry: u16) -> FirstEntry {
        let number = usize::from(entry % PLAIN);
        match (entry & POINTER != 0, entry & PLAIN != 0) {
            (false, _) => FirstEntry::Port(entry),
            (true, false) => FirstEntry::Packed(number),
            (true, true) => FirstEntry::Plain(number),
        }
    }
}

fn search(
    first: &[u16],
    packed: &[u16],
    plain: &[u16],
    last: &[u16],
    address: u32,
    reads: &mut u32,
) -> Result<u32, Refusal> {
    if first.len() < FIRST_ENTRIES {
        return refuse(NOT_IN_ORDER, 0);
    }
    let octet = |used| bits_from(address, used, OCTET_BITS) as usize;
    let (third, fourth) = (octet(FIRST_BITS), octet(FIRST_BITS + OCTET_BITS));
    let first_entry = read(first, bits_from(address, 0, FIRST_BITS) as usize, reads);
    let entry = match FirstEntry::of(first_entry) {
        FirstEntry::Port(port) => return checked_port(port),
        FirstEntry::Packed(number) => packed_entry(block(packed, PACKED_WORDS, number)?, third, reads)?,
        FirstEntry::Plain(number) => read(block(plain, OCTET_ENTRIES, number)?, third, reads),
    };
    if entry & POINTER == 0 {
        return checked_port(entry);
    }
    let ports = block(last, OCTET_ENTRIES, usize::from(entry - POINTER))?;
    checked_port(read(ports, fourth, reads))
}

/// A word that is wrong counts as read too.
fn read(words: &[u16], at: usize, reads: &mut u32) -> u16 {
    *reads += 1;
    words[at]
}

/// The block of this number; 11 where the store does not have it whole, before anything of it is read.
fn block(store: &[u16], size: usize, number: usize) -> Result<&[u16], Refusal> {
    match store.chunks_exact(size).nth(number) {
        Some(block) => Ok(block),
        None => refuse(NOT_IN_ORDER, 0),
    }
}

/// The entry of a packed segment; 11 where its index, "base plus the ones through the entry's bit, less 1", is outside
/// 0..63.
fn packed_entry(block: &[u16], entry: usize, reads: &mut u32) -> Result<u16, Refusal> {
    let (codewords, kept) = block.split_at(CODEWORDS);
    let codeword = read(codewords, entry / CODEWORD_BITS, reads);
    let (bits, base) = (codeword >> CODEWORD_BITS, usize::from(codeword & 0xFF));
    // The lowest entry's bit is the highest.
    let through = bits >> (CODEWORD_BITS - 1 - entry % CODEWORD_BITS);
    match (base + through.count_ones() as usize).checked_sub(1) {
        Some(index) if index < KEPT_ENTRIES => Ok(read(kept, index, reads)),
        _ => refuse(NOT_IN_ORDER, 0),
    }
}

/// 11 for a port above 4094. In a last block a pointer is one too.
fn checked_port(entry: u16) -> Result<u32, Refusal> {
    let port = u32::from(entry);
    if port > PORT_LAST {
        return refuse(NOT_IN_ORDER, 0);
    }
    Ok(port)
}

/// The offset and the number of the entries of a segment: all 256 of a plain one, all 64 of a packed one.
fn entries_named(packed: &[u16], plain: &[u16], entry: u32) -> Option<[u32; 2]> {
    // An entry has sixteen bits, so a larger number names nothing.
    let (store, size, number, skipped) = match FirstEntry::of(u16::try_from(entry).ok()?) {
        FirstEntry::Port(_) => return None,
        FirstEntry::Packed(number) => (packed, PACKED_WORDS, number, CODEWORDS),
        FirstEntry::Plain(number) => (plain, OCTET_ENTRIES, number, 0),
    };
    block(store, size, number).ok()?;
    Some([(size * number + skipped) as u32, (size - skipped) as u32])
}
