//! Segment tables: built with every room and looked up at every end of a route, address by address and many in one
//! call; damaged; noise.

use super::{addresses, any_set, in_one_call, outs, rooms, some_damage};
use crate::checker::{Checker, Compared};
use workload::segments::{crowded_segment, cut_to, noise_stores, room_for, Stores};
use workload::{damage_list, damage_segments, first_bits_of, list_of, Held, Random};

/// Above them a list is refused.
const ROUTES_LAST: usize = 4096;
/// Of a large set, so many routes have their ends looked up.
const ENDS_LAST: usize = 200;

/// A set of any shape, and often a segment or two of many ones, side by side or apart.
fn any_segments(random: &mut Random, most: usize) -> Held {
    let mut held = any_set(random, most);
    let (mut first_bits, step) = (random.word() as u16, random.pick(&[1, 77]));
    for _ in 0..random.below(3) {
        let segment = crowded_segment(random, first_bits);
        if held.len() + segment.len() <= ROUTES_LAST {
            held.extend(segment);
        }
        first_bits = first_bits.wrapping_add(step);
    }
    held
}

/// The tables of a set, cut to what was written.
fn stores_of(checker: &mut Checker, held: &Held) -> Compared<Stores> {
    let (built, mut stores) = checker.segments_build(&list_of(held), room_for(held.len()))?;
    let [_, blocks @ ..] = built.answer;
    cut_to(&mut stores, blocks);
    Ok(stores)
}

/// The ends of routes and their neighbours, and addresses all over the segments that routes begin in.
fn interesting(random: &mut Random, held: &Held) -> Vec<u32> {
    let mut addresses = addresses(random, held, 40);
    for (value, length) in held.keys().step_by(1 + held.len() / ENDS_LAST) {
        let last = value | !first_bits_of(u32::MAX, *length);
        let any = value & 0xFFFF_0000 | random.below(1 << 16);
        addresses.extend([value.wrapping_sub(1), *value, last, last.wrapping_add(1), any]);
    }
    addresses
}

/// Entries of a first table: those that it has, the edges of the stores, ports, and more than sixteen bits.
fn entries(random: &mut Random, stores: &Stores) -> Vec<u32> {
    let [first, packed, plain, _] = stores;
    let past = [32_768 + packed.len() as u32 / 96, 49_152 + plain.len() as u32 / 256];
    let mut entries = vec![0, 4094, 4095, 32_767, 32_768, 49_151, 49_152, 65_535, 65_536, 98_304, 114_688, u32::MAX];
    entries.extend(past.iter().flat_map(|past| [past - 1, *past, past + 1, past + 65_536]));
    entries.extend((0..10).map(|_| random.word()));
    let pointers = first.iter().filter(|entry| **entry >= 32_768);
    entries.extend(pointers.take(100).map(|entry| u32::from(*entry)));
    entries
}

/// The addresses one by one, and in one call.
fn look_up(checker: &mut Checker, random: &mut Random, stores: &Stores, addresses: &[u32]) -> Compared<()> {
    checker.segments_lookup(stores, addresses)?;
    let (addresses, mut out) = in_one_call(random, addresses);
    checker.segments_lookup_many(stores, addresses, &mut out)?;
    Ok(())
}

/// Built with just enough room, and one entry less, one more and none of each store; looked up; lent short.
pub fn valid_segments(checker: &mut Checker, random: &mut Random, most: usize) -> Compared<()> {
    let held = any_segments(random, most);
    let list = list_of(&held);
    let stores = stores_of(checker, &held)?;
    let exact = stores.each_ref().map(Vec::len);
    for store in 0..exact.len() {
        for size in rooms(exact[store]) {
            let mut room = exact;
            room[store] = size;
            checker.segments_build(&list, room)?;
        }
    }
    let ends = interesting(random, &held);
    look_up(checker, random, &stores, &ends)?;
    few_in_one_call(checker, random, &stores, &ends)?;
    checker.segments_entries(&stores, &entries(random, &stores))?;
    for store in 0..exact.len() {
        let mut short = stores.clone();
        short[store].truncate(random.index(exact[store] + 1));
        let addresses = addresses(random, &held, 20);
        look_up(checker, random, &short, &addresses)?;
        checker.segments_entries(&short, &entries(random, &short))?;
    }
    damaged_list(checker, random, list)
}

/// None of the addresses, one and two, with every room.
fn few_in_one_call(checker: &mut Checker, random: &mut Random, stores: &Stores, addresses: &[u32]) -> Compared<()> {
    for count in 0..3 {
        for mut out in outs(random, count) {
            checker.segments_lookup_many(stores, &addresses[..count], &mut out)?;
        }
    }
    Ok(())
}

/// The list checks come before 9, also with room for all that the list would need.
fn damaged_list(checker: &mut Checker, random: &mut Random, mut list: Vec<u32>) -> Compared<()> {
    some_damage(random, |random| damage_list(&mut list, random));
    checker.segments_build(&list, room_for(1 + list.len() / 3))?;
    Ok(())
}

/// Lookups in damaged tables, and the debug page of their entries.
pub fn damaged_segments(checker: &mut Checker, random: &mut Random, most: usize) -> Compared<()> {
    let held = any_segments(random, most);
    let stores = stores_of(checker, &held)?;
    for _ in 0..8 {
        let mut damaged = stores.clone();
        some_damage(random, |random| damage_segments(&mut damaged, random));
        let addresses = interesting(random, &held);
        look_up(checker, random, &damaged, &addresses)?;
        checker.segments_entries(&damaged, &entries(random, &damaged))?;
    }
    Ok(())
}

/// Lookups in words that pass for tables, with stores of few blocks: each address meets them in another way.
pub fn noise_segments(checker: &mut Checker, random: &mut Random, most: usize) -> Compared<()> {
    let stores = noise_stores(random);
    let addresses: Vec<u32> = (0..100 + most).map(|_| random.word()).collect();
    look_up(checker, random, &stores, &addresses)?;
    checker.segments_entries(&stores, &entries(random, &stores))?;
    Ok(())
}
