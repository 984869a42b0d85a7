//! Libraries that are wrong in one call on segment tables.

mod layout;
mod search;

use crate::{assert_told, difference};
use compare::{Library, REFERENCE};
use layout::{ones, Layout};
use reference::Answer;
use search::Search;

fn assert_build_told(build: fn(&[u32], [&mut [u16]; 4]) -> Answer<4>) {
    assert_told("segments_build", Library { segments_build: build, ..REFERENCE });
}

fn assert_lookup_told(lookup: fn([&[u16]; 4], u32) -> Answer<3>) {
    assert_told("segments_lookup", Library { segments_lookup: lookup, ..REFERENCE });
}

fn assert_entries_told(entries: fn([&[u16]; 2], u32) -> Answer<3>) {
    assert_told("segments_entries", Library { segments_entries: entries, ..REFERENCE });
}

#[test]
fn a_layout_and_a_search_that_are_right_in_every_part_are_not_told() {
    let right = Library {
        segments_build: |list, stores| layout::RIGHT.build(list, stores),
        segments_lookup: |stores, address| search::RIGHT.lookup(stores, address),
        ..REFERENCE
    };
    assert_eq!(difference(&right), None);
}

#[test]
fn packed_and_plain_segments_that_are_numbered_together_are_told() {
    assert_build_told(|list, stores| {
        let number = |packed, plain| packed + plain;
        Layout { packed_number: number, plain_number: number, ..layout::RIGHT }.build(list, stores)
    });
}

#[test]
fn last_blocks_that_are_numbered_in_each_segment_are_told() {
    assert_build_told(|list, stores| {
        let change = |_: &[u32], apart: &mut layout::Apart| {
            for entries in apart.segments.values_mut() {
                let pointers = entries.iter_mut().filter(|entry| **entry >= 32_768);
                pointers.zip(32_768..).for_each(|(entry, own)| *entry = own);
            }
        };
        Layout { change, ..layout::RIGHT }.build(list, stores)
    });
}

#[test]
fn unused_entries_that_are_left_are_told() {
    assert_build_told(|list, stores| Layout { unused: None, ..layout::RIGHT }.build(list, stores));
}

#[test]
fn a_segment_of_64_ones_that_is_plain_is_told() {
    assert_build_told(|list, stores| Layout { packed_last: 63, ..layout::RIGHT }.build(list, stores));
}

#[test]
fn a_segment_of_65_ones_that_is_packed_is_told() {
    // There is no room for its last entry, which is lost.
    assert_build_told(|list, stores| Layout { packed_last: 65, ..layout::RIGHT }.build(list, stores));
}

#[test]
fn a_bit_0_that_is_clear_is_told() {
    assert_build_told(|list, stores| {
        let codeword = |bitmap: &[bool], from: usize| {
            let right = (layout::RIGHT.codeword)(bitmap, from);
            if from == 0 {
                right & 0x7FFF
            } else {
                right
            }
        };
        Layout { codeword, ..layout::RIGHT }.build(list, stores)
    });
}

#[test]
fn a_codeword_whose_lowest_entry_is_lowest_is_told() {
    assert_build_told(|list, stores| {
        let codeword = |bitmap: &[bool], from: usize| {
            let right = (layout::RIGHT.codeword)(bitmap, from);
            (right & 0xFF00).reverse_bits() << 8 | right & 0x00FF
        };
        Layout { codeword, ..layout::RIGHT }.build(list, stores)
    });
}

#[test]
fn a_base_that_counts_its_own_codeword_is_told() {
    assert_build_told(|list, stores| {
        let codeword = |bitmap: &[bool], from: usize| {
            (layout::RIGHT.codeword)(bitmap, from) + ones(&bitmap[from..from + 8]) as u16
        };
        Layout { codeword, ..layout::RIGHT }.build(list, stores)
    });
}

#[test]
fn neighbouring_pointers_that_count_as_equal_are_told() {
    assert_build_told(|list, stores| {
        let bit = |entries: &[u16], i: usize| {
            let pointers = i > 0 && entries[i] >= 32_768 && entries[i - 1] >= 32_768;
            (layout::RIGHT.bit)(entries, i) && !pointers
        };
        Layout { bit, ..layout::RIGHT }.build(list, stores)
    });
}

#[test]
fn a_pointer_only_where_ports_differ_is_told() {
    assert_build_told(|list, stores| {
        let change = |_: &[u32], apart: &mut layout::Apart| {
            let layout::Apart { first, segments, .. } = apart;
            segments.retain(|first_bits, entries| {
                let one_port = entries[0] < 32_768 && entries.iter().all(|entry| *entry == entries[0]);
                if one_port {
                    first[usize::from(*first_bits)] = entries[0];
                }
                !one_port
            });
        };
        Layout { change, ..layout::RIGHT }.build(list, stores)
    });
}

#[test]
fn a_pointer_for_a_route_of_sixteen_bits_is_told() {
    assert_build_told(|list, stores| {
        let change = |list: &[u32], apart: &mut layout::Apart| {
            for route in list.chunks_exact(3).filter(|route| route[1] == 16) {
                let first_bits = (route[0] >> 16) as u16;
                apart.segments.entry(first_bits).or_insert_with(|| vec![route[2] as u16; 256]);
            }
        };
        Layout { change, ..layout::RIGHT }.build(list, stores)
    });
}

#[test]
fn a_refused_build_that_writes_the_first_table_is_told() {
    assert_build_told(|list, [first, packed, plain, last]| {
        let answer = reference::segments_build(list, first, packed, plain, last);
        if answer.number == 9 && first.len() >= 65_536 {
            first[..65_536].fill(0);
        }
        answer
    });
}

#[test]
fn a_build_that_asks_for_a_block_more_is_told() {
    assert_build_told(|list, [first, packed, plain, last]| {
        let mut lent = [&*first, packed, plain, last].map(<[u16]>::to_vec);
        let [of_first, of_packed, of_plain, of_last] = &mut lent;
        let answer = reference::segments_build(list, of_first, of_packed, of_plain, of_last);
        if answer.number == 0 && last.len() < 256 * (1 + answer.answer[3] as usize) {
            return Answer { number: 9, answer: [0; 4] };
        }
        reference::segments_build(list, first, packed, plain, last)
    });
}

#[test]
fn ones_before_the_bit_in_place_of_those_through_it_are_told() {
    assert_lookup_told(|stores, address| {
        let ones = |bits: u16, entry: usize| (u32::from(bits) >> (8 - entry)).count_ones();
        Search { ones, ..search::RIGHT }.lookup(stores, address)
    });
}

#[test]
fn a_base_that_is_forgotten_is_told() {
    assert_lookup_told(|stores, address| {
        let index = |_, ones| (search::RIGHT.index)(0, ones);
        Search { index, ..search::RIGHT }.lookup(stores, address)
    });
}

#[test]
fn a_codeword_that_is_not_counted_is_told() {
    assert_lookup_told(|stores, address| Search { codeword_reads: 0, ..search::RIGHT }.lookup(stores, address));
}

#[test]
fn a_plain_mark_that_is_ignored_is_told() {
    assert_lookup_told(|stores, address| Search { is_plain: |_| false, ..search::RIGHT }.lookup(stores, address));
}

#[test]
fn an_index_of_minus_1_that_is_taken_is_told() {
    assert_lookup_told(|stores, address| Search { indexes: -1..64, ..search::RIGHT }.lookup(stores, address));
}

#[test]
fn an_index_of_minus_1_that_is_taken_for_0_is_told() {
    assert_lookup_told(|stores, address| {
        let index = |base, ones| (search::RIGHT.index)(base, ones).max(0);
        Search { index, ..search::RIGHT }.lookup(stores, address)
    });
}

#[test]
fn an_index_of_64_that_is_taken_is_told() {
    assert_lookup_told(|stores, address| Search { indexes: 0..65, ..search::RIGHT }.lookup(stores, address));
}

#[test]
fn a_port_of_4095_that_is_answered_is_told() {
    assert_lookup_told(|stores, address| {
        let port = |entry: u16| Some(entry).filter(|port| *port <= 4095);
        Search { port, ..search::RIGHT }.lookup(stores, address)
    });
    assert_lookup_told(|stores, address| {
        let last_port = |entry: u16| Some(entry).filter(|port| *port <= 4095);
        Search { last_port, ..search::RIGHT }.lookup(stores, address)
    });
}

#[test]
fn a_top_bit_in_a_last_block_that_is_ignored_is_told() {
    assert_lookup_told(|stores, address| {
        let last_port = |entry: u16| (search::RIGHT.last_port)(entry & 0x7FFF);
        Search { last_port, ..search::RIGHT }.lookup(stores, address)
    });
}

#[test]
fn a_last_block_that_is_numbered_by_fourteen_bits_is_told() {
    assert_lookup_told(|stores, address| {
        Search { last_number: |entry| entry & 0x3FFF, ..search::RIGHT }.lookup(stores, address)
    });
}

#[test]
fn a_block_that_is_lent_in_part_and_read_is_told() {
    assert_lookup_told(|stores, address| {
        let has_block = |words, _, offset| offset < words;
        Search { has_block, ..search::RIGHT }.lookup(stores, address)
    });
}

#[test]
fn a_block_past_its_store_that_counts_as_read_is_told() {
    assert_lookup_told(|stores, address| Search { past_reads: 1, ..search::RIGHT }.lookup(stores, address));
}

#[test]
fn a_first_table_of_65535_entries_that_is_read_is_told() {
    assert_lookup_told(|stores, address| Search { first_least: 65_535, ..search::RIGHT }.lookup(stores, address));
}

#[test]
fn codewords_that_are_handed_back_are_told() {
    assert_entries_told(|[packed, plain], entry| {
        let Answer { number, answer: [place, offset, count] } = reference::segments_entries(packed, plain, entry);
        let codewords = if count == 64 { 32 } else { 0 };
        Answer { number, answer: [place, offset - codewords, count + codewords] }
    });
}

#[test]
fn one_store_for_the_other_is_told() {
    assert_entries_told(|[packed, plain], entry| {
        let other = if (32_768..65_536).contains(&entry) { entry ^ 16_384 } else { entry };
        reference::segments_entries(packed, plain, other)
    });
}

#[test]
fn entries_of_a_block_that_is_lent_in_part_are_told() {
    assert_entries_told(|[packed, plain], entry| {
        // The store goes on to the end of its last block.
        let whole = |store: &[u16], size: usize| [store, &vec![0; size - 1][..]].concat();
        reference::segments_entries(&whole(packed, 96), &whole(plain, 256), entry)
    });
}

#[test]
fn an_entry_of_more_than_sixteen_bits_that_is_cut_is_told() {
    assert_entries_told(|[packed, plain], entry| reference::segments_entries(packed, plain, entry % 65_536));
}
