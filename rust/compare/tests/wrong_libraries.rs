//! The comparison itself: libraries that are wrong in one call are told from the reference.

mod counts;
mod many;
mod messages;
mod segments;
mod walk;

use compare::{scenarios, Checker, Compared, Library, REFERENCE};
use reference::Answer;
use walk::{Read, Walk, RIGHT};
use workload::{clear_spare_bits, Random};

/// The first difference from the reference that the scenarios find within a few seeds.
fn difference(wrong: &Library) -> Option<String> {
    difference_between(wrong, &REFERENCE)
}

fn difference_between(tried: &Library, right: &Library) -> Option<String> {
    let mut checker = Checker::new(tried, right);
    let run = |seed: u64, checker: &mut Checker| -> Compared<()> {
        scenarios::ALL.iter().try_for_each(|(_, scenario)| scenario(checker, &mut Random::new(seed), 12))
    };
    (0..40).find_map(|seed| run(seed, &mut checker).err()).map(|difference| difference.to_string())
}

fn assert_told(call: &str, wrong: Library) {
    let difference = difference(&wrong).unwrap_or_else(|| panic!("a wrong {call} was not told"));
    assert!(difference.starts_with(call), "{difference}");
}

#[test]
fn the_reference_does_not_differ_from_itself() {
    assert_eq!(difference(&REFERENCE), None);
}

#[test]
fn a_word_past_the_output_is_told() {
    assert_told(
        "file_read",
        Library {
            file_read: |file, list| {
                let answer = reference::file_read(file, list);
                let end = 3 * answer.answer[1] as usize;
                if answer.number == 0 && end < list.len() {
                    list[end] = 0;
                }
                answer
            },
            ..REFERENCE
        },
    );
}

/// The prefixes of an accepted file as its bytes state them, spare bits and all.
fn stated(file: &[u8]) -> Vec<(u32, u8)> {
    let mut stated = Vec::new();
    let mut rest = &file[5..];
    while let [length, after @ ..] = rest {
        let (prefix, port_and_on) = after.split_at(usize::from(length.div_ceil(8)));
        let mut value = [0; 4];
        value[..prefix.len()].copy_from_slice(prefix);
        stated.push((u32::from_be_bytes(value), *length));
        rest = &port_and_on[2..];
    }
    stated
}

#[test]
fn spare_bits_that_are_refused_are_told() {
    assert_told(
        "file_read",
        Library {
            file_read: |file, list| {
                let mut cleared = file.to_vec();
                clear_spare_bits(&mut cleared);
                if cleared != file {
                    return Answer { number: 5, answer: [5, 0] };
                }
                reference::file_read(file, list)
            },
            ..REFERENCE
        },
    );
}

#[test]
fn spare_bits_that_are_kept_are_told() {
    assert_told(
        "file_read",
        Library {
            file_read: |file, list| {
                let answer = reference::file_read(file, list);
                if answer.number == 0 {
                    stated(file).iter().zip(list.chunks_mut(3)).for_each(|((value, _), words)| words[0] = *value);
                }
                answer
            },
            ..REFERENCE
        },
    );
}

#[test]
fn an_order_compared_before_clearing_is_told() {
    assert_told(
        "file_read",
        Library {
            file_read: |file, list| {
                let answer = reference::file_read(file, &mut list.to_vec());
                if answer.number == 0 && !stated(file).is_sorted() {
                    return Answer { number: 7, answer: [5, 0] };
                }
                reference::file_read(file, list)
            },
            ..REFERENCE
        },
    );
}

#[test]
fn a_refusal_that_writes_is_told() {
    assert_told(
        "table_build",
        Library {
            table_build: |list, rows| {
                let answer = reference::table_build(list, rows);
                if answer.number == 9 && !rows.is_empty() {
                    rows[0] = 0;
                }
                answer
            },
            ..REFERENCE
        },
    );
}

#[test]
fn a_wrong_number_of_rows_read_is_told() {
    assert_told(
        "table_lookup",
        Library {
            table_lookup: |rows, n, address| {
                let Answer { number, answer: [place, port, read] } = reference::table_lookup(rows, n, address);
                Answer { number, answer: [place, port, read.min(3)] }
            },
            ..REFERENCE
        },
    );
}

#[test]
fn a_place_counted_from_1_is_told() {
    assert_told(
        "list_check",
        Library {
            list_check: |list| {
                let Answer { number, answer: [place] } = reference::list_check(list);
                Answer { number, answer: [place + u32::from(number == 7)] }
            },
            ..REFERENCE
        },
    );
}

#[test]
fn an_announcement_that_is_lost_is_told() {
    assert_told(
        "counted_announce",
        Library {
            counted_announce: |rows, n, value, length, port, counts| {
                let before = rows.to_vec();
                let answer = reference::counted_announce(rows, n, value, length, port, counts);
                if answer.answer[1] == n {
                    rows.copy_from_slice(&before);
                }
                answer
            },
            ..REFERENCE
        },
    );
}

#[test]
fn a_constant_stride_that_walks_another_is_told() {
    let wrong = |_, nodes: &[u32], ports: &[u16], address| reference::image_lookup(4, nodes, ports, address);
    assert_told("image_lookup_S", Library { image_lookup_constant: wrong, ..REFERENCE });
}

#[test]
fn an_offset_of_0_where_every_slot_is_a_leaf_is_told() {
    assert_told(
        "image_build",
        Library {
            image_build: |stride, list, nodes, ports| {
                let answer = reference::image_build(stride, list, nodes, ports);
                for node in nodes.chunks_exact_mut(2).take(answer.answer[1] as usize) {
                    if node[0].count_ones() == 1 << stride {
                        node[1] = 0;
                    }
                }
                answer
            },
            ..REFERENCE
        },
    );
}

#[test]
fn an_offset_from_the_root_is_told() {
    assert_told(
        "image_build",
        Library {
            image_build: |stride, list, nodes, ports| {
                let answer = reference::image_build(stride, list, nodes, ports);
                for (number, node) in (1..).zip(nodes.chunks_exact_mut(2).take(answer.answer[1] as usize)) {
                    node[1] = number + node[1] - 1;
                }
                answer
            },
            ..REFERENCE
        },
    );
}

#[test]
fn room_asked_for_by_three_words_a_node_is_told() {
    assert_told(
        "image_build",
        Library {
            image_build: |stride, list, nodes, ports| {
                let answer = reference::image_build(stride, list, &mut nodes.to_vec(), &mut ports.to_vec());
                if nodes.len() < 3 * answer.answer[1] as usize {
                    return Answer { number: 9, answer: [0, 0, 0] };
                }
                reference::image_build(stride, list, nodes, ports)
            },
            ..REFERENCE
        },
    );
}

#[test]
fn a_walk_that_is_right_in_every_part_is_not_told() {
    let right = |stride, nodes: &[u32], ports: &[u16], address| RIGHT.lookup(stride, nodes, ports, address);
    assert_eq!(difference(&Library { image_lookup: right, ..REFERENCE }), None);
}

#[test]
fn a_leaf_base_that_is_one_off_is_told() {
    assert_told(
        "image_lookup",
        Library {
            image_lookup: |stride, nodes, ports, address| {
                // The root is taken for a child.
                let leaf_base = |read: &Read| read.slots_before.saturating_sub(read.next - 1);
                Walk { leaf_base, ..RIGHT }.lookup(stride, nodes, ports, address)
            },
            ..REFERENCE
        },
    );
}

#[test]
fn a_leaf_base_that_is_asked_for_at_leaves_alone_is_told() {
    assert_told(
        "image_lookup",
        Library {
            image_lookup: |stride, nodes, ports, address| {
                let has_leaf_base = |read: &Read| !read.at_leaf || (RIGHT.has_leaf_base)(read);
                Walk { has_leaf_base, ..RIGHT }.lookup(stride, nodes, ports, address)
            },
            ..REFERENCE
        },
    );
}

#[test]
fn an_offset_of_0_at_node_1_that_is_accepted_is_told() {
    assert_told(
        "image_lookup",
        Library {
            image_lookup: |stride, nodes, ports, address| {
                let has_leaf_base = |read: &Read| read.next < 2 || (RIGHT.has_leaf_base)(read);
                Walk { has_leaf_base, ..RIGHT }.lookup(stride, nodes, ports, address)
            },
            ..REFERENCE
        },
    );
}

#[test]
fn an_offset_of_0_past_node_1_that_is_refused_is_told() {
    assert_told(
        "image_lookup",
        Library {
            image_lookup: |stride, nodes, ports, address| {
                let has_leaf_base = |read: &Read| read.next > read.number && (RIGHT.has_leaf_base)(read);
                Walk { has_leaf_base, ..RIGHT }.lookup(stride, nodes, ports, address)
            },
            ..REFERENCE
        },
    );
}

#[test]
fn a_leaf_base_of_minus_1_that_is_accepted_is_told() {
    assert_told(
        "image_lookup",
        Library {
            image_lookup: |stride, nodes, ports, address| {
                let has_leaf_base = |read: &Read| read.next >= 2 && read.next - 2 <= read.slots_before + 1;
                Walk { has_leaf_base, ..RIGHT }.lookup(stride, nodes, ports, address)
            },
            ..REFERENCE
        },
    );
}

#[test]
fn a_sum_of_a_node_and_its_offset_that_wraps_is_told() {
    assert_told(
        "image_lookup",
        Library {
            image_lookup: |stride, nodes, ports, address| {
                let next = |number: u64, offset: u32| u64::from((number as u32).wrapping_add(offset));
                Walk { next, ..RIGHT }.lookup(stride, nodes, ports, address)
            },
            ..REFERENCE
        },
    );
}
