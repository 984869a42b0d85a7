//! Libraries that are wrong in how they look many addresses up in one call.

mod each;

use crate::{assert_told, difference, difference_between};
use compare::{ImageLookupMany, Library, SegmentsLookupMany, REFERENCE};
use each::{Check, Each, RIGHT, UNFOUND};
use reference::Answer;

/// The libraries that are wrong in this way in one call each: in images, and in segment tables. A call is a function
/// without a state, so the parts are a constant.
macro_rules! libraries {
    ($parts:expr) => {{
        const PARTS: Each = $parts;
        [
            (
                "image_lookup_many",
                Library {
                    image_lookup_many: |stride, nodes, ports, addresses, out| {
                        PARTS.in_image(stride, nodes, ports, addresses, out)
                    },
                    ..REFERENCE
                },
            ),
            (
                "segments_lookup_many",
                Library {
                    segments_lookup_many: |stores, addresses, out| PARTS.in_segments(stores, addresses, out),
                    ..REFERENCE
                },
            ),
        ]
    }};
}

fn assert_both_told(libraries: [(&str, Library); 2]) {
    libraries.into_iter().for_each(|(call, wrong)| assert_told(call, wrong));
}

/// Of a part that segment tables do not have.
fn assert_told_in_images([(call, wrong), _]: [(&str, Library); 2]) {
    assert_told(call, wrong);
}

/// A call that is done and answers these words.
fn done(answer: [u32; 2]) -> Answer<2> {
    Answer { number: 0, answer }
}

/// How many lookups were refused.
fn unfound(elements: &[u16]) -> usize {
    elements.iter().filter(|element| **element == UNFOUND).count()
}

#[test]
fn lookups_in_one_call_that_are_right_in_every_part_are_not_told() {
    for (call, right) in libraries!(RIGHT) {
        assert_eq!(difference(&right), None, "{call}");
    }
}

#[test]
fn lookups_in_one_call_that_are_not_the_single_ones_are_told_without_a_reference() {
    for (call, wrong) in libraries!(Each { element: |found| found.answer[1] as u16, ..RIGHT }) {
        let difference = difference_between(&wrong, &wrong).unwrap_or_else(|| panic!("a wrong {call} was not told"));
        assert!(difference.starts_with(call) && difference.contains("single lookups"), "{difference}");
    }
}

#[test]
fn a_call_that_stops_at_the_first_lookup_refused_is_told() {
    assert_both_told(libraries!(Each {
        leave: |out, elements| {
            let through = elements.split_inclusive(|element| *element == UNFOUND).next();
            (RIGHT.leave)(out, through.unwrap_or(elements));
        },
        ..RIGHT
    }));
}

#[test]
fn a_call_that_is_refused_11_for_one_address_is_told() {
    assert_both_told(libraries!(Each {
        leave: |out, elements| {
            if unfound(elements) == 0 {
                (RIGHT.leave)(out, elements);
            }
        },
        answer: |_, elements| match unfound(elements) {
            0 => done([0, 0]),
            _ => Answer { number: 11, answer: [0, 0] },
        },
        ..RIGHT
    }));
}

#[test]
fn an_element_that_is_left_where_its_lookup_is_refused_is_told() {
    assert_both_told(libraries!(Each {
        leave: |out, elements| {
            let found = out.iter_mut().zip(elements).filter(|(_, element)| **element != UNFOUND);
            found.for_each(|(lent, port)| *lent = *port);
        },
        ..RIGHT
    }));
}

#[test]
fn elements_that_close_up_where_a_lookup_is_refused_are_told() {
    assert_both_told(libraries!(Each {
        leave: |out, elements| {
            let mut together = elements.to_vec();
            together.sort_by_key(|element| *element == UNFOUND);
            (RIGHT.leave)(out, &together);
        },
        ..RIGHT
    }));
}

#[test]
fn port_0_where_a_lookup_is_refused_is_told() {
    // The single lookup answers port 0 then, beside its number.
    assert_both_told(libraries!(Each { element: |found| found.answer[1] as u16, ..RIGHT }));
}

#[test]
fn an_element_of_65535_where_there_is_no_route_is_told() {
    assert_both_told(libraries!(Each {
        element: |found| match found.answer[1] {
            0 => UNFOUND,
            port => port as u16,
        },
        ..RIGHT
    }));
}

#[test]
fn the_first_address_for_all_of_them_is_told() {
    assert_both_told(libraries!(Each {
        leave: |out, elements| out.iter_mut().zip(elements).for_each(|(lent, _)| *lent = elements[0]),
        ..RIGHT
    }));
}

#[test]
fn elements_in_the_opposite_order_are_told() {
    assert_both_told(libraries!(Each {
        leave: |out, elements| out.iter_mut().zip(elements.iter().rev()).for_each(|(lent, element)| *lent = *element),
        ..RIGHT
    }));
}

#[test]
fn a_last_address_that_is_left_out_is_told() {
    assert_both_told(libraries!(Each {
        leave: |out, elements| (RIGHT.leave)(out, &elements[..elements.len().saturating_sub(1)]),
        ..RIGHT
    }));
}

#[test]
fn what_is_lent_past_the_addresses_and_written_is_told() {
    assert_both_told(libraries!(Each {
        leave: |out, elements| {
            out.fill(0);
            (RIGHT.leave)(out, elements);
        },
        ..RIGHT
    }));
}

#[test]
fn room_that_is_too_short_and_filled_is_told() {
    assert_both_told(libraries!(Each { has_room: |_, _| true, ..RIGHT }));
}

#[test]
fn room_that_is_just_enough_and_refused_is_told() {
    assert_both_told(libraries!(Each { has_room: |addresses, room| addresses < room, ..RIGHT }));
}

#[test]
fn no_room_for_no_address_that_is_refused_is_told() {
    assert_both_told(libraries!(Each { has_room: |addresses, room| addresses.max(1) <= room, ..RIGHT }));
}

#[test]
fn a_refusal_that_writes_as_far_as_there_is_room_is_told() {
    assert_both_told(libraries!(Each { leave_refused: RIGHT.leave, ..RIGHT }));
}

#[test]
fn room_that_is_looked_at_before_the_stride_is_told() {
    assert_told_in_images(libraries!(Each { checks: [Check::Room, Check::Stride], ..RIGHT }));
}

#[test]
fn a_wrong_stride_that_refuses_each_address_and_not_the_call_is_told() {
    assert_told_in_images(libraries!(Each { checks: [Check::Room; 2], ..RIGHT }));
}

#[test]
fn a_wrong_stride_that_passes_where_there_is_no_address_is_told() {
    assert_told(
        "image_lookup_many",
        Library {
            image_lookup_many: |stride, nodes, ports, addresses, out| match addresses {
                [] => done([0, 0]),
                _ => reference::image_lookup_many(stride, nodes, ports, addresses, out),
            },
            ..REFERENCE
        },
    );
}

#[test]
fn stride_4_in_place_of_another_is_told() {
    assert_told(
        "image_lookup_many",
        Library {
            image_lookup_many: |stride, nodes, ports, addresses, out| match stride {
                1 | 2 => reference::image_lookup_many(4, nodes, ports, addresses, out),
                _ => reference::image_lookup_many(stride, nodes, ports, addresses, out),
            },
            ..REFERENCE
        },
    );
}

#[test]
fn damage_that_is_looked_for_where_there_is_no_address_is_told() {
    // As if address 0 were asked for.
    let in_image: ImageLookupMany = |stride, nodes, ports, addresses, out| match addresses {
        [] => reference::image_lookup_many(stride, nodes, ports, &[0], &mut [0]),
        _ => reference::image_lookup_many(stride, nodes, ports, addresses, out),
    };
    let in_segments: SegmentsLookupMany = |[first, packed, plain, last], addresses, out| match addresses {
        [] => reference::segments_lookup_many(first, packed, plain, last, &[0], &mut [0]),
        _ => reference::segments_lookup_many(first, packed, plain, last, addresses, out),
    };
    assert_told("image_lookup_many", Library { image_lookup_many: in_image, ..REFERENCE });
    assert_told("segments_lookup_many", Library { segments_lookup_many: in_segments, ..REFERENCE });
}

#[test]
fn an_answer_of_1_where_an_address_has_no_route_is_told() {
    assert_both_told(libraries!(Each {
        answer: |_, elements| done([0, u32::from(elements.iter().any(|element| [0, UNFOUND].contains(element)))]),
        ..RIGHT
    }));
}

#[test]
fn an_answer_of_0_where_a_lookup_is_refused_is_told() {
    assert_both_told(libraries!(Each { answer: |_, _| done([0, 0]), ..RIGHT }));
}

#[test]
fn an_answer_that_counts_the_lookups_refused_is_told() {
    assert_both_told(libraries!(Each { answer: |_, elements| done([0, unfound(elements) as u32]), ..RIGHT }));
}

#[test]
fn an_answer_for_the_last_address_alone_is_told() {
    assert_both_told(libraries!(Each {
        answer: |_, elements| done([0, u32::from(elements.last() == Some(&UNFOUND))]),
        ..RIGHT
    }));
}

#[test]
fn an_answer_for_what_is_lent_past_the_addresses_too_is_told() {
    assert_both_told(libraries!(Each { answer: |out, _| done([0, u32::from(out.contains(&UNFOUND))]), ..RIGHT }));
}

#[test]
fn a_place_that_is_the_first_address_refused_is_told() {
    assert_both_told(libraries!(Each {
        answer: |_, elements| match elements.iter().position(|element| *element == UNFOUND) {
            Some(place) => done([place as u32, 1]),
            None => done([0, 0]),
        },
        ..RIGHT
    }));
}
