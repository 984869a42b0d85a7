//! Libraries that are wrong in how they make the counts of a table, or keep them in step.

mod kept;

use crate::{assert_told, difference};
use compare::{Library, REFERENCE};
use kept::{runs_of, Check, Kept, RIGHT};
use reference::Answer;
use workload::COUNTS;

/// The libraries that are wrong in this way in one call each: the one that makes counts, and each of the updates. A
/// call is a function without a state, so the parts are a constant.
macro_rules! libraries {
    ($parts:expr) => {{
        const PARTS: Kept = $parts;
        [
            ("counts_make", Library { counts_make: |rows, n, counts| PARTS.make(rows, n, counts), ..REFERENCE }),
            (
                "counted_announce",
                Library {
                    counted_announce: |rows, n, value, length, port, counts| {
                        PARTS.announce(rows, n, value, length, port, counts)
                    },
                    ..REFERENCE
                },
            ),
            (
                "counted_withdraw",
                Library {
                    counted_withdraw: |rows, n, value, length, counts| PARTS.withdraw(rows, n, value, length, counts),
                    ..REFERENCE
                },
            ),
            (
                "counted_message",
                Library {
                    counted_message: |message, port, rows, n, counts| PARTS.apply(message, port, rows, n, counts),
                    ..REFERENCE
                },
            ),
        ]
    }};
}

fn assert_each_told<const N: usize>(libraries: [(&str, Library); N]) {
    libraries.into_iter().for_each(|(call, wrong)| assert_told(call, wrong));
}

/// Of a part that the call that makes counts does not have.
fn assert_updates_told([_, updates @ ..]: [(&str, Library); 4]) {
    assert_each_told(updates);
}

#[test]
fn counts_that_are_kept_right_in_every_part_are_not_told() {
    for (call, right) in libraries!(RIGHT) {
        assert_eq!(difference(&right), None, "{call}");
    }
}

#[test]
fn a_last_address_that_is_left_out_is_told() {
    assert_each_told(libraries!(Kept {
        count: |rows, n| {
            let mut counts = vec![0; COUNTS];
            runs_of(rows, n).iter().for_each(|[first, last, port]| counts[*port as usize] += u64::from(last - first));
            counts
        },
        ..RIGHT
    }));
}

#[test]
fn addresses_without_a_route_that_are_not_counted_are_told() {
    assert_each_told(libraries!(Kept {
        count: |rows, n| {
            let mut counts = (RIGHT.count)(rows, n);
            counts[0] = 0;
            counts
        },
        ..RIGHT
    }));
}

#[test]
fn addresses_of_nested_routes_that_are_counted_twice_are_told() {
    // Every route has all addresses of its prefix, also those of longer routes inside it.
    assert_each_told(libraries!(Kept {
        count: |rows, n| {
            let mut counts = vec![0; COUNTS];
            counts[0] = (RIGHT.count)(rows, n)[0];
            rows.chunks(5).take(n as usize).for_each(|row| counts[row[2] as usize] += 1u64 << (32 - row[1]));
            counts
        },
        ..RIGHT
    }));
}

#[test]
fn a_count_of_32_bits_is_told() {
    // All addresses of one port, or of none, are 2^32.
    assert_each_told(libraries!(Kept {
        count: |rows, n| (RIGHT.count)(rows, n).into_iter().map(|count| u64::from(count as u32)).collect(),
        ..RIGHT
    }));
}

#[test]
fn room_for_4094_counts_that_is_enough_is_told() {
    assert_each_told(libraries!(Kept { room: COUNTS - 1, ..RIGHT }));
}

#[test]
fn room_for_4096_counts_that_is_asked_for_is_told() {
    assert_each_told(libraries!(Kept { room: COUNTS + 1, ..RIGHT }));
}

#[test]
fn counts_past_the_last_port_that_are_written_are_told() {
    assert_each_told(libraries!(Kept {
        leave: |lent, own| {
            (RIGHT.leave)(lent, own);
            lent.iter_mut().skip(COUNTS).for_each(|past| *past = 0);
        },
        ..RIGHT
    }));
}

#[test]
fn counts_that_are_left_as_they_were_are_told() {
    assert_each_told(libraries!(Kept { leave: |_, _| {}, ..RIGHT }));
}

#[test]
fn room_for_counts_that_is_asked_for_last_is_told() {
    assert_updates_told(libraries!(Kept { checks: [Check::Arguments, Check::Table, Check::Room], ..RIGHT }));
}

#[test]
fn room_for_counts_that_is_asked_for_after_the_arguments_is_told() {
    assert_updates_told(libraries!(Kept { checks: [Check::Arguments, Check::Room, Check::Table], ..RIGHT }));
}

#[test]
fn counts_that_are_looked_at_before_the_arguments_are_told() {
    assert_updates_told(libraries!(Kept { checks: [Check::Room, Check::Table, Check::Arguments], ..RIGHT }));
}

#[test]
fn counts_of_another_table_that_are_taken_are_told() {
    assert_updates_told(libraries!(Kept { are_its_own: |_, _| true, ..RIGHT }));
}

#[test]
fn counts_that_are_compared_by_their_total_are_told() {
    assert_updates_told(libraries!(Kept {
        are_its_own: |lent, _| lent.iter().take(COUNTS).fold(0, |total: u64, count| total.wrapping_add(*count))
            == 1 << 32,
        ..RIGHT
    }));
}

#[test]
fn counts_that_are_compared_without_that_of_no_route_are_told() {
    assert_updates_told(libraries!(Kept {
        are_its_own: |lent, own| (RIGHT.are_its_own)(&lent[1..], &own[1..]),
        ..RIGHT
    }));
}

#[test]
fn counts_that_are_compared_without_the_last_ports_are_told() {
    assert_updates_told(libraries!(Kept {
        are_its_own: |lent, own| (RIGHT.are_its_own)(lent, &own[..COUNTS - 1]),
        ..RIGHT
    }));
}

#[test]
fn counts_that_are_compared_in_32_bits_are_told() {
    assert_updates_told(libraries!(Kept {
        are_its_own: |lent, own| lent.iter().zip(own).all(|(lent, own)| *lent as u32 == *own as u32),
        ..RIGHT
    }));
}

#[test]
fn counts_past_the_last_port_that_are_read_are_told() {
    assert_updates_told(libraries!(Kept { are_its_own: |lent, own| lent == own, ..RIGHT }));
}

#[test]
fn counts_that_are_made_afresh_on_a_refusal_are_told() {
    assert_updates_told(libraries!(Kept { leave_refused: RIGHT.leave, ..RIGHT }));
}

#[test]
fn a_withdrawal_that_gives_addresses_back_to_no_route_is_told() {
    assert_told(
        "counted_withdraw",
        Library {
            counted_withdraw: |rows, n, value, length, counts| {
                let before = counts.to_vec();
                let answer = reference::counted_withdraw(rows, n, value, length, counts);
                if answer.number == 0 {
                    let gained: u64 = (1..COUNTS).map(|port| counts[port].saturating_sub(before[port])).sum();
                    (1..COUNTS).for_each(|port| counts[port] = counts[port].min(before[port]));
                    counts[0] += gained;
                }
                answer
            },
            ..REFERENCE
        },
    );
}

#[test]
fn a_refusal_for_counts_that_forgets_n_is_told() {
    assert_told(
        "counted_announce",
        Library {
            counted_announce: |rows, n, value, length, port, counts| {
                let answer = reference::counted_announce(rows, n, value, length, port, counts);
                match counts.len() {
                    COUNTS.. => answer,
                    _ => Answer { answer: [0, 0], ..answer },
                }
            },
            ..REFERENCE
        },
    );
}
