//! Libraries that are wrong in one call on UPDATE messages.

mod update;

use crate::{assert_told, difference};
use compare::{CountedMessage, Library, REFERENCE};
use reference::Answer;
use std::collections::BTreeSet;
use update::{Apply, Call, Update, RIGHT};
use workload::{first_bits_of, Message, Prefix};

fn assert_apply_told(apply: CountedMessage) {
    assert_told("counted_message", Library { counted_message: apply, ..REFERENCE });
}

fn assert_write_told(write: fn(&[u32], &mut [u8]) -> Answer<2>) {
    assert_told("message_write", Library { message_write: write, ..REFERENCE });
}

#[test]
fn a_message_that_is_applied_right_in_every_part_is_not_told() {
    let right =
        |message: &[u8], port, rows: &mut [u32], n, counts: &mut [u64]| RIGHT.apply(message, port, rows, n, counts);
    assert_eq!(difference(&Library { counted_message: right, ..REFERENCE }), None);
}

#[test]
fn every_message_refused_is_told() {
    assert_apply_told(|_, _, _, n, _| Answer { number: 14, answer: [0, n] });
}

#[test]
fn announcements_alone_are_told() {
    assert_apply_told(|message, port, rows, n, counts| {
        let change = |update: &mut Update| update.withdrawn.clear();
        Apply { change, ..RIGHT }.apply(message, port, rows, n, counts)
    });
}

#[test]
fn an_end_at_the_first_prefix_of_a_part_is_told() {
    assert_apply_told(|message, port, rows, n, counts| {
        let change = |update: &mut Update| update.withdrawn.truncate(1);
        Apply { change, ..RIGHT }.apply(message, port, rows, n, counts)
    });
    assert_apply_told(|message, port, rows, n, counts| {
        let change = |update: &mut Update| update.announced.truncate(1);
        Apply { change, ..RIGHT }.apply(message, port, rows, n, counts)
    });
}

#[test]
fn a_prefix_in_both_parts_that_is_withdrawn_is_told() {
    assert_apply_told(|message, port, rows, n, counts| {
        let change = |update: &mut Update| {
            let Update { withdrawn, announced } = update;
            announced.retain(|prefix| !withdrawn.contains(prefix));
        };
        Apply { change, ..RIGHT }.apply(message, port, rows, n, counts)
    });
}

#[test]
fn a_prefix_in_both_parts_that_is_withdrawn_and_then_announced_is_told() {
    // The same routes are held in the end, in other rows.
    assert_apply_told(|message, port, rows, n, counts| {
        let calls = |update: &Update| {
            let withdrawals = update.withdrawn.iter().map(|prefix| Call::Withdraw(*prefix));
            withdrawals.chain(update.announced.iter().map(|prefix| Call::Announce(*prefix))).collect()
        };
        Apply { calls, ..RIGHT }.apply(message, port, rows, n, counts)
    });
}

#[test]
fn announcements_before_withdrawals_are_told() {
    assert_apply_told(|message, port, rows, n, counts| {
        let calls = |update: &Update| {
            let announcements = update.announced.iter().map(|prefix| Call::Announce(*prefix));
            announcements.chain(update.remaining().map(|prefix| Call::Withdraw(*prefix))).collect()
        };
        Apply { calls, ..RIGHT }.apply(message, port, rows, n, counts)
    });
}

#[test]
fn announcements_in_another_order_are_told() {
    assert_apply_told(|message, port, rows, n, counts| {
        let change = |update: &mut Update| update.announced.sort_unstable();
        Apply { change, ..RIGHT }.apply(message, port, rows, n, counts)
    });
}

#[test]
fn a_withdrawn_prefix_that_is_not_held_and_refused_10_is_told() {
    assert_apply_told(|message, port, rows, n, counts| {
        Apply { ends_at: |_| true, ..RIGHT }.apply(message, port, rows, n, counts)
    });
}

#[test]
fn a_prefix_that_is_counted_twice_is_told() {
    // Announced twice.
    assert_apply_told(|message, port, rows, n, counts| {
        let count = |held: &BTreeSet<Prefix>, update: &Update| {
            let mut announced = update.announced.clone();
            announced.sort_unstable();
            announced.dedup();
            (RIGHT.count)(held, update) + update.announced.len() - announced.len()
        };
        Apply { count, ..RIGHT }.apply(message, port, rows, n, counts)
    });
    // Held and announced.
    assert_apply_told(|message, port, rows, n, counts| {
        let count = |held: &BTreeSet<Prefix>, update: &Update| {
            let again = held.iter().filter(|prefix| update.announced.contains(prefix));
            (RIGHT.count)(held, update) + again.count()
        };
        Apply { count, ..RIGHT }.apply(message, port, rows, n, counts)
    });
    // Withdrawn twice, which makes room for two.
    assert_apply_told(|message, port, rows, n, counts| {
        let count = |held: &BTreeSet<Prefix>, update: &Update| {
            let gone = |prefix: &&_| held.contains(*prefix);
            let mut once: Vec<_> = update.remaining().filter(gone).collect();
            let all = once.len();
            once.sort_unstable();
            once.dedup();
            (RIGHT.count)(held, update).saturating_sub(all - once.len())
        };
        Apply { count, ..RIGHT }.apply(message, port, rows, n, counts)
    });
}

#[test]
fn a_full_table_that_is_refused_9_at_its_exact_capacity_is_told() {
    assert_apply_told(|message, port, rows, n, counts| {
        Apply { fits: |count, capacity| count < capacity, ..RIGHT }.apply(message, port, rows, n, counts)
    });
}

#[test]
fn rows_that_are_written_before_9_are_told() {
    // The announcement that finds no room is refused, after those before it.
    assert_apply_told(|message, port, rows, n, counts| {
        Apply { fits: |_, _| true, ..RIGHT }.apply(message, port, rows, n, counts)
    });
}

#[test]
fn room_that_withdrawals_do_not_make_is_told() {
    assert_apply_told(|message, port, rows, n, counts| {
        let count =
            |held: &BTreeSet<Prefix>, update: &Update| held.union(&update.announced.iter().copied().collect()).count();
        Apply { count, ..RIGHT }.apply(message, port, rows, n, counts)
    });
}

#[test]
fn a_prefix_that_runs_past_its_part_and_not_past_the_message_is_told() {
    assert_apply_told(|message, port, rows, n, counts| {
        Apply { prefix_end: |_, message| message, ..RIGHT }.apply(message, port, rows, n, counts)
    });
}

#[test]
fn an_attribute_length_past_the_end_that_is_accepted_is_told() {
    assert_apply_told(|message, port, rows, n, counts| {
        let announced_at = |at, attributes, size: usize| Some(size.min(at + attributes));
        Apply { announced_at, ..RIGHT }.apply(message, port, rows, n, counts)
    });
}

#[test]
fn attributes_that_are_not_passed_over_are_told() {
    assert_apply_told(|message, port, rows, n, counts| {
        let announced_at = |at, attributes, size| (RIGHT.announced_at)(at, attributes, size).and(Some(at));
        Apply { announced_at, ..RIGHT }.apply(message, port, rows, n, counts)
    });
}

#[test]
fn a_withdrawn_part_that_leaves_one_byte_and_is_accepted_is_told() {
    assert_apply_told(|message, port, rows, n, counts| {
        let announced_at = |at, attributes, size: usize| (RIGHT.announced_at)(size.min(at), attributes, size);
        Apply { left_least: 1, announced_at, ..RIGHT }.apply(message, port, rows, n, counts)
    });
}

#[test]
fn a_message_of_23_bytes_that_is_refused_is_told() {
    assert_apply_told(|message, port, rows, n, counts| {
        Apply { length_least: 24, ..RIGHT }.apply(message, port, rows, n, counts)
    });
}

#[test]
fn spare_bits_that_are_kept_are_told() {
    // Where prefixes are compared.
    assert_apply_told(|message, port, rows, n, counts| {
        Apply { value: |value, _| value, ..RIGHT }.apply(message, port, rows, n, counts)
    });
    // In the rows.
    assert_apply_told(|message, port, rows, n, counts| {
        let answer = reference::counted_message(message, port, rows, n, counts);
        let stated = Apply { value: |value, _| value, ..RIGHT }.read(message);
        if let (0, Ok(update)) = (answer.number, stated) {
            for (value, length) in update.announced {
                let is_it = |row: &&mut [u32]| row[..2] == [first_bits_of(value, length), length];
                let row = rows.chunks_exact_mut(5).take(answer.answer[1] as usize).find(is_it);
                row.into_iter().for_each(|row| row[0] = value);
            }
        }
        answer
    });
}

#[test]
fn spare_bits_that_are_refused_5_are_told() {
    assert_apply_told(|message, port, rows, n, counts| {
        let stated = Apply { value: |value, _| value, ..RIGHT }.read(message);
        let spare = |(value, length): &Prefix| first_bits_of(*value, *length) != *value;
        match stated {
            Ok(Update { withdrawn, announced }) if withdrawn.iter().chain(&announced).any(spare) => {
                Answer { number: 5, answer: [0, n] }
            }
            _ => reference::counted_message(message, port, rows, n, counts),
        }
    });
}

#[test]
fn a_place_after_the_length_byte_is_told() {
    assert_apply_told(|message, port, rows, n, counts| {
        Apply { place: |at| at + 1, ..RIGHT }.apply(message, port, rows, n, counts)
    });
}

#[test]
fn announced_prefixes_that_are_checked_first_are_told() {
    assert_apply_told(|message, port, rows, n, counts| {
        Apply { withdrawn_first: false, ..RIGHT }.apply(message, port, rows, n, counts)
    });
}

#[test]
fn a_port_that_is_looked_at_only_where_a_prefix_is_announced_is_told() {
    assert_apply_told(|message, port, rows, n, counts| {
        Apply { looks_at_port: |update| !update.announced.is_empty(), ..RIGHT }.apply(message, port, rows, n, counts)
    });
}

#[test]
fn a_table_that_is_looked_at_only_where_there_is_a_prefix_is_told() {
    assert_apply_told(|message, port, rows, n, counts| {
        let looks_at_table = |update: &Update| !update.withdrawn.is_empty() || !update.announced.is_empty();
        Apply { looks_at_table, ..RIGHT }.apply(message, port, rows, n, counts)
    });
}

#[test]
fn a_table_that_is_refused_before_a_port_is_told() {
    assert_apply_told(|message, port, rows, n, counts| {
        let answer = reference::counted_message(message, port, rows, n, counts);
        match (answer.number, reference::table_check(rows, n).number) {
            (6, 11) => Answer { number: 11, ..answer },
            _ => answer,
        }
    });
}

#[test]
fn a_refusal_that_forgets_n_is_told() {
    assert_apply_told(|message, port, rows, n, counts| {
        let answer = reference::counted_message(message, port, rows, n, counts);
        match answer.number {
            0 => answer,
            _ => Answer { answer: [answer.answer[0], 0], ..answer },
        }
    });
}

/// The message of a list, however long, or the answer to a list that is refused.
fn written(list: &[u32]) -> Result<Vec<u8>, Answer<2>> {
    let checked = reference::list_check(list);
    if checked.number != 0 {
        return Err(Answer { number: checked.number, answer: [checked.answer[0], 0] });
    }
    let withdrawn = list.chunks(3).map(|route| (route[0], route[1])).collect();
    Ok(Message { withdrawn, ..Default::default() }.bytes())
}

/// Writes as much of the message as there is room for, where there is room for that many bytes.
fn write(message: &[u8], needed: usize, lent: &mut [u8]) -> Answer<2> {
    if needed > lent.len().min(4096) {
        return Answer { number: 9, answer: [0, 0] };
    }
    let size = message.len().min(lent.len());
    lent[..size].copy_from_slice(&message[..size]);
    Answer { number: 0, answer: [0, message.len() as u32] }
}

#[test]
fn a_message_that_is_written_right_is_not_told() {
    let right = |list: &[u32], lent: &mut [u8]| {
        written(list).map_or_else(|refused| refused, |message| write(&message, message.len(), lent))
    };
    assert_eq!(difference(&Library { message_write: right, ..REFERENCE }), None);
}

#[test]
fn a_message_without_its_attribute_length_is_told() {
    assert_write_told(|list, lent| match written(list) {
        Ok(mut message) => {
            message.truncate(message.len() - 2);
            let size = message.len() as u16;
            message[16..18].copy_from_slice(&size.to_be_bytes());
            write(&message, message.len(), lent)
        }
        Err(refused) => refused,
    });
}

#[test]
fn a_size_without_the_head_is_told() {
    // As the length that is stated.
    assert_write_told(|list, lent| match written(list) {
        Ok(mut message) => {
            let size = message.len() as u16 - 23;
            message[16..18].copy_from_slice(&size.to_be_bytes());
            write(&message, message.len(), lent)
        }
        Err(refused) => refused,
    });
    // As the room that is asked for.
    assert_write_told(|list, lent| match written(list) {
        Ok(message) => write(&message, message.len() - 23, lent),
        Err(refused) => refused,
    });
}

#[test]
fn a_written_message_that_announces_is_told() {
    assert_write_told(|list, lent| match written(list) {
        Ok(mut message) => {
            // The withdrawn length becomes 0, and what was the attribute length comes before the prefixes.
            let prefixes = message.split_off(21);
            message[19..21].copy_from_slice(&[0, 0]);
            message.extend([0, 0]);
            message.extend(&prefixes[..prefixes.len() - 2]);
            write(&message, message.len(), lent)
        }
        Err(refused) => refused,
    });
}

#[test]
fn ports_that_are_not_checked_are_told() {
    assert_write_told(|list, lent| {
        let mut valid_ports = list.to_vec();
        valid_ports.iter_mut().skip(2).step_by(3).for_each(|port| *port = 1);
        reference::message_write(&valid_ports, lent)
    });
}

#[test]
fn bytes_past_the_message_that_are_written_are_told() {
    assert_write_told(|list, lent| {
        let answer = reference::message_write(list, lent);
        if answer.number == 0 {
            lent[answer.answer[1] as usize..].fill(0);
        }
        answer
    });
}
