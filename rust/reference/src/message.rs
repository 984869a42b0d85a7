//! UPDATE messages of RFC 4271, applied to a table, and the one that withdraws a list: rules, "UPDATE messages".

use crate::file::{bytes_of_prefix, prefix_bytes, value_of};
use crate::list::routes_of;
use crate::prefix::{check_length, check_port, Prefix, Route};
use crate::refusal::{refuse, write_out, Answer, Refusal, BAD_MESSAGE, NO_ROOM};
use crate::table::{announce, capacity, routes_of_table, withdraw};
use std::collections::BTreeSet;
use std::ops::Range;

/// Where the fields stand: the marker, then these. The attribute length follows the withdrawn part.
const MARKER_AT: usize = 0;
const LENGTH_AT: usize = 16;
const TYPE_AT: usize = 18;
const WITHDRAWN_LENGTH_AT: usize = 19;
const WITHDRAWN_AT: usize = 21;
/// Bytes of each of the three lengths.
const LENGTH_BYTES: usize = 2;

const MARKER_BYTE: u8 = 255;
const UPDATE: u8 = 2;
/// A message with neither prefixes nor attributes, and the longest one.
const BYTES_FIRST: usize = WITHDRAWN_AT + LENGTH_BYTES;
const BYTES_LAST: usize = 4096;

/// What a message says, in its order, with the bits of each prefix past its length cleared, and the one port of all
/// that it announces.
pub(crate) struct Update {
    withdrawn: Vec<Prefix>,
    announced: Vec<Prefix>,
    port: u32,
}

/// Writes the message that withdraws the prefixes of a list: the list checks, then 9 for more than 4,096 bytes or more
/// than are lent. Answer: place, bytes.
pub fn message_write(list: &[u32], message: &mut [u8]) -> Answer<2> {
    Answer::of(write_into(list, message), [0])
}

/// Applies an update to any rows, whole or not at all: 11, then 9 for more routes in the end than the capacity.
/// Gives n.
pub(crate) fn apply(rows: &mut [u32], n: u32, update: Update) -> Result<[u32; 1], Refusal> {
    let Update { withdrawn, announced, port } = update;
    let mut held: BTreeSet<Prefix> = routes_of_table(rows, n)?.iter().map(|route| route.prefix).collect();
    if final_set(&held, &withdrawn, &announced).len() > capacity(rows) as usize {
        return refuse(NO_ROOM, 0);
    }
    // A prefix in both parts counts as announced only.
    let remaining = withdrawn.into_iter().filter(|prefix| !announced.contains(prefix));
    // From here on each call takes the table a step, as if it came alone, and none is refused.
    let mut n = n;
    for prefix in remaining {
        // What is not held, or not any more, is ignored.
        if held.remove(&prefix) {
            [n] = withdraw(rows, n, prefix).expect("the prefix is held");
        }
    }
    for prefix in &announced {
        [n] = announce(rows, n, Route { prefix: *prefix, port }).expect("there is room for the final set");
    }
    Ok([n])
}

/// What was held, without what is withdrawn, and then with what is announced.
fn final_set(held: &BTreeSet<Prefix>, withdrawn: &[Prefix], announced: &[Prefix]) -> BTreeSet<Prefix> {
    let mut last = held.clone();
    for prefix in withdrawn {
        last.remove(prefix);
    }
    last.extend(announced);
    last
}

/// 14 at the head's fields; 4, 14 at each prefix; then 6 at place 0, also where nothing is announced.
pub(crate) fn update_of(message: &[u8], port: u32) -> Result<Update, Refusal> {
    let [withdrawn, announced] = parts_of(message)?;
    let [withdrawn, announced] = [prefixes_in(message, withdrawn)?, prefixes_in(message, announced)?];
    check_port(port, 0)?;
    Ok(Update { withdrawn, announced, port })
}

/// Where the withdrawn and the announced prefixes stand, in a message whose head is right.
fn parts_of(message: &[u8]) -> Result<[Range<usize>; 2], Refusal> {
    let size = message.len();
    if size < BYTES_FIRST {
        return refuse(BAD_MESSAGE, 0);
    }
    if message[MARKER_AT..LENGTH_AT].iter().any(|byte| *byte != MARKER_BYTE) {
        return refuse(BAD_MESSAGE, MARKER_AT as u32);
    }
    let stated = length_at(message, LENGTH_AT);
    if !(BYTES_FIRST..=BYTES_LAST).contains(&stated) || stated != size {
        return refuse(BAD_MESSAGE, LENGTH_AT as u32);
    }
    if message[TYPE_AT] != UPDATE {
        return refuse(BAD_MESSAGE, TYPE_AT as u32);
    }
    // The attribute length stands after the withdrawn part, and is to have its two bytes there.
    let attribute_length_at = WITHDRAWN_AT + length_at(message, WITHDRAWN_LENGTH_AT);
    let attributes_at = attribute_length_at + LENGTH_BYTES;
    if attributes_at > size {
        return refuse(BAD_MESSAGE, WITHDRAWN_LENGTH_AT as u32);
    }
    // The attributes are passed over, whatever they say.
    let announced_at = attributes_at + length_at(message, attribute_length_at);
    if announced_at > size {
        return refuse(BAD_MESSAGE, attribute_length_at as u32);
    }
    Ok([WITHDRAWN_AT..attribute_length_at, announced_at..size])
}

/// Two bytes, the more significant first.
fn length_at(message: &[u8], at: usize) -> usize {
    usize::from(u16::from_be_bytes([message[at], message[at + 1]]))
}

/// The prefixes of a part, which the last of them fills just to its end.
fn prefixes_in(message: &[u8], part: Range<usize>) -> Result<Vec<Prefix>, Refusal> {
    let mut prefixes = Vec::new();
    let mut at = part.start;
    while at < part.end {
        let place = at as u32;
        let length = u32::from(message[at]);
        // The length comes before the cut, as in a file.
        check_length(length, place)?;
        let next = at + 1 + prefix_bytes(length);
        if next > part.end {
            return refuse(BAD_MESSAGE, place);
        }
        prefixes.push(Prefix::checked(value_of(&message[at + 1..next], length), length, place)?);
        at = next;
    }
    Ok(prefixes)
}

fn write_into(list: &[u32], lent: &mut [u8]) -> Result<[u32; 1], Refusal> {
    let message = withdrawal_of(&routes_of(list)?);
    if message.len() > BYTES_LAST {
        return refuse(NO_ROOM, 0);
    }
    write_out(&message, lent)?;
    Ok([message.len() as u32])
}

/// The message, of whatever size: 4,096 routes take 20,503 bytes at most, which two bytes can state.
fn withdrawal_of(routes: &[Route]) -> Vec<u8> {
    let withdrawn: Vec<u8> = routes.iter().flat_map(|route| bytes_of_prefix(route.prefix)).collect();
    let mut message = vec![MARKER_BYTE; LENGTH_AT];
    message.extend(((BYTES_FIRST + withdrawn.len()) as u16).to_be_bytes());
    message.push(UPDATE);
    message.extend((withdrawn.len() as u16).to_be_bytes());
    message.extend(withdrawn);
    // No attributes, and nothing announced.
    message.extend(0u16.to_be_bytes());
    message
}
