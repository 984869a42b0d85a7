//! An UPDATE message that the library has refused.

use super::around::around;
use super::Explanation;
use crate::failure::Failure;
use crate::figures::bytes;
use crate::messages::Message;
use maftehon::{Refusal, ROUTES_LAST};
use std::ops::Range;

/// Where the fields of a message stand.
const MARKER: Range<usize> = 0..16;
const LENGTH: Range<usize> = 16..18;
const TYPE_AT: usize = 18;
const WITHDRAWN_LENGTH: Range<usize> = 19..21;
/// Bytes of an UPDATE message with nothing in it.
const BYTES_FIRST: usize = 23;
const UPDATE: u8 = 2;
/// The types of RFC 4271 and RFC 2918, from 1 on.
const TYPES: [&str; 5] = ["OPEN", "UPDATE", "NOTIFICATION", "KEEPALIVE", "ROUTE-REFRESH"];

/// The failure that says why a message was refused, which is one of the file with this name.
pub fn message(file: &str, message: &Message, refusal: Refusal) -> Failure {
    let place = refusal.place() as usize;
    let (wrong, marked, advice) = match refusal {
        Refusal::BadMessage(_) => bad(&message.bytes, place),
        Refusal::LongPrefix(_) => long_prefix(&message.bytes, place),
        Refusal::NoRoom => no_room(),
        other => (other.to_string(), None, "See what the rules say under Refusals.".into()),
    };
    let details = marked.map(|marked| ("bytes".to_string(), around(&message.bytes, marked)));
    let subject = format!("{}: {}", file, message.place);
    Explanation { subject, wrong, details: details.into_iter().collect(), advice }.failure(refusal)
}

/// The failure that says why the port for a message's prefixes was refused.
pub fn port(given: &str, refusal: Refusal) -> Failure {
    let wrong = "the port is outside 1 to 4094".into();
    let advice = "Give the writer's port that announced prefixes go to.".into();
    Explanation { subject: format!("--port {given}"), wrong, details: Vec::new(), advice }.failure(refusal)
}

/// What is wrong, which bytes say so, and what to do.
type Words = (String, Option<Range<usize>>, String);

fn bad(message: &[u8], place: usize) -> Words {
    match place {
        0 => no_message(message),
        _ if place == LENGTH.start => wrong_length(message),
        TYPE_AT => {
            let found = message.get(TYPE_AT).copied().unwrap_or_default();
            let wrong = format!("byte {place}, its type, is {}, and not 2, which is UPDATE", named(found));
            (wrong, Some(place..place + 1), "Hand over UPDATE messages only.".into())
        }
        _ if place == WITHDRAWN_LENGTH.start => {
            let wrong = format!("byte {place}: the withdrawn part leaves no two bytes after it");
            (wrong, Some(WITHDRAWN_LENGTH), again())
        }
        _ if place == attribute_length_at(message) => {
            let wrong = format!("byte {place}: the path attributes run past the end");
            (wrong, Some(place..place + 2), again())
        }
        _ => {
            let length = message.get(place).copied().unwrap_or_default();
            let wrong = format!("byte {place}: a prefix of length {length} runs past its part of the message");
            (wrong, Some(place..place + 1), again())
        }
    }
}

/// Where the length of the path attributes stands: after the withdrawn part.
fn attribute_length_at(message: &[u8]) -> usize {
    WITHDRAWN_LENGTH.end + number_at(message, WITHDRAWN_LENGTH)
}

/// The two bytes of a field as a number.
fn number_at(message: &[u8], field: Range<usize>) -> usize {
    message.get(field).map_or(0, |bytes| bytes.iter().fold(0, |number, byte| number << 8 | usize::from(*byte)))
}

/// Under 23 bytes, or no marker.
fn no_message(message: &[u8]) -> Words {
    let is_keepalive = message.len() < BYTES_FIRST && message.get(TYPE_AT).is_some_and(|found| *found != UPDATE);
    let marker_is_whole = message.get(MARKER).is_some_and(|marker| marker.iter().all(|byte| *byte == 255));
    if is_keepalive && marker_is_whole {
        let wrong = format!("this is no UPDATE message, but one of type {}", named(message[TYPE_AT]));
        return (wrong, Some(TYPE_AT..TYPE_AT + 1), "Hand over UPDATE messages only.".into());
    }
    let advice = "See that it is one whole message, from its marker on.".into();
    if message.len() < BYTES_FIRST {
        let wrong = format!("this is no UPDATE message: it has {}, and the shortest has 23", bytes(message.len()));
        (wrong, Some(0..message.len()), advice)
    } else {
        ("this is no UPDATE message: its marker is not 16 bytes 255".into(), Some(MARKER), advice)
    }
}

fn wrong_length(message: &[u8]) -> Words {
    let (stated, present) = (number_at(message, LENGTH), bytes(message.len()));
    let wrong =
        format!("byte {}: its length is stated as {stated}, and it has {present}; 23 to 4,096 may be", LENGTH.start);
    (wrong, Some(LENGTH), "Cut the stream at the lengths that the messages state. It may be cut off.".into())
}

fn long_prefix(message: &[u8], place: usize) -> Words {
    let found = message.get(place).copied().unwrap_or_default();
    let wrong = format!("byte {place}: a prefix length of {found}, and 32 is the longest");
    (wrong, Some(place..place + 1), "Fetch the message again: a byte before it may be lost.".into())
}

fn no_room() -> Words {
    let wrong = format!("the table would hold more than {ROUTES_LAST} routes after it");
    (wrong, None, "Withdraw routes first, or begin with a file of fewer routes.".into())
}

fn named(number: u8) -> String {
    let name = usize::from(number).checked_sub(1).and_then(|index| TYPES.get(index));
    name.map_or_else(|| number.to_string(), |name| format!("{number}, {name}"))
}

fn again() -> String {
    "Fetch the message again: a length in it is wrong.".into()
}
