//! Files of UPDATE messages: as bytes, one message after the other, or as text, one message a line in hexadecimal.

use crate::failure::Failure;
use crate::input::Source;
use crate::lines::{self, Fault, Line};

/// Every message begins with sixteen of these.
const MARKER_BYTE: u8 = 255;
/// Where the two bytes of a message's length stand.
const LENGTH_AT: usize = 16;
/// The bytes of a message up to its type, which every kind of BGP message has.
const HEAD_BYTES: usize = 19;
/// The first word of a line that says what is held after the message before it.
const HELD: &str = "held";

/// A message as it stands in a file.
#[derive(Clone, PartialEq, Eq, Debug)]
pub struct Message {
    /// Where it stands: `line 5`, or `message 2, at byte 60`.
    pub place: String,
    /// What is handed to the library.
    pub bytes: Vec<u8>,
}

/// The messages of a file, in order.
///
/// # Errors
///
/// The lines of a text that are no bytes in hexadecimal.
pub fn of(source: &Source) -> Result<Vec<Message>, Failure> {
    if is_text(&source.bytes) {
        in_hexadecimal(source)
    } else {
        Ok(in_bytes(&source.bytes))
    }
}

/// A message begins with a byte that begins no text, and has bytes that stand in none, such as its type. What has
/// neither a first byte nor lines is a message of no bytes.
fn is_text(bytes: &[u8]) -> bool {
    let is_control = |byte: &u8| byte.is_ascii_control() && !b"\t\n\r".contains(byte);
    bytes.first().is_some_and(|first| *first != MARKER_BYTE) && !bytes.iter().any(is_control)
}

/// The bytes parted at the lengths that the messages state. What cannot be parted so is left whole, and the library
/// says what is wrong with it.
fn in_bytes(bytes: &[u8]) -> Vec<Message> {
    let mut messages = Vec::new();
    let mut at = 0;
    loop {
        let rest = &bytes[at..];
        let size = stated_length(rest).unwrap_or(rest.len());
        let place = format!("message {}, at byte {at}", messages.len() + 1);
        messages.push(Message { place, bytes: rest[..size].to_vec() });
        at += size;
        if at == bytes.len() {
            return messages;
        }
    }
}

/// The length that the first message states, if it has its head and so many bytes are there.
fn stated_length(rest: &[u8]) -> Option<usize> {
    let length = u16::from_be_bytes([*rest.get(LENGTH_AT)?, *rest.get(LENGTH_AT + 1)?]);
    Some(usize::from(length)).filter(|length| (HEAD_BYTES..=rest.len()).contains(length))
}

fn in_hexadecimal(source: &Source) -> Result<Vec<Message>, Failure> {
    let lines = lines::of(source)?;
    let (messages, faults) = lines::read(&lines, message_of);
    if faults.is_empty() {
        Ok(messages)
    } else {
        Err(faults.failure(source, &lines))
    }
}

/// The message of a line; none where there is a comment, nothing, or what is held.
fn message_of(line: &Line) -> Result<Option<Message>, Fault> {
    let words = line.words();
    let Some(first) = words.first().filter(|first| first.text != HELD) else { return Ok(None) };
    let content = line.content();
    if let Some((at, wrong)) = content.char_indices().find(|(_, c)| !c.is_ascii_hexdigit() && !" \t".contains(*c)) {
        let advice = "Write a message as pairs of the digits 0 to 9 and a to f, and put a # before a comment.";
        return Err(line.fault(at..at + wrong.len_utf8(), "this is no hexadecimal digit", advice));
    }
    let digits: Vec<u8> = words.iter().flat_map(|word| word.text.bytes()).filter_map(value_of).collect();
    if digits.len() % 2 == 1 {
        let last = words.last().map_or(first.at.clone(), |last| last.at.end - 1..last.at.end);
        let wrong = format!("there are {} digits, and a byte has two", digits.len());
        return Err(line.fault(last, wrong, "See whether a digit is lost, or the line cut off."));
    }
    let bytes = digits.chunks_exact(2).map(|pair| pair[0] << 4 | pair[1]).collect();
    Ok(Some(Message { place: format!("line {}", line.number), bytes }))
}

/// The value of a hexadecimal digit.
fn value_of(digit: u8) -> Option<u8> {
    u8::try_from(char::from(digit).to_digit(16)?).ok()
}
