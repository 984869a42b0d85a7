//! UPDATE messages of RFC 4271 as bytes: laid out from their parts, drawn at random, noise that passes for one, and
//! those that two daemons sent.

use crate::random::Random;
use crate::routes::{first_bits_of, Held, Prefix};
use std::collections::BTreeSet;
use std::net::Ipv4Addr;

/// Where the fields stand, after a marker of ones. The attribute length follows the withdrawn part.
pub const LENGTH_AT: usize = 16;
pub const TYPE_AT: usize = 18;
pub const WITHDRAWN_LENGTH_AT: usize = 19;
pub const WITHDRAWN_AT: usize = 21;
/// Bytes of a message with neither prefixes nor attributes, and the most bytes of a message.
pub const BYTES_FIRST: usize = 23;
pub const BYTES_LAST: usize = 4096;

const UPDATE: u8 = 2;
/// ORIGIN, AS_PATH and NEXT_HOP, as a daemon sends them.
const ATTRIBUTES: [u8; 18] = [64, 1, 1, 0, 64, 2, 4, 2, 1, 253, 234, 64, 3, 4, 127, 0, 0, 2];

/// A message in its parts. A value may have bits set past the length: of those the message has the spare ones, in the
/// last byte of the prefix.
#[derive(Clone, PartialEq, Eq, Debug, Default)]
pub struct Message {
    pub withdrawn: Vec<Prefix>,
    pub attributes: Vec<u8>,
    pub announced: Vec<Prefix>,
}

impl Message {
    /// The message that withdraws the prefixes of these routes, in list order, and does nothing else.
    pub fn withdrawing(held: &Held) -> Message {
        Message { withdrawn: held.keys().copied().collect(), ..Message::default() }
    }

    /// A message for a table that holds these routes, with at most that many prefixes in each part: held and not held,
    /// some of them twice, some of them in both parts, many with spare bits.
    pub fn any(random: &mut Random, held: &Held, most: usize) -> Message {
        let mut drawn = Vec::new();
        let mut part = |random: &mut Random| {
            let count = random.index(most + 1);
            let from = drawn.len();
            for _ in 0..count {
                let prefix = any_prefix(random, held, &drawn);
                drawn.push(with_spare_bits(random, prefix));
            }
            drawn[from..].to_vec()
        };
        let (withdrawn, announced) = (part(random), part(random));
        let attributes = match random.below(4) {
            0 => ATTRIBUTES.to_vec(),
            1 => (0..random.below(40)).map(|_| random.word() as u8).collect(),
            _ => Vec::new(),
        };
        Message { withdrawn, attributes, announced }.cut_to_fit(random)
    }

    /// Takes prefixes off the ends of the parts until there are no more than 4,096 bytes.
    fn cut_to_fit(mut self, random: &mut Random) -> Message {
        while self.size() > BYTES_LAST {
            let part = if random.below(2) == 0 { &mut self.withdrawn } else { &mut self.announced };
            part.truncate(part.len() - part.len() / 8 - part.len().min(1));
        }
        self
    }

    /// The same with so many bytes of attributes, of whatever kind, that there are that many bytes in all.
    pub fn padded_to(mut self, size: usize) -> Message {
        self.attributes.clear();
        let bytes = size.saturating_sub(self.size());
        self.attributes = ATTRIBUTES.iter().copied().cycle().take(bytes).collect();
        self
    }

    /// How many bytes it has.
    pub fn size(&self) -> usize {
        let part = |prefixes: &[Prefix]| prefixes.iter().map(|(_, length)| 1 + prefix_bytes(*length)).sum::<usize>();
        BYTES_FIRST + part(&self.withdrawn) + self.attributes.len() + part(&self.announced)
    }

    pub fn bytes(&self) -> Vec<u8> {
        let withdrawn = bytes_of(&self.withdrawn);
        let mut message = vec![255; LENGTH_AT];
        message.extend((self.size() as u16).to_be_bytes());
        message.push(UPDATE);
        message.extend((withdrawn.len() as u16).to_be_bytes());
        message.extend(withdrawn);
        message.extend((self.attributes.len() as u16).to_be_bytes());
        message.extend(&self.attributes);
        message.extend(bytes_of(&self.announced));
        message
    }

    /// What a table that holds these routes holds after the message, if there is room for it.
    pub fn applied_to(&self, held: &Held, port: u32) -> Held {
        let cleared = |(value, length): &Prefix| (first_bits_of(*value, *length), *length);
        let mut after = held.clone();
        for prefix in self.withdrawn.iter().map(cleared) {
            after.remove(&prefix);
        }
        after.extend(self.announced.iter().map(|prefix| (cleared(prefix), port)));
        after
    }
}

/// A held prefix, one that was drawn before, one next to a held one in the trie, or any.
fn any_prefix(random: &mut Random, held: &Held, drawn: &[Prefix]) -> Prefix {
    let any = random.prefix();
    let near = held.range(any..).next().or_else(|| held.iter().next());
    match (random.below(8), near, drawn) {
        (0..=3, Some((near, _)), _) => *near,
        (4..=5, _, [_, ..]) => random.pick(drawn),
        (6, Some(((value, length), _)), _) => {
            let length = random.pick(&[length.saturating_sub(1), 32.min(length + 1)]);
            (first_bits_of(*value, length), length)
        }
        _ => any,
    }
}

/// With all bits past the length set, some or none.
fn with_spare_bits(random: &mut Random, (value, length): Prefix) -> Prefix {
    let some = random.word();
    (value | random.pick(&[0, some, u32::MAX]) & !first_bits_of(u32::MAX, length), length)
}

pub(crate) fn prefix_bytes(length: u32) -> usize {
    length.div_ceil(8) as usize
}

fn bytes_of(prefixes: &[Prefix]) -> Vec<u8> {
    let bytes = |(value, length): &Prefix| {
        let first = &value.to_be_bytes()[..prefix_bytes(*length)];
        [&[*length as u8], first].concat()
    };
    prefixes.iter().flat_map(bytes).collect()
}

/// A right head of a message of at most that many bytes more, and then bytes of which many pass for lengths. Now and
/// then an inner length leads past the end.
pub fn noise_message(random: &mut Random, most: usize) -> Vec<u8> {
    let inner = random.index(most + 1);
    let withdrawn = random.index(inner + 1);
    let attributes = random.index(inner - withdrawn + 1) * random.index(2);
    let mut message = vec![255; LENGTH_AT];
    message.extend(((BYTES_FIRST + inner) as u16).to_be_bytes());
    message.push(UPDATE);
    message.extend(near(random, withdrawn));
    message.extend((0..withdrawn).map(|_| noise_byte(random)));
    message.extend(near(random, attributes));
    message.extend((withdrawn..inner).map(|_| noise_byte(random)));
    message
}

/// A length, mostly as it is.
fn near(random: &mut Random, length: usize) -> [u8; 2] {
    let (length, any) = (length as u16, random.word() as u16);
    random.pick(&[length, length, length, length, length.wrapping_add(1), length.wrapping_sub(1), any]).to_be_bytes()
}

fn noise_byte(random: &mut Random) -> u8 {
    match random.below(8) {
        0 => random.word() as u8,
        1 => random.below(34) as u8,
        2..=4 => random.below(9) as u8,
        _ => random.below(2) as u8,
    }
}

/// What a daemon sent, in order: each message, and the prefixes that a table holds after it, if it was empty at first.
pub struct Sent {
    pub daemon: &'static str,
    pub messages: Vec<(Vec<u8>, BTreeSet<Prefix>)>,
}

/// The messages of two daemons, as they were captured.
///
/// # Panics
///
/// Where one of the two files is no such file.
pub fn captured() -> [Sent; 2] {
    [
        ("bird", include_str!("../../../examples/messages/bird.hex")),
        ("exabgp", include_str!("../../../examples/messages/exabgp.hex")),
    ]
    .map(|(daemon, text)| Sent { daemon, messages: messages_of(text) })
}

/// Comments and blank lines are skipped. A message is a line of hexadecimal digits, and after it comes a line that says
/// what is held.
fn messages_of(text: &str) -> Vec<(Vec<u8>, BTreeSet<Prefix>)> {
    let mut lines = text.lines().filter(|line| !line.is_empty() && !line.starts_with('#'));
    let mut messages = Vec::new();
    while let Some(digits) = lines.next() {
        let held = lines.next().and_then(|line| line.strip_prefix("held"));
        let held = held.unwrap_or_else(|| panic!("{digits}: the line after it does not say what is held"));
        messages.push((bytes_in(digits), held.split_whitespace().map(prefix_in).collect()));
    }
    messages
}

fn bytes_in(digits: &str) -> Vec<u8> {
    let byte = |pair: &[u8]| {
        let pair = std::str::from_utf8(pair).ok();
        pair.and_then(|pair| u8::from_str_radix(pair, 16).ok()).unwrap_or_else(|| panic!("{digits}: no bytes"))
    };
    digits.as_bytes().chunks(2).map(byte).collect()
}

fn prefix_in(text: &str) -> Prefix {
    let parsed = text.split_once('/').and_then(|(address, length)| {
        let address: Ipv4Addr = address.parse().ok()?;
        Some((address.into(), length.parse().ok()?))
    });
    parsed.unwrap_or_else(|| panic!("{text}: no prefix"))
}
