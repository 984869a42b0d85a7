//! Messages are laid out as RFC 4271 has them, drawn with all that a table could meet in one, and damaged at the edges of
//! every length; any bytes pass for one.

use std::collections::{BTreeMap, BTreeSet};
use workload::messages::{captured, noise_message, BYTES_LAST};
use workload::{damage_message, first_bits_of, Held, Message, Prefix, Random};

/// 10.1.0.0/16 withdrawn, three bytes of attributes, and 10.0.0.0/8 and 10.128.0.0/9 announced, with two spare bits.
fn example() -> Message {
    Message {
        withdrawn: vec![(0x0A01_0000, 16)],
        attributes: vec![64, 1, 0],
        announced: vec![(10 << 24, 8), (0x0A83_0000, 9)],
    }
}

#[test]
fn a_message_is_laid_out_byte_by_byte() {
    let bytes = example().bytes();
    assert_eq!(bytes[..16], [255; 16]);
    assert_eq!(bytes[16..], [0, 34, 2, 0, 3, 16, 10, 1, 0, 3, 64, 1, 0, 8, 10, 9, 10, 0x83]);
    assert_eq!((bytes.len(), example().size()), (34, 34));
    assert_eq!(Message::default().bytes()[16..], [0, 23, 2, 0, 0, 0, 0]);
}

#[test]
fn a_message_leaves_what_it_announces_and_what_it_does_not_withdraw() {
    let held = Held::from([((0, 0), 1), ((10 << 24, 8), 2), ((0x0A01_0000, 16), 3)]);
    let after = Held::from([((0, 0), 1), ((10 << 24, 8), 9), ((0x0A80_0000, 9), 9)]);
    assert_eq!(example().applied_to(&held, 9), after);
    // A prefix in both parts is announced, once its spare bits are cleared.
    let both = Message { withdrawn: vec![(0x0AFF_0000, 9)], announced: vec![(0x0A80_0000, 9)], ..Message::default() };
    assert_eq!(both.applied_to(&Held::new(), 9), Held::from([((0x0A80_0000, 9), 9)]));
    assert_eq!(Message::withdrawing(&held).applied_to(&held, 9), Held::new());
}

#[test]
fn a_message_is_padded_with_attributes() {
    for size in [34, 40, 4096, 4097, 65_535] {
        let padded = example().padded_to(size);
        assert_eq!((padded.size(), padded.bytes().len()), (size, size));
        assert_eq!((padded.withdrawn, padded.announced), (example().withdrawn, example().announced));
    }
}

/// What is met in random messages for a table of some routes, and how often.
fn met() -> BTreeMap<&'static str, u32> {
    let mut met = BTreeMap::new();
    for seed in 0..500 {
        let mut random = Random::new(seed);
        let held = random.held(12);
        let message = Message::any(&mut random, &held, 8);
        assert!(message.bytes().len() == message.size() && message.size() <= BYTES_LAST, "seed {seed}");
        let cleared = |(value, length): &Prefix| (first_bits_of(*value, *length), *length);
        let withdrawn: Vec<Prefix> = message.withdrawn.iter().map(cleared).collect();
        let announced: Vec<Prefix> = message.announced.iter().map(cleared).collect();
        let is_twice = |part: &[Prefix]| part.iter().collect::<BTreeSet<_>>().len() < part.len();
        let is_held = |prefix: &Prefix| held.contains_key(prefix);
        for (what, is_met) in [
            ("no prefix", withdrawn.is_empty() && announced.is_empty()),
            ("attributes", !message.attributes.is_empty()),
            ("withdrawn and held", withdrawn.iter().any(is_held)),
            ("withdrawn and not held", withdrawn.iter().any(|prefix| !is_held(prefix))),
            ("announced and held", announced.iter().any(is_held)),
            ("announced and new", announced.iter().any(|prefix| !is_held(prefix))),
            ("withdrawn twice", is_twice(&withdrawn)),
            ("announced twice", is_twice(&announced)),
            ("in both parts", withdrawn.iter().any(|prefix| announced.contains(prefix))),
            ("spare bits", withdrawn != message.withdrawn || announced != message.announced),
            ("more routes", message.applied_to(&held, 1).len() > held.len()),
            ("fewer routes", message.applied_to(&held, 1).len() < held.len()),
        ] {
            *met.entry(what).or_default() += u32::from(is_met);
        }
    }
    met
}

#[test]
fn random_messages_meet_every_case() {
    let met = met();
    assert!(met.values().all(|count| *count >= 5), "{met:?}");
}

#[test]
fn a_random_message_of_many_prefixes_is_cut_to_4096_bytes() {
    for seed in 0..50 {
        let mut random = Random::new(seed);
        let held = random.held(200);
        let message = Message::any(&mut random, &held, 2000);
        assert!(message.size() <= BYTES_LAST && message.bytes().len() == message.size(), "seed {seed}");
    }
}

/// What a message becomes by one damage, on a row of seeds.
fn damaged() -> impl Iterator<Item = Vec<u8>> {
    (0..20_000).map(|seed| {
        let mut damaged = example().bytes();
        damage_message(&mut damaged, &mut Random::new(seed));
        damaged
    })
}

#[test]
fn each_edge_of_a_length_is_met() {
    let right = example().bytes();
    // The values that the two bytes at an offset come to have where nothing else is changed.
    let mut met: BTreeMap<usize, BTreeSet<u16>> = BTreeMap::new();
    for damaged in damaged().filter(|damaged| damaged.len() == right.len()) {
        for at in [16, 19, 24] {
            let others = |bytes: &[u8]| [&bytes[..at], &bytes[at + 2..]].concat();
            if others(&damaged) == others(&right) {
                met.entry(at).or_default().insert(u16::from_be_bytes([damaged[at], damaged[at + 1]]));
            }
        }
    }
    // One less and one more, and at each offset the edges: the ends of the message, and what leaves two bytes.
    for (at, edges) in
        [(16, &[33, 35, 0, 22, 23, 4096, 4097][..]), (19, &[2, 4, 0, 11, 12, 13]), (24, &[2, 4, 0, 8, 9])]
    {
        assert!(edges.iter().all(|edge| met[&at].contains(edge)), "at {at}: {:?}", met[&at]);
    }
}

#[test]
fn each_kind_of_wrong_prefix_and_head_is_met() {
    let right = example().bytes();
    let differs_at = |damaged: &[u8], at: usize| {
        damaged.len() == right.len() && (0..right.len()).all(|other| (damaged[other] == right[other]) == (other != at))
    };
    // Each byte of the head, the attribute length, and the length bytes of the three prefixes.
    let mut met: BTreeMap<usize, BTreeSet<u8>> = BTreeMap::new();
    for damaged in damaged() {
        for at in (0..right.len()).filter(|at| differs_at(&damaged, *at)) {
            met.entry(at).or_default().insert(damaged[at]);
        }
    }
    assert_eq!(met.keys().copied().collect::<Vec<_>>(), (0..right.len()).collect::<Vec<_>>());
    for place in [21, 29, 31] {
        assert!([0, 32, 33, 255].iter().all(|length| met[&place].contains(length)), "at {place}: {:?}", met[&place]);
    }
    assert!([0, 1, 3, 4, 5].iter().all(|kind| met[&18].contains(kind)), "{:?}", met[&18]);
}

#[test]
fn short_and_long_messages_are_met_with_their_length_restated_and_not() {
    let mut met = BTreeSet::new();
    for damaged in damaged().filter(|damaged| damaged.len() >= 18) {
        let stated = u16::from_be_bytes([damaged[16], damaged[17]]);
        met.insert((damaged.len(), usize::from(stated) == damaged.len()));
    }
    for size in [23, 24, 33, 35, 37] {
        assert!(met.contains(&(size, true)) && met.contains(&(size, false)), "{size}: {met:?}");
    }
}

#[test]
fn any_bytes_pass_for_a_message() {
    for seed in 0..2000 {
        let mut random = Random::new(seed);
        let mut message: Vec<u8> = (0..random.below(60)).map(|_| random.word() as u8).collect();
        (0..10).for_each(|_| damage_message(&mut message, &mut random));
    }
}

#[test]
fn noise_has_the_head_of_a_message_of_its_size() {
    for seed in 0..1000 {
        let noise = noise_message(&mut Random::new(seed), 40);
        assert_eq!(noise[..16], [255; 16], "seed {seed}");
        assert_eq!((usize::from(noise[17]), noise[16], noise[18]), (noise.len(), 0, 2), "seed {seed}");
        assert!((23..=63).contains(&noise.len()), "seed {seed}");
    }
}

#[test]
fn two_daemons_sent_four_messages_each() {
    for sent in captured() {
        let sizes: Vec<(usize, usize)> =
            sent.messages.iter().map(|(message, held)| (message.len(), held.len())).collect();
        match sent.daemon {
            "bird" => assert_eq!(sizes, [(60, 6), (23, 6), (40, 1), (49, 3)]),
            _ => assert_eq!(sizes, [(23, 0), (60, 6), (34, 3), (46, 3)]),
        }
    }
}
