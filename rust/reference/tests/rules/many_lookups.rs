//! Rules, "Many lookups in one call": each element of `out` is what the single lookup of its address comes to, on whole
//! and on damaged images and segment tables. Typed from the rules.

use crate::support::{
    address, done, image_of, list_of, look_up_segments, refused, segments_of, Held, Random, Stores, STRIDES,
    UNTOUCHED_PORT,
};
use reference::{image_lookup, image_lookup_many, segments_lookup_many, Answer};
use workload::{damage_image, damage_segments};

/// Figure 4 at stride 2, as example 10 has it: 01 to 1, 10 to 2, 000 to 3, 001 to 4, 1100 to 6, 1101 to 7, 111 to 5.
const NODES: [u32; 6] = [6, 1, 15, 2, 15, 1];
const PORTS: [u16; 10] = [1, 2, 3, 3, 4, 4, 6, 7, 5, 5];

fn addresses_of<const N: usize>(bits: [&str; N]) -> [u32; N] {
    bits.map(address)
}

/// 0.1 leads to packed block 0 and 0.2 to plain block 0. Of either, entry 1 leads to last block 0, whose ports are 11,
/// entry 2 has port 7, and the others have port 0. All of 0.3 has port 4094.
fn stores() -> Stores {
    let mut first = vec![0; 65_536];
    first[1..4].copy_from_slice(&[32_768, 49_152, 4094]);
    let packed = [&[0xF000][..], &[4; 31], &[0, 32_768, 7, 0], &[0; 60]].concat();
    let plain = [&[0, 32_768, 7][..], &[0; 253]].concat();
    [first, packed, plain, vec![11; 256]]
}

const IN_LAST_OF_PACKED: u32 = 0x0001_0109;
const IN_PACKED: u32 = 0x0001_0209;
const IN_LAST_OF_PLAIN: u32 = 0x0002_0109;
const IN_PLAIN: u32 = 0x0002_0209;
const IN_FIRST: u32 = 0x0003_0000;
const WITHOUT_A_ROUTE: u32 = 0;

/// What the call answers in that image, and what it leaves in so many elements.
fn in_image(stride: u32, nodes: &[u32], ports: &[u16], addresses: &[u32], room: usize) -> (Answer<2>, Vec<u16>) {
    let mut out = vec![UNTOUCHED_PORT; room];
    let answer = image_lookup_many(stride, nodes, ports, addresses, &mut out);
    (answer, out)
}

/// What the call answers in these stores, and what it leaves in so many elements.
fn in_segments(stores: &Stores, addresses: &[u32], room: usize) -> (Answer<2>, Vec<u16>) {
    let mut out = vec![UNTOUCHED_PORT; room];
    let [first, packed, plain, last] = stores;
    let answer = segments_lookup_many(first, packed, plain, last, addresses, &mut out);
    (answer, out)
}

#[test]
fn each_address_has_its_port_in_the_element_of_its_number() {
    let addresses = addresses_of(["1101", "01", "0000", "111", "10", "0011", "1100"]);
    assert_eq!(in_image(2, &NODES, &PORTS, &addresses, 7), (done([0, 0]), vec![7, 1, 3, 5, 2, 4, 6]));
    let addresses = [IN_FIRST, IN_PLAIN, IN_LAST_OF_PLAIN, IN_PACKED, IN_LAST_OF_PACKED];
    assert_eq!(in_segments(&stores(), &addresses, 5), (done([0, 0]), vec![4094, 7, 11, 7, 11]));
}

#[test]
fn the_nodes_are_read_at_the_stride_that_is_given() {
    let list = [10 << 24, 8, 7, 10 << 24 | 1 << 16, 16, 9];
    let addresses = [0x0A01_0203, 0x0A02_0000, 0x0B00_0000];
    for stride in STRIDES {
        let (nodes, ports) = image_of(stride, &list);
        assert_eq!(in_image(stride, &nodes, &ports, &addresses, 3), (done([0, 0]), vec![9, 7, 0]), "stride {stride}");
    }
}

#[test]
fn an_address_without_a_route_has_element_0_and_is_not_answered() {
    // A root of stride 1 whose leaves are 0 and 5.
    assert_eq!(in_image(1, &[3, 1], &[0, 5], &[0, 1 << 31, 1], 3), (done([0, 0]), vec![0, 5, 0]));
    let addresses = [WITHOUT_A_ROUTE, IN_FIRST, u32::MAX];
    assert_eq!(in_segments(&stores(), &addresses, 3), (done([0, 0]), vec![0, 4094, 0]));
}

#[test]
fn an_address_that_comes_twice_has_its_port_twice() {
    let addresses = addresses_of(["01", "10", "01", "01"]);
    assert_eq!(in_image(2, &NODES, &PORTS, &addresses, 4), (done([0, 0]), vec![1, 2, 1, 1]));
    let addresses = [IN_PLAIN, IN_FIRST, IN_PLAIN];
    assert_eq!(in_segments(&stores(), &addresses, 3), (done([0, 0]), vec![7, 4094, 7]));
}

#[test]
fn the_rest_of_out_is_unchanged() {
    let expected = |element| [&[element][..], &[UNTOUCHED_PORT; 4]].concat();
    assert_eq!(in_image(2, &NODES, &PORTS, &[address("01")], 5), (done([0, 0]), expected(1)));
    assert_eq!(in_segments(&stores(), &[IN_FIRST], 5), (done([0, 0]), expected(4094)));
    // So too where a lookup is refused: no node, and no first table.
    assert_eq!(in_image(2, &[], &PORTS, &[0], 5), (done([0, 1]), expected(65_535)));
    assert_eq!(in_segments(&Stores::default(), &[0], 5), (done([0, 1]), expected(65_535)));
}

#[test]
fn what_out_held_before_is_not_answered() {
    let mut out = [65_535; 3];
    assert_eq!(image_lookup_many(2, &NODES, &PORTS, &[address("01")], &mut out), done([0, 0]));
    assert_eq!(out, [1, 65_535, 65_535]);
    let [first, packed, plain, last] = stores();
    let mut out = [65_535; 3];
    assert_eq!(segments_lookup_many(&first, &packed, &plain, &last, &[IN_FIRST], &mut out), done([0, 0]));
    assert_eq!(out, [4094, 65_535, 65_535]);
}

#[test]
fn no_address_is_looked_up_where_there_is_none() {
    for room in [0, 3] {
        let untouched = (done([0, 0]), vec![UNTOUCHED_PORT; room]);
        assert_eq!(in_image(2, &NODES, &PORTS, &[], room), untouched);
        assert_eq!(in_segments(&stores(), &[], room), untouched);
        // Also not in a structure where every lookup is refused.
        assert_eq!(in_image(2, &[], &[], &[], room), untouched);
        assert_eq!(in_segments(&Stores::default(), &[], room), untouched);
    }
}

#[test]
fn a_stride_other_than_1_2_4_is_refused_12_before_9_and_writes_nothing() {
    for stride in [0, 3, 5, 8, 16, 32, u32::MAX] {
        for (addresses, room) in [(&[0, 0][..], 2), (&[0, 0], 1), (&[0], 0), (&[], 1), (&[], 0)] {
            let untouched = (refused(12, [0, 0]), vec![UNTOUCHED_PORT; room]);
            assert_eq!(in_image(stride, &NODES, &PORTS, addresses, room), untouched, "stride {stride}");
            assert_eq!(in_image(stride, &[], &[], addresses, room), untouched, "stride {stride}");
        }
    }
}

#[test]
fn an_out_that_is_shorter_than_the_addresses_is_refused_9_and_writes_nothing() {
    let in_figure_4 = addresses_of(["01", "10", "1100"]);
    let in_stores = [IN_FIRST, IN_PLAIN, IN_PACKED];
    for room in 0..3 {
        let untouched = (refused(9, [0, 0]), vec![UNTOUCHED_PORT; room]);
        assert_eq!(in_image(2, &NODES, &PORTS, &in_figure_4, room), untouched, "{room} elements");
        assert_eq!(in_segments(&stores(), &in_stores, room), untouched, "{room} elements");
        // Also where every lookup would be refused.
        assert_eq!(in_image(2, &[], &[], &in_figure_4, room), untouched, "{room} elements");
        assert_eq!(in_segments(&Stores::default(), &in_stores, room), untouched, "{room} elements");
    }
    assert_eq!(in_image(2, &NODES, &PORTS, &in_figure_4, 3).0, done([0, 0]));
    assert_eq!(in_segments(&stores(), &in_stores, 3).0, done([0, 0]));
}

#[test]
fn a_lookup_that_is_refused_11_has_element_65535_and_the_others_have_their_ports() {
    let addresses = addresses_of(["1100", "01", "1101", "000"]);
    // Node 3 is past the whole nodes lent.
    assert_eq!(in_image(2, &NODES[..5], &PORTS, &addresses, 4), (done([0, 1]), vec![65_535, 1, 65_535, 3]));
    // Leaf 7 is past the ports lent.
    assert_eq!(in_image(2, &NODES, &PORTS[..7], &addresses, 4), (done([0, 1]), vec![6, 1, 65_535, 3]));
    // A port above 4094 at the leaf of 01, and one of 65,535, which is refused and not handed on.
    for port in [4095, 65_535] {
        let ports = [&[port], &PORTS[1..]].concat();
        assert_eq!(in_image(2, &NODES, &ports, &addresses, 4), (done([0, 1]), vec![6, 65_535, 7, 3]), "port {port}");
    }
}

#[test]
fn a_lookup_in_segment_tables_that_is_refused_11_has_element_65535_and_the_others_have_their_ports() {
    let addresses = [IN_PACKED, IN_FIRST, IN_LAST_OF_PLAIN, WITHOUT_A_ROUTE, IN_PLAIN];
    let with = |store: usize, at: usize, word: u16| {
        let mut stores = stores();
        stores[store][at] = word;
        in_segments(&stores, &addresses, 5)
    };
    let some_unfound = |elements: [u16; 5]| (done([0, 1]), elements.to_vec());
    // A packed segment past its store, and a codeword whose index is -1.
    assert_eq!(with(0, 1, 32_769), some_unfound([65_535, 4094, 11, 0, 7]));
    assert_eq!(with(1, 0, 0), some_unfound([65_535, 4094, 11, 0, 7]));
    // A port above 4094 in the first table, and one in a last block.
    assert_eq!(with(0, 3, 4095), some_unfound([7, 65_535, 11, 0, 7]));
    assert_eq!(with(3, 9, 4095), some_unfound([7, 4094, 65_535, 0, 7]));
    // The last address alone.
    assert_eq!(with(2, 2, 65_535), some_unfound([7, 4094, 11, 0, 65_535]));
}

#[test]
fn an_image_without_a_whole_node_has_65535_everywhere() {
    for words in 0..2 {
        assert_eq!(in_image(2, &NODES[..words], &PORTS, &[0, 1, u32::MAX], 3), (done([0, 1]), vec![65_535; 3]));
    }
}

#[test]
fn a_first_table_under_65536_entries_has_65535_everywhere() {
    let addresses = [WITHOUT_A_ROUTE, IN_FIRST, IN_PACKED, IN_PLAIN];
    for size in [0, 4, 65_535] {
        let mut stores = stores();
        stores[0].truncate(size);
        assert_eq!(in_segments(&stores, &addresses, 4), (done([0, 1]), vec![65_535; 4]), "{size} entries");
    }
    let mut stores = stores();
    stores[0].push(4095);
    assert_eq!(in_segments(&stores, &addresses, 4), (done([0, 0]), vec![0, 4094, 7, 7]));
}

/// What a single lookup comes to: its port, or 65,535 where it is refused 11.
fn alone(found: Answer<3>) -> u16 {
    match (found.number, found.answer) {
        (0, [_, port, _]) => port as u16,
        (11, _) => 65_535,
        (number, _) => panic!("a lookup was refused {number}"),
    }
}

/// What the call is to answer where the single lookups come to these elements, and to leave in two elements more.
fn expected(mut elements: Vec<u16>) -> (Answer<2>, Vec<u16>) {
    let some_unfound = elements.contains(&65_535);
    elements.extend([UNTOUCHED_PORT; 2]);
    (done([0, some_unfound.into()]), elements)
}

fn any_addresses(random: &mut Random, held: &Held) -> Vec<u32> {
    (0..random.below(40)).map(|_| random.address(held)).collect()
}

/// How often each word was answered, 0 and 1.
#[derive(Default)]
struct Answered([u32; 2]);

impl Answered {
    fn add(&mut self, answer: Answer<2>) {
        self.0[answer.answer[1] as usize] += 1;
    }

    fn assert_both_met(&self) {
        assert!(self.0.iter().all(|count| *count > 50), "both are to be met: {:?}", self.0);
    }
}

#[test]
fn addresses_in_whole_and_damaged_images_come_to_their_single_lookups() {
    let mut answered = Answered::default();
    for seed in 0..400 {
        let mut random = Random::new(seed);
        let (held, stride) = (random.held(10), random.pick(&STRIDES));
        let (mut nodes, mut ports) = image_of(stride, &list_of(&held));
        (0..random.below(3)).for_each(|_| damage_image(stride, &mut nodes, &mut ports, &mut random));
        let addresses = any_addresses(&mut random, &held);
        let elements = addresses.iter().map(|address| alone(image_lookup(stride, &nodes, &ports, *address))).collect();
        let found = in_image(stride, &nodes, &ports, &addresses, addresses.len() + 2);
        assert_eq!(found, expected(elements), "seed {seed}");
        answered.add(found.0);
    }
    answered.assert_both_met();
}

#[test]
fn addresses_in_whole_and_damaged_segment_tables_come_to_their_single_lookups() {
    let mut answered = Answered::default();
    for seed in 0..400 {
        let mut random = Random::new(seed);
        let held = random.held(10);
        let mut stores = segments_of(&list_of(&held));
        (0..random.below(3)).for_each(|_| damage_segments(&mut stores, &mut random));
        let addresses = any_addresses(&mut random, &held);
        let elements = addresses.iter().map(|address| alone(look_up_segments(&stores, *address))).collect();
        let found = in_segments(&stores, &addresses, addresses.len() + 2);
        assert_eq!(found, expected(elements), "seed {seed}");
        answered.add(found.0);
    }
    answered.assert_both_met();
}
