//! Many lookups in one call: what each address comes to, whatever the others do, and what is left in `out`.

use compare::{on_seeds, Checker, Compared};
use workload::segments::{cut_to, room_for, Stores};
use workload::{list_of, Kind};

/// Figure 4 at stride 2: 01 to 1, 10 to 2, 000 to 3, 001 to 4, 1100 to 6, 1101 to 7, 111 to 5.
const NODES: [u32; 6] = [6, 1, 15, 2, 15, 1];
const PORTS: [u16; 10] = [1, 2, 3, 3, 4, 4, 6, 7, 5, 5];
/// Addresses by their first four bits, which take nodes 1, 2 and 3.
const IN_FIGURE_4: [u32; 6] = [12 << 28, 4 << 28, 13 << 28, 0, 4 << 28, 15 << 28];

/// 0.1 is packed segment 0 and 0.2 plain segment 0. Of either, entry 1 leads to last block 0, whose ports are 11, entry
/// 2 has port 7, and the others have port 0. All of 0.3 has port 4094.
fn stores() -> Stores {
    let mut first = vec![0; 65_536];
    first[1..4].copy_from_slice(&[32_768, 49_152, 4094]);
    let packed = [&[0xF000][..], &[4; 31], &[0, 32_768, 7], &[0; 61]].concat();
    [first, packed, [&[0, 32_768, 7][..], &[0; 253]].concat(), vec![11; 256]]
}

/// 0.1.2.9, 0.3.0.0, 0.2.1.9, 0.0.0.0, 0.2.2.9, and again 0.3.0.0.
const IN_STORES: [u32; 6] = [0x0001_0209, 0x0003_0000, 0x0002_0109, 0, 0x0002_0209, 0x0003_0000];

/// What stands in `out` before a call.
const BEFORE: u16 = 0xA5A5;

/// The call in an image at stride 2 answers this word, and leaves these elements and two that were there.
fn assert_in_image(nodes: &[u32], ports: &[u16], some_unfound: u32, elements: [u16; 6]) {
    on_seeds(1, |checker, _| {
        let mut out = [BEFORE; 8];
        let answer = checker.image_lookup_many(2, nodes, ports, &IN_FIGURE_4, &mut out)?;
        assert_eq!((answer.number, answer.answer), (0, [0, some_unfound]));
        assert_eq!((&out[..6], &out[6..]), (&elements[..], &[BEFORE; 2][..]));
        Ok(())
    });
}

/// The call in segment tables answers this word, and leaves these elements and two that were there.
fn assert_in_segments(stores: &Stores, some_unfound: u32, elements: [u16; 6]) {
    on_seeds(1, |checker, _| {
        let mut out = [BEFORE; 8];
        let answer = checker.segments_lookup_many(stores, &IN_STORES, &mut out)?;
        assert_eq!((answer.number, answer.answer), (0, [0, some_unfound]));
        assert_eq!((&out[..6], &out[6..]), (&elements[..], &[BEFORE; 2][..]));
        Ok(())
    });
}

#[test]
fn each_address_has_its_port_in_the_element_of_its_number() {
    assert_in_image(&NODES, &PORTS, 0, [6, 1, 7, 3, 1, 5]);
    assert_in_segments(&stores(), 0, [7, 4094, 11, 0, 7, 4094]);
}

#[test]
fn an_address_whose_lookup_is_refused_has_65535_and_the_others_have_their_ports() {
    // Without node 3, without leaf 7 and those after it, and with a port above 4094 at leaf 0.
    assert_in_image(&NODES[..5], &PORTS, 1, [65_535, 1, 65_535, 3, 1, 65_535]);
    assert_in_image(&NODES, &PORTS[..7], 1, [6, 1, 65_535, 3, 1, 65_535]);
    assert_in_image(&NODES, &[&[4095], &PORTS[1..]].concat(), 1, [6, 65_535, 7, 3, 65_535, 5]);
    // A segment past its store, a codeword of 0, and ports above 4094 at each level.
    for (store, place, word, elements) in [
        (0, 1, 32_769, [65_535, 4094, 11, 0, 7, 4094]),
        (1, 0, 0, [65_535, 4094, 11, 0, 7, 4094]),
        (0, 3, 4095, [7, 65_535, 11, 0, 7, 65_535]),
        (2, 2, 65_535, [7, 4094, 11, 0, 65_535, 4094]),
        (3, 9, 4095, [7, 4094, 65_535, 0, 7, 4094]),
    ] {
        let mut stores = stores();
        stores[store][place] = word;
        assert_in_segments(&stores, 1, elements);
    }
}

#[test]
fn structures_without_a_root_or_a_whole_first_table_have_65535_everywhere() {
    for words in 0..2 {
        assert_in_image(&NODES[..words], &PORTS, 1, [65_535; 6]);
    }
    for size in [0, 65_535] {
        let mut stores = stores();
        stores[0].truncate(size);
        assert_in_segments(&stores, 1, [65_535; 6]);
    }
}

#[test]
fn addresses_without_a_route_have_0_and_are_not_answered() {
    assert_in_image(&[15, 1], &[0, 0, 0, 5], 0, [5, 0, 5, 0, 0, 5]);
    assert_in_segments(&[vec![0; 65_536], vec![], vec![], vec![]], 0, [0; 6]);
}

#[test]
fn a_wrong_stride_is_refused_12_before_9() {
    on_seeds(1, |checker, _| {
        for stride in [0, 3, 5, 8, u32::MAX] {
            for room in [6, 5, 0] {
                let mut out = vec![BEFORE; room];
                let answer = checker.image_lookup_many(stride, &NODES, &PORTS, &IN_FIGURE_4, &mut out)?;
                assert_eq!((answer.number, answer.answer), (12, [0, 0]), "stride {stride}, {room} elements");
                assert!(out.iter().all(|element| *element == BEFORE), "stride {stride}, {room} elements");
            }
            let answer = checker.image_lookup_many(stride, &[], &[], &[], &mut [])?;
            assert_eq!((answer.number, answer.answer), (12, [0, 0]), "stride {stride}");
        }
        Ok(())
    });
}

#[test]
fn an_out_that_is_shorter_than_the_addresses_is_refused_9_and_unchanged() {
    on_seeds(1, |checker, _| {
        for room in 0..6 {
            let mut out = vec![BEFORE; room];
            let answer = checker.image_lookup_many(2, &NODES, &PORTS, &IN_FIGURE_4, &mut out)?;
            assert_eq!((answer.number, answer.answer), (9, [0, 0]), "{room} elements");
            let answer = checker.segments_lookup_many(&stores(), &IN_STORES, &mut out)?;
            assert_eq!((answer.number, answer.answer), (9, [0, 0]), "{room} elements");
            assert!(out.iter().all(|element| *element == BEFORE), "{room} elements");
        }
        Ok(())
    });
}

#[test]
fn with_no_address_no_damage_is_answered() {
    on_seeds(1, |checker, _| {
        for room in [0, 3] {
            let mut out = vec![65_535; room];
            let answer = checker.image_lookup_many(2, &[], &[], &[], &mut out)?;
            assert_eq!((answer.number, answer.answer), (0, [0, 0]), "{room} elements");
            let answer = checker.segments_lookup_many(&Stores::default(), &[], &mut out)?;
            assert_eq!((answer.number, answer.answer), (0, [0, 0]), "{room} elements");
            assert!(out.iter().all(|element| *element == 65_535), "{room} elements");
        }
        Ok(())
    });
}

/// Numbers of addresses about those that a loop could take at a time, and one as large as stored measurements make.
const COUNTS: [usize; 17] = [1, 2, 3, 4, 7, 8, 9, 15, 16, 17, 63, 64, 65, 255, 256, 257, 100_000];

fn image_of(checker: &mut Checker, stride: u32, list: &[u32]) -> Compared<(Vec<u32>, Vec<u16>)> {
    let nodes_most = 1 + list.len() / 3 * (32 / stride as usize - 1);
    let (built, mut nodes, mut ports) = checker.image_build(stride, list, (2 * nodes_most, nodes_most << stride))?;
    nodes.truncate(2 * built.answer[1] as usize);
    ports.truncate(built.answer[2] as usize);
    Ok((nodes, ports))
}

fn stores_of(checker: &mut Checker, list: &[u32]) -> Compared<Stores> {
    let (built, mut stores) = checker.segments_build(list, room_for(list.len() / 3))?;
    let [_, blocks @ ..] = built.answer;
    cut_to(&mut stores, blocks);
    Ok(stores)
}

#[test]
fn any_number_of_addresses_is_looked_up_alike_in_every_structure() {
    on_seeds(2, |checker, random| {
        let held = Kind::InternetLike.routes(random, 4096);
        let (list, firsts) = (list_of(&held), held.keys().map(|(value, _)| *value).collect::<Vec<u32>>());
        let stores = stores_of(checker, &list)?;
        for stride in [1, 2, 4] {
            let (nodes, ports) = image_of(checker, stride, &list)?;
            for count in COUNTS {
                let any = |_| random.pick(&firsts).wrapping_add(random.below(512));
                let addresses: Vec<u32> = (0..count).map(any).collect();
                let [mut in_image, mut in_segments] = [(); 2].map(|()| vec![BEFORE; count + 1]);
                checker.image_lookup_many(stride, &nodes, &ports, &addresses, &mut in_image)?;
                checker.segments_lookup_many(&stores, &addresses, &mut in_segments)?;
                assert!(in_image == in_segments, "{count} addresses at stride {stride}");
                assert_eq!(in_image[count], BEFORE, "{count} addresses at stride {stride}");
            }
        }
        Ok(())
    });
}
