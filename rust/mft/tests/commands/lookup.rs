//! `mft lookup`: the port, the route that decides, and what is read.

use crate::support::{example, file_of, file_of_many, mft, mft_reading, seeds};
use reference::{image_build, image_lookup, segments_build, segments_lookup, table_build, table_lookup};
use std::net::Ipv4Addr;
use workload::{first_bits_of, list_of, Held, Kind, Prefix, Random};

/// The longest prefix that matches, in plain Rust.
fn longest_match(held: &Held, address: u32) -> Option<(Prefix, u32)> {
    let matching = held.iter().filter(|((value, length), _)| first_bits_of(address, *length) == *value);
    matching.max_by_key(|((_, length), _)| *length).map(|(prefix, port)| (*prefix, *port))
}

/// The words of each line but the first. `no route` is one of them.
fn rows(text: &str) -> Vec<Vec<String>> {
    let text = text.replace("no route", "no-route");
    text.lines().skip(1).map(|line| line.split_whitespace().map(String::from).collect()).collect()
}

#[test]
fn each_address_has_a_line() {
    assert_eq!(
        mft(&["lookup", &example("floor.routes"), "10.1.2.3", "1.2.3.4", "10.255.0.0"]).done(),
        "address     port      route        rows  nodes 4  nodes 2  nodes 1  words\n\
         10.1.2.3    7         10.1.2.0/24     1        6       12       24      3\n\
         1.2.3.4     no route  none            3        2        3        5      1\n\
         10.255.0.0  7         10.0.0.0/8      3        3        5        9      1\n"
    );
}

#[test]
fn without_routes_there_is_none() {
    let text = mft(&["lookup", &example("empty.routes"), "255.255.255.255"]).done();
    assert_eq!(rows(&text), [["255.255.255.255", "no-route", "none", "0", "1", "1", "1", "1"]]);
}

#[test]
fn the_route_that_decides_is_the_longest_match() {
    for seed in seeds(60) {
        let mut random = Random::new(seed);
        let kind = random.pick(&Kind::ALL);
        let count = random.pick(&[0, 1, 7, 63, 64, 65, 300, 4095, 4096]);
        let held = kind.routes(&mut random, count);
        let addresses: Vec<u32> = (0..50).map(|_| random.address(&held)).collect();
        let mut words = vec!["lookup".to_string(), "-".to_string()];
        words.extend(addresses.iter().map(|address| Ipv4Addr::from(*address).to_string()));
        let text = mft_reading(&file_of(&list_of(&held)), &words).done();
        assert_eq!(rows(&text).len(), addresses.len());
        for (address, row) in addresses.into_iter().zip(rows(&text)) {
            let expected = match longest_match(&held, address) {
                Some(((value, length), port)) => [port.to_string(), format!("{}/{length}", Ipv4Addr::from(value))],
                None => ["no-route".to_string(), "none".to_string()],
            };
            assert_eq!(row[0], Ipv4Addr::from(address).to_string());
            assert_eq!(row[1..3], expected, "MAFTEHON_SEED={seed}: {address}");
        }
    }
}

#[test]
fn the_last_of_4096_routes_is_told_from_the_one_before() {
    let text = mft_reading(&file_of_many(4096), &["lookup", "-", "10.0.15.255", "10.0.15.254", "10.0.0.0"]).done();
    let routes: Vec<String> = rows(&text).into_iter().map(|row| row[2].clone()).collect();
    assert_eq!(routes, ["10.0.15.255/32", "10.0.15.254/32", "10.0.0.0/32"]);
}

/// Rows, nodes at strides 4, 2 and 1, and words read, by the reference.
fn read_by_reference(list: &[u32], address: u32) -> [u32; 5] {
    let routes = list.len() / 3;
    let mut rows = vec![0; 5 * routes];
    let n = table_build(list, &mut rows).answer[1];
    let nodes = |stride: u32| {
        let (mut nodes, mut ports) = (vec![0; 2 * (1 + 32 * routes)], vec![0; 16 * (1 + 32 * routes)]);
        assert_eq!(image_build(stride, list, &mut nodes, &mut ports).number, 0);
        image_lookup(stride, &nodes, &ports, address).answer[2]
    };
    let [mut first, mut packed, mut plain, mut last] =
        [65536, 96 * routes, 256 * routes, 256 * routes].map(|size| vec![0; size]);
    assert_eq!(segments_build(list, &mut first, &mut packed, &mut plain, &mut last).number, 0);
    let words = segments_lookup(&first, &packed, &plain, &last, address).answer[2];
    [table_lookup(&rows, n, address).answer[2], nodes(4), nodes(2), nodes(1), words]
}

#[test]
fn what_is_read_is_what_the_reference_reads() {
    for seed in seeds(20) {
        let mut random = Random::new(seed);
        let held = random.pick(&Kind::ALL).routes(&mut random, 20);
        let list = list_of(&held);
        let address = random.address(&held);
        let text = mft_reading(&file_of(&list), &["lookup", "-", &Ipv4Addr::from(address).to_string()]).done();
        let read = rows(&text)[0][3..].iter().map(|word| word.parse().expect("it is a number")).collect::<Vec<u32>>();
        assert_eq!(read, read_by_reference(&list, address), "MAFTEHON_SEED={seed}");
    }
}
