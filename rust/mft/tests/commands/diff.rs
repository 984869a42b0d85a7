//! `mft diff`: every run of addresses whose port changes, and no other.

use crate::support::{example, file_of, mft, seeds, Folder};
use reference::{list_runs, list_scan};
use std::net::Ipv4Addr;
use workload::{list_of, Held, Kind, Random};

/// First and last address, the two ports, and how many addresses.
#[derive(Clone, Copy, PartialEq, Eq, Debug)]
struct Change {
    first: u32,
    last: u32,
    from: u32,
    to: u32,
    count: u64,
}

fn change_of(line: &str) -> Change {
    let line = line.replace("no route", "port 0");
    let words: Vec<&str> = line.split_whitespace().collect();
    let [first, last, "port", from, "to", "port", to, count, noun] = words[..] else { panic!("{line}") };
    let address = |text: &str| u32::from(text.parse::<Ipv4Addr>().expect("it is an address"));
    let port = |text: &str| text.parse().expect("it is a port");
    let count: u64 = count.replace(',', "").parse().expect("it is a number");
    assert_eq!(noun, if count == 1 { "address" } else { "addresses" });
    Change { first: address(first), last: address(last), from: port(from), to: port(to), count }
}

/// What is printed, and the exit status.
fn diff(old: &[u8], new: &[u8]) -> (String, u8) {
    let folder = Folder::new();
    let ran = mft(&["diff", &folder.with("old.routes", old), &folder.with("new.routes", new)]);
    assert_eq!(ran.errors, "");
    (ran.text(), ran.status)
}

/// The addresses at which a run ends or begins.
fn ends(list: &[u32]) -> Vec<u32> {
    let mut words = vec![0; 3 * (2 * list.len() / 3 + 1)];
    let count = list_runs(list, &mut words).answer[1] as usize;
    words[..3 * count].chunks(3).flat_map(|run| [run[0], run[1]]).collect()
}

fn port_of(list: &[u32], address: u32) -> u32 {
    list_scan(list, address).answer[1]
}

/// The routes with some changed, some gone and some new.
fn changed(held: &Held, random: &mut Random) -> Held {
    let mut other = held.clone();
    for _ in 0..random.below(6) {
        let at = random.index(held.len().max(1));
        let prefix = held.keys().nth(at).copied().unwrap_or((0, 0));
        match random.below(3) {
            0 => drop(other.remove(&prefix)),
            1 => drop(other.insert(prefix, random.port())),
            _ => drop(other.insert(random.prefix(), random.port())),
        }
    }
    other
}

#[test]
fn every_address_at_an_end_of_a_run_changes_as_a_scan_of_both_lists_says() {
    let mut different = 0;
    for seed in seeds(200) {
        let mut random = Random::new(seed);
        let count = random.index(40);
        let held = random.pick(&Kind::ALL).routes(&mut random, count);
        let [old, new] = [list_of(&held), list_of(&changed(&held, &mut random))];
        let (text, status) = diff(&file_of(&old), &file_of(&new));
        let lines: Vec<&str> = text.lines().collect();
        let (closing, lines) = lines.split_last().expect("a line closes it");
        let changes: Vec<Change> =
            if status == 0 { Vec::new() } else { lines.iter().map(|line| change_of(line)).collect() };
        different += changes.len();
        for address in [ends(&old), ends(&new)].concat() {
            let [from, to] = [&old, &new].map(|list| port_of(list, address));
            let found = changes.iter().find(|change| (change.first..=change.last).contains(&address));
            let expected = (from != to).then_some((from, to));
            assert_eq!(found.map(|change| (change.from, change.to)), expected, "MAFTEHON_SEED={seed}: {address}");
        }
        for change in &changes {
            assert_eq!(change.count, u64::from(change.last - change.first) + 1, "MAFTEHON_SEED={seed}");
        }
        for pair in changes.windows(2) {
            let one_run = pair[0].last.checked_add(1) == Some(pair[1].first)
                && (pair[0].from, pair[0].to) == (pair[1].from, pair[1].to);
            assert!(pair[0].last < pair[1].first && !one_run, "MAFTEHON_SEED={seed}: {pair:?}");
        }
        let total: u64 = changes.iter().map(|change| change.count).sum();
        let said = format!(": {} of 4,294,967,296 addresses change the port", mft::figures::grouped(total));
        assert!(closing.ends_with(&said) == (status == 1), "MAFTEHON_SEED={seed}: {closing}");
    }
    assert!(different > 200, "{different} changes");
}

#[test]
fn a_change_has_a_line_and_the_last_line_has_the_total() {
    let folder = Folder::new();
    let text = "10.0.0.0/8 7\n10.1.0.0/16 9\n10.1.2.0/24 8\n11.0.0.0/32 1\n";
    let new = folder.file("new.routes");
    mft(&["compile", &folder.with("new.txt", text), "-o", &new]).done();
    let ran = mft(&["diff", &example("floor.routes"), &new]);
    assert_eq!(
        (ran.status, ran.text().as_str()),
        (
            1,
            "10.1.2.0  10.1.2.255  port 7    to  port 8  256  addresses\n\
             11.0.0.0  11.0.0.0    no route  to  port 1    1  address\n\
             2 runs: 257 of 4,294,967,296 addresses change the port\n"
        )
    );
}

#[test]
fn equal_files_change_nothing() {
    let file = example("line.routes");
    assert_eq!(
        mft(&["diff", &file, &file]).done(),
        "no address changes the port: both files have the same 116 routes\n"
    );
}

#[test]
fn different_routes_may_send_every_address_the_same_way() {
    let route = |value: u32, length| [value, length, 7];
    let whole = file_of(&route(0x0A00_0000, 8));
    let halves = file_of(&[route(0x0A00_0000, 9), route(0x0A80_0000, 9)].concat());
    let said = "no address changes the port, though the routes differ: \
                1 route in the old file alone, 2 routes in the new one\n";
    assert_eq!(diff(&whole, &halves), (said.to_string(), 0));
}

#[test]
fn everything_may_change() {
    let (empty, whole) = (file_of(&[]), file_of(&[0, 0, 1]));
    let (text, status) = diff(&empty, &whole);
    assert_eq!(status, 1);
    assert!(text.ends_with("\n1 run: 4,294,967,296 of 4,294,967,296 addresses change the port\n"), "{text}");
}

#[test]
fn a_missing_file_is_no_difference() {
    let file = example("line.routes");
    for words in [["diff", &file, "missing.routes"], ["diff", "missing.routes", &file]] {
        assert!(mft(&words).not_tried().starts_with("mft: missing.routes: cannot be read: "));
    }
}
