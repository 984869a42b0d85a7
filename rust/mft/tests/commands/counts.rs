//! `mft counts`: the addresses of each port.

use crate::support::{any_list, example, file_of, mft, mft_reading, seeds};
use reference::list_runs;
use std::collections::BTreeMap;
use workload::Random;

#[test]
fn ports_ascend_with_no_route_first_and_the_total_last() {
    assert_eq!(
        mft(&["counts", &example("floor.routes")]).done(),
        "no route  4,278,190,080\n\
         port 7       16,711,936\n\
         port 9           65,280\n\
         total     4,294,967,296\n"
    );
    let nothing = "no route  4,294,967,296\ntotal     4,294,967,296\n";
    assert_eq!(mft(&["counts", &example("empty.routes")]).done(), nothing);
}

#[test]
fn a_port_whose_addresses_all_have_longer_routes_has_none() {
    let text = b"10.0.0.0/8 7\n10.0.0.0/9 8\n10.128.0.0/9 9\n";
    let file = mft_reading(text, &["compile", "-", "-o", "-"]).output;
    assert!(mft_reading(&file, &["counts", "-"]).done().contains("\nport 7                0\n"));
}

#[test]
fn the_counts_are_what_the_runs_add_up_to() {
    for seed in seeds(100) {
        let list = any_list(&mut Random::new(seed));
        let mut words = vec![0; 3 * (2 * list.len() / 3 + 1)];
        let count = list_runs(&list, &mut words).answer[1] as usize;
        let mut expected: BTreeMap<u32, u64> = list.chunks(3).map(|route| (route[2], 0)).collect();
        expected.insert(0, 0);
        for run in words[..3 * count].chunks(3) {
            *expected.entry(run[2]).or_default() += u64::from(run[1] - run[0]) + 1;
        }
        let text = mft_reading(&file_of(&list), &["counts", "-"]).done();
        let counts = text.lines().filter(|line| !line.starts_with("total")).map(|line| {
            let (port, count) = line.rsplit_once(' ').expect("a line has a number");
            let port = port.trim().strip_prefix("port ").map_or(0, |port| port.parse().expect("a port is a number"));
            (port, count.replace(',', "").parse().expect("a count is a number"))
        });
        let counts: Vec<(u32, u64)> = counts.collect();
        assert_eq!(counts, expected.into_iter().collect::<Vec<_>>(), "MAFTEHON_SEED={seed}");
        assert!(text.ends_with("  4,294,967,296\n"), "{text}");
    }
}
