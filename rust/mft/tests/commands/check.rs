//! `mft check`: good files, and every refusal of a file with its place.

use crate::support::{any_list, example, example_bytes, file_of, file_of_many, mft, mft_reading, seeds};
use maftehon::calls;
use std::collections::BTreeSet;
use workload::{damage_file, Random};

fn said_of(file: &[u8]) -> String {
    mft_reading(file, &["check", "-"]).refused().to_string()
}

#[test]
fn a_good_file_is_called_good() {
    let said = mft(&["check", &example("line.routes")]).done();
    let expected = "line.routes: good, 116 routes in 793 bytes; no bits are set past the length of a prefix\n";
    assert!(said.ends_with(expected), "{said}");
    assert!(mft(&["check", &example("empty.routes")]).done().contains("good, 0 routes in 5 bytes"));
    assert!(mft_reading(&file_of_many(4096), &["check", "-"]).done().contains("good, 4,096 routes in 28,677 bytes"));
}

#[test]
fn prefixes_with_bits_past_their_length_are_named() {
    let said = mft(&["check", &example("controller.routes")]).done();
    assert!(said.contains("good, 12 routes in 75 bytes\nIn 9 routes bits are set past the length of the prefix"));
    assert!(said.contains("\n   route 2   byte 8  10.156.0.0/9     is read as  10.128.0.0/9 300\n"), "{said}");
    assert!(said.contains("\n  route 12  byte 70  172.31.0.0/12    is read as  172.16.0.0/12 400\n"), "{said}");
    assert_eq!(said.lines().count(), 11);
}

#[test]
fn a_route_that_is_not_above_is_shown_with_the_one_before_it() {
    let file = [1, 0, 0, 0, 16, 32, 10, 0, 0, 1, 0, 7, 16, 10, 1, 0, 9, 8, 10, 0, 7];
    assert_eq!(
        said_of(&file),
        "mft: standard input: route 3, at byte 17, is not above the one before it (refusal 7)\n\
         \u{20} route 2  10.1.0.0/16 9\n\
         \u{20} route 3  10.0.0.0/8 7\n\
         \u{20} bytes    … 01 00 07 10 0a 01 00 09 [08 0a 00 07]\n\
         \u{20} Routes stand by address, then by length. Write the file again from its text with `mft compile`.\n"
    );
    let said = mft(&["check", &example("refused/equal-once-cleared.routes")]);
    assert!(said.refused().contains("route 2, at byte 10, has the prefix of the one before it (refusal 7)\n"));
    assert!(said.errors.contains("\n  route 2  10.129.0.0/9 8, read as 10.128.0.0/9\n"), "{}", said.errors);
}

/// A file, what is said of it, the bytes shown, and the advice.
const REFUSED: [(&[u8], &str, &str, &str); 11] = [
    (&[], "there are 0 bytes, and every route file begins with 5 (refusal 1)", "[]", "empty or cut off"),
    (&[1, 0, 0], "there are 3 bytes, and every route file begins with 5 (refusal 1)", "[01 00 00]", "Fetch the file"),
    (&[2, 0, 0, 0, 0], "its first byte is 2 (refusal 2)", "[02] 00 00 00 00", "route file at all"),
    (b"10.0.0.0/8 7\n", "its first byte is 49 (refusal 2)", "[31] 30", "looks like text. `mft compile`"),
    (b"#\n", "there are 2 bytes", "[23 0a]", "looks like text. `mft compile`"),
    (
        &[1, 0, 0, 0, 4, 8, 10, 0],
        "states that 4 bytes follow its first five, and 3 do (refusal 3)",
        "01 [00 00 00 04] 08 0a 00",
        "cut off",
    ),
    (
        &[1, 0, 0, 0, 4, 8, 10, 0, 7, 10],
        "states that 4 bytes follow its first five, and 5 do (refusal 3)",
        "[00 00 00 04]",
        "added to it",
    ),
    (
        &[1, 0, 0, 0, 3, 8, 10, 0],
        "route 1, at byte 5, runs past the end of the file: it takes 4 bytes, and 3 are left (refusal 3)",
        "[08 0a 00]",
        "cut off",
    ),
    (
        &[1, 0, 0, 0, 4, 33, 10, 0, 7],
        "route 1, at byte 5, has a prefix length of 33, and 32 is the longest (refusal 4)",
        "[21 0a 00 07]",
        "may be lost",
    ),
    (
        &[1, 0, 0, 0, 4, 8, 10, 0, 0],
        "route 1, at byte 5, has port 0, which is outside 1 to 4094 (refusal 6)",
        "[08 0a 00 00]",
        "writer's port",
    ),
    (
        &[1, 0, 0, 0, 8, 8, 10, 0, 7, 8, 10, 0, 7],
        "route 2, at byte 9, has the prefix of the one before it (refusal 7)",
        "[08 0a 00 07]",
        "Keep one",
    ),
];

#[test]
fn every_refusal_of_a_file_is_explained() {
    for (file, wrong, bytes, advice) in REFUSED {
        let said = said_of(file);
        assert!(said.lines().next().is_some_and(|line| line.contains(wrong)), "{said}");
        assert!(said.lines().any(|line| line.starts_with("  bytes ") && line.contains(bytes)), "{said}");
        assert!(said.lines().last().is_some_and(|line| line.contains(advice)), "{said}");
    }
}

#[test]
fn the_first_route_too_many_is_named() {
    let said = said_of(&file_of_many(4097));
    assert!(
        said.contains(": route 4,097, at byte 28677, is one more than the 4,096 that a file may have (refusal 8)\n")
    );
    assert!(said.contains("\n  route 4,097  10.0.16.0/32 7\n"), "{said}");
    // A fault in an earlier route comes first, and one in a later route never.
    let mut file = file_of_many(5000);
    assert!(said_of(&file).contains("(refusal 8)"));
    file[5 + 7 * 4500] = 99;
    assert!(said_of(&file).contains("(refusal 8)"));
    file[5 + 7 * 4000] = 99;
    assert!(said_of(&file).contains(": route 4,001, at byte 28005, has a prefix length of 99"), "{}", said_of(&file));
}

#[test]
fn a_damaged_file_is_explained_with_the_number_and_the_place_of_the_library() {
    let mut met = BTreeSet::new();
    for seed in seeds(3000) {
        let mut random = Random::new(seed);
        let mut file = file_of(&any_list(&mut random));
        (0..=random.below(2)).for_each(|_| damage_file(&mut file, &mut random));
        let reply = calls::file_read(&file, &mut vec![0; 3 * 4096]);
        let ran = mft_reading(&file, &["check", "-"]);
        if reply.number == 0 {
            assert!(ran.done().starts_with(&format!("standard input: good, {} route", grouped(reply.answer[1]))));
            continue;
        }
        met.insert((reply.number, reply.answer[0] > 0));
        let head = ran.refused().lines().next().unwrap_or_default().to_string();
        assert!(head.ends_with(&format!("(refusal {})", reply.number)), "MAFTEHON_SEED={seed}: {head}");
        let place = format!(", at byte {}, ", reply.answer[0]);
        assert_eq!(head.contains(", at byte "), reply.answer[0] > 0, "MAFTEHON_SEED={seed}: {head}");
        assert!(reply.answer[0] == 0 || head.contains(&place), "MAFTEHON_SEED={seed}: {head}");
    }
    let all = [(1, false), (2, false), (3, false), (3, true), (4, true), (6, true), (7, true)];
    assert!(met.is_superset(&all.into()), "{met:?}");
}

fn grouped(number: u32) -> String {
    mft::figures::grouped(number.into())
}

#[test]
fn every_command_that_reads_a_file_explains_its_refusal() {
    let (file, good) = (example("refused/not-above.routes"), example("floor.routes"));
    let names: [&[&str]; 9] = [
        &["text", &file],
        &["check", &file],
        &["lookup", &file, "10.0.0.1"],
        &["runs", &file],
        &["counts", &file],
        &["diff", &file, &good],
        &["diff", &good, &file],
        &["apply", &file, &example("messages/bird.hex"), "--port", "9", "-o", "-"],
        &["page", &file, "-o", "-"],
    ];
    let expected = mft(&["check", &file]).refused().to_string();
    for words in names {
        assert_eq!(mft(words).refused(), expected, "{words:?}");
    }
}

#[test]
fn the_bundled_refused_files_are_refused_with_their_number() {
    for name in ["no-bytes", "wrong-port", "not-above", "equal-once-cleared", "too-many-and-a-wrong-port"] {
        let page = String::from_utf8(example_bytes(&format!("refused/{name}.runs"))).expect("it is text");
        let number = page.split(' ').nth(1).expect("a page says a number");
        let ran = mft(&["check", &example(&format!("refused/{name}.routes"))]);
        assert!(ran.refused().contains(&format!("(refusal {number})\n")), "{name}: {}", ran.errors);
    }
}
