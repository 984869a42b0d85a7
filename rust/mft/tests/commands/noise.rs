//! Whatever is in a file, a command ends with 0, 1 or 2, and never half done.

use crate::support::{example_bytes, mft, seeds, Folder, Ran};
use workload::messages::noise_message;
use workload::{damage_file, damage_message, Random};

/// Bytes that are text or none, damaged sources of every kind among them.
fn any_bytes(random: &mut Random) -> Vec<u8> {
    let count = random.index(200);
    let mut bytes = match random.below(9) {
        0 => (0..count).map(|_| random.word() as u8).collect(),
        1 => (0..count).map(|_| random.pick(b"0123456789./ \t\r\n#af")).collect(),
        2 => example_bytes("line.txt"),
        3 => example_bytes("line.routes"),
        4 => example_bytes("messages/bird.hex"),
        5 => noise_message(random, 100),
        6 => example_bytes("line.ports"),
        7 => [noise_message(random, 100), noise_message(random, 10)].concat(),
        _ => b"\xEF\xBB\xBF\xFF\xFE \xE2\x80\xA8 10.0.0.0/8 7".to_vec(),
    };
    for _ in 0..random.below(4) {
        if random.below(2) == 0 {
            damage_file(&mut bytes, random);
        } else {
            damage_message(&mut bytes, random);
        }
    }
    bytes
}

fn assert_ended_well(ran: &Ran, what: &str) {
    assert!(ran.status < 2, "{what}: {}", ran.errors);
    assert!(ran.status == 0 || ran.errors.starts_with("mft: ") || what.contains("diff"), "{what}: {}", ran.errors);
    assert!(ran.errors.chars().all(|c| "\n\t".contains(c) || !c.is_control()), "{what}: {:?}", ran.errors);
}

#[test]
fn every_command_ends_well_on_any_bytes() {
    let folder = Folder::new();
    for seed in seeds(1500) {
        let mut random = Random::new(seed);
        let [one, two] = ["one", "two"].map(|name| folder.with(name, any_bytes(&mut random)));
        let good = folder.with("good", example_bytes("line.routes"));
        let new = folder.file("new");
        let calls: [&[&str]; 11] = [
            &["compile", &one, "-o", &new],
            &["text", &one],
            &["check", &one],
            &["lookup", &one, "10.0.0.1"],
            &["runs", &one],
            &["counts", &one],
            &["diff", &one, &two],
            &["diff", &good, &two],
            &["apply", &good, &one, &two, "-p", "9", "-o", &new],
            &["page", &good, "--names", &one, "-o", &new],
            &["page", &one, "--names", &two, "-o", &new],
        ];
        for words in calls {
            let ran = mft(words);
            assert_ended_well(&ran, &format!("MAFTEHON_SEED={seed} {words:?}"));
            let written = std::fs::remove_file(&new).is_ok();
            assert_eq!(written, ran.status == 0 && words.contains(&"-o"), "MAFTEHON_SEED={seed} {words:?}");
        }
        assert_eq!(folder.names(), ["good", "one", "two"]);
    }
}
