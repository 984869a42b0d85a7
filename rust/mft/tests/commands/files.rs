//! Files that are missing, and files that are written whole or not at all.

use crate::support::{example, example_bytes, mft, mft_reading, Folder};
use std::ffi::{OsStr, OsString};
use std::fs;
use std::io::Read;
use std::os::unix::ffi::OsStrExt;
use std::os::unix::fs::{symlink, PermissionsExt};

#[test]
fn a_file_that_cannot_be_read_is_named_and_is_no_refusal() {
    let (folder, good) = (Folder::new(), example("floor.routes"));
    let (missing, inside) = (folder.file("missing"), folder.path().to_str().expect("it is text").to_string());
    for file in [&missing, &inside] {
        let words: [&[&str]; 12] = [
            &["compile", file, "-o", "-"],
            &["text", file],
            &["check", file],
            &["lookup", file, "10.0.0.1"],
            &["runs", file],
            &["counts", file],
            &["diff", file, &good],
            &["diff", &good, file],
            &["apply", file, &good, "-p", "9", "-o", "-"],
            &["apply", &good, file, "-p", "9", "-o", "-"],
            &["page", file, "-o", "-"],
            &["page", &good, "--names", file, "-o", "-"],
        ];
        for words in words {
            let ran = mft(words);
            assert!(ran.not_tried().starts_with(&format!("mft: {file}: cannot be read: ")), "{}", ran.errors);
        }
    }
}

/// The calls that write a file, of something good and of something that is refused.
fn writing<'a>(target: &'a str, sources: &'a [String; 6]) -> [[Vec<&'a str>; 2]; 3] {
    let [text, wrong_text, good, wrong, message, wrong_message] = sources.each_ref().map(String::as_str);
    [
        [vec!["compile", text, "-o", target], vec!["compile", wrong_text, "-o", target]],
        [
            vec!["apply", good, message, "-p", "9", "-o", target],
            vec!["apply", good, message, wrong_message, "-p", "9", "-o", target],
        ],
        [vec!["page", good, "-o", target], vec!["page", wrong, "-o", target]],
    ]
}

fn sources(folder: &Folder) -> [String; 6] {
    [
        example("floor.txt"),
        folder.with("wrong.txt", "10.0.0.0/8 7\n10.0.0.0/8 8\n"),
        example("floor.routes"),
        example("refused/not-above.routes"),
        example("messages/bird.hex"),
        folder.with("wrong.hex", "ff"),
    ]
}

#[test]
fn a_refused_call_leaves_the_target_as_it_was_and_nothing_beside_it() {
    let (inputs, folder) = (Folder::new(), Folder::new());
    let target = folder.with("target", "as it was");
    for [good, wrong] in writing(&target, &sources(&inputs)) {
        mft(&wrong).refused();
        assert_eq!(fs::read(&target).expect("it is there"), b"as it was", "{wrong:?}");
        mft(&good).done();
        assert_ne!(fs::read(&target).expect("it is there"), b"as it was", "{good:?}");
        assert_eq!(folder.names(), ["target"]);
        fs::write(&target, "as it was").expect("it can be written");
    }
}

#[test]
fn a_target_that_cannot_be_written_is_named_and_nothing_is_left() {
    let (inputs, folder) = (Folder::new(), Folder::new());
    fs::create_dir(folder.path().join("inside")).expect("a folder can be made");
    for name in ["missing/target", "inside", "inside/", "missing/", "x/../target/"] {
        let target = folder.file(name);
        for [good, _] in writing(&target, &sources(&inputs)) {
            let ran = mft(&good);
            assert!(ran.not_tried().starts_with(&format!("mft: {target}: cannot be written: ")), "{}", ran.errors);
            assert_eq!(folder.names(), ["inside"]);
            assert_eq!(fs::read_dir(folder.path().join("inside")).expect("it is there").count(), 0);
        }
    }
    let ran = mft(&["compile", &example("floor.txt"), "-o", ""]);
    assert!(ran.not_tried().starts_with("mft: : cannot be written: "), "{}", ran.errors);
}

#[test]
fn whoever_reads_the_old_file_meanwhile_has_all_of_it() {
    let folder = Folder::new();
    let target = folder.with("target", "as it was");
    let mut reader = fs::File::open(&target).expect("it is there");
    mft(&["compile", &example("floor.txt"), "-o", &target]).done();
    let mut text = String::new();
    reader.read_to_string(&mut text).expect("it can be read");
    assert_eq!(text, "as it was");
    assert_eq!(fs::read(&target).expect("it is there"), example_bytes("floor.routes"));
}

#[test]
fn a_target_keeps_who_may_read_it() {
    let folder = Folder::new();
    let target = folder.with("target", "");
    fs::set_permissions(&target, fs::Permissions::from_mode(0o640)).expect("they can be set");
    mft(&["compile", &example("floor.txt"), "-o", &target]).done();
    assert_eq!(fs::metadata(&target).expect("it is there").permissions().mode() & 0o777, 0o640);
}

#[test]
fn a_link_stays_a_link_and_what_it_leads_to_is_written() {
    let folder = Folder::new();
    let (target, link) = (folder.with("target", ""), folder.file("link"));
    symlink("target", &link).expect("a link can be made");
    mft(&["compile", &example("floor.txt"), "-o", &link]).done();
    assert!(fs::symlink_metadata(&link).expect("it is there").is_symlink());
    assert_eq!(fs::read(&target).expect("it is there"), example_bytes("floor.routes"));
}

#[test]
fn a_device_is_written_to_and_stays_a_device() {
    mft(&["compile", &example("floor.txt"), "-o", "/dev/null"]).done();
    assert!(!fs::metadata("/dev/null").expect("it is there").is_file());
    let ran = mft(&["compile", &example("floor.txt"), "-o", "/dev/full"]);
    assert!(ran.not_tried().starts_with("mft: /dev/full: cannot be written: "), "{}", ran.errors);
}

#[test]
fn a_temporary_file_of_another_stays_where_it_is() {
    let folder = Folder::new();
    let other = format!(".mft-{}-0.tmp", std::process::id());
    folder.with(&other, "another's");
    mft(&["compile", &example("floor.txt"), "-o", &folder.file("target")]).done();
    assert_eq!(folder.names(), [other.as_str(), "target"]);
    assert_eq!(fs::read(folder.file(&other)).expect("it is there"), b"another's");
}

#[test]
fn a_file_may_be_changed_in_its_place() {
    let folder = Folder::new();
    let file = folder.with("a.routes", example_bytes("floor.routes"));
    mft(&["apply", &file, &example("messages/bird.hex"), "-p", "9", "-o", &file]).done();
    assert_eq!(mft(&["text", &file]).done().lines().count(), 4);
}

#[test]
fn names_that_are_no_text_are_files_like_others() {
    let folder = Folder::new();
    let file = folder.path().join(OsStr::from_bytes(b"line\xFF\x1b.routes"));
    fs::write(&file, example_bytes("floor.routes")).expect("it can be written");
    let words = |first: &str| [OsString::from(first), file.clone().into_os_string()];
    assert!(mft(&words("check")).done().ends_with(
        "line\u{fffd}\u{fffd}.routes: good, 3 routes in 20 bytes; no bits are set past the length of a prefix\n"
    ));
    let target = OsStr::from_bytes(b"page\xFE.html");
    let target = folder.path().join(target).into_os_string();
    let page = [&words("page")[..], &[OsString::from("-o"), target.clone()]].concat();
    mft(&page).done();
    assert!(String::from_utf8(fs::read(target).expect("it is there")).expect("it is text").contains("line\u{fffd}"));
    let options: [&[u8]; 4] = [b"--\xFF", b"-\xFF", b"--title=\xFF", b"--date=\xFF"];
    for option in options {
        let wrong = [&words("page")[..], &["-o".into(), "-".into(), OsStr::from_bytes(option).into()]].concat();
        mft(&wrong).not_tried();
    }
    let lookup = [&words("lookup")[..], &[OsStr::from_bytes(b"\xFF").into()]].concat();
    assert!(mft(&lookup).not_tried().starts_with("mft: lookup: \u{fffd} is no address"));
    assert!(mft(&[OsStr::from_bytes(b"\xFF")]).not_tried().starts_with("mft: \u{fffd} is no command"));
}

#[test]
fn standard_input_is_read_where_a_file_is_a_dash() {
    let (file, text) = (example_bytes("line.routes"), example_bytes("line.txt"));
    let names = example_bytes("line.ports");
    let good = example("line.routes");
    assert_eq!(mft_reading(&text, &["compile", "-", "-o", "-"]).output, file);
    assert_eq!(mft_reading(&file, &["text", "-"]).done(), mft(&["text", &good]).done());
    assert!(mft_reading(&file, &["check", "-"]).done().starts_with("standard input: good, 116 routes"));
    for command in ["runs", "counts"] {
        assert_eq!(mft_reading(&file, &[command, "-"]).done(), mft(&[command, &good]).done());
    }
    assert_eq!(mft_reading(&file, &["diff", "-", &good]).status, 0);
    assert_eq!(mft_reading(&file, &["diff", &good, "-"]).status, 0);
    let bird = std::fs::read(example("messages/bird.hex")).expect("it is there");
    assert_eq!(mft_reading(&bird, &["apply", &good, "-", "-p", "9", "-o", "-"]).status, 0);
    let page = mft_reading(&names, &["page", &good, "--names", "-", "-o", "-"]);
    assert!(page.text().contains("Bay 12, golden unit"));
    assert!(mft_reading(&file, &["page", "-", "-o", "-"]).text().contains("<h1>Routes of standard input</h1>"));
}
