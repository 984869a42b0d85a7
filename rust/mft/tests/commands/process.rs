//! The program itself: its exit status, its streams, and a reader that goes away.

use crate::support::{example, example_bytes, file_of_many, Folder};
use std::fs::{File, OpenOptions};
use std::io::{Read, Write};
use std::process::{Command, Output, Stdio};

fn program(words: &[&str]) -> Command {
    let mut command = Command::new(env!("CARGO_BIN_EXE_mft"));
    command.args(words).stdin(Stdio::null());
    command
}

fn output(words: &[&str]) -> Output {
    program(words).output().expect("the program starts")
}

#[test]
fn the_exit_status_says_done_refused_or_not_tried() {
    let [good, other, wrong] = ["floor.routes", "line.routes", "refused/wrong-port.routes"].map(example);
    let cases: [(&[&str], i32); 8] = [
        (&["check", &good], 0),
        (&["check", &wrong], 1),
        (&["check", "missing.routes"], 2),
        (&["diff", &good, &good], 0),
        (&["diff", &good, &other], 1),
        (&["diff", &good, "missing.routes"], 2),
        (&["--help"], 0),
        (&[], 2),
    ];
    for (words, status) in cases {
        let output = output(words);
        assert_eq!(output.status.code(), Some(status), "{words:?}");
        let is_refusal = status == 2 || words[0] == "check" && status == 1;
        assert_eq!((output.stdout.is_empty(), !output.stderr.is_empty()), (is_refusal, is_refusal), "{words:?}");
    }
}

#[test]
fn standard_input_and_output_are_streams_of_bytes() {
    let mut child = program(&["compile", "-", "-o", "-"])
        .stdin(Stdio::piped())
        .stdout(Stdio::piped())
        .stderr(Stdio::piped())
        .spawn()
        .expect("the program starts");
    child.stdin.take().expect("it is piped").write_all(&example_bytes("line.txt")).expect("it is read");
    let output = child.wait_with_output().expect("the program ends");
    assert_eq!((output.status.code(), output.stdout), (Some(0), example_bytes("line.routes")));
    assert_eq!(String::from_utf8_lossy(&output.stderr), "standard output: 116 routes in 793 bytes\n");
}

/// More lines than a pipe holds.
#[test]
fn a_reader_that_goes_away_ends_it_quietly() {
    let folder = Folder::new();
    let mut text = String::new();
    for number in 0..4096 {
        text += &format!("10.{}.{}.0/25 {}\n", number / 256, number % 256, 1 + number % 4094);
    }
    let (text, file) = (folder.with("many.txt", text), folder.file("many.routes"));
    assert_eq!(output(&["compile", &text, "-o", &file]).status.code(), Some(0));
    for words in [&["runs", &file][..], &["text", &file], &["page", &file, "-o", "-"], &["diff", &file, &file]] {
        let mut child =
            program(words).stdout(Stdio::piped()).stderr(Stdio::piped()).spawn().expect("the program starts");
        let mut first = [0; 1];
        child.stdout.take().expect("it is piped").read_exact(&mut first).expect("it prints something");
        let output = child.wait_with_output().expect("the program ends");
        assert_eq!(output.status.code(), Some(0), "{words:?}");
        let said = String::from_utf8_lossy(&output.stderr).into_owned();
        assert!(said.is_empty() || said.starts_with("standard output: "), "{said}");
    }
}

#[test]
fn an_output_that_is_full_is_an_error() {
    let full = OpenOptions::new().write(true).open("/dev/full").expect("Linux has it");
    let output = program(&["runs", &example("line.routes")])
        .stdout(full)
        .stderr(Stdio::piped())
        .spawn()
        .and_then(std::process::Child::wait_with_output)
        .expect("the program ends");
    assert_eq!(output.status.code(), Some(2));
    assert!(String::from_utf8_lossy(&output.stderr).starts_with("mft: standard output: cannot be written: "));
}

/// Files may have no bytes, so that writing one fails once it is begun.
#[test]
fn a_file_that_cannot_be_written_to_its_end_leaves_what_was_there() {
    let folder = Folder::new();
    let target = folder.with("target", "as it was");
    let limited = "trap '' XFSZ; ulimit -f 0; exec \"$0\" compile \"$1\" -o \"$2\"";
    let words = [limited, env!("CARGO_BIN_EXE_mft"), &example("line.txt"), &target];
    let output = Command::new("sh").arg("-c").args(words).output().expect("there is a shell");
    assert_eq!(output.status.code(), Some(2));
    let said = String::from_utf8_lossy(&output.stderr).into_owned();
    assert!(said.starts_with(&format!("mft: {target}: cannot be written: ")), "{said}");
    assert_eq!(std::fs::read(&target).expect("it is there"), b"as it was");
    assert_eq!(folder.names(), ["target"]);
}

#[test]
fn errors_that_nobody_reads_end_it_all_the_same() {
    let full = OpenOptions::new().write(true).open("/dev/full").expect("Linux has it");
    let status = program(&["check", "missing.routes"]).stderr(full).status().expect("the program ends");
    assert_eq!(status.code(), Some(2));
}

#[test]
fn a_file_without_end_is_not_read() {
    let endless = File::open("/dev/zero").expect("Linux has it");
    let output = program(&["check", "-"]).stdin(endless).output().expect("the program ends");
    assert_eq!(output.status.code(), Some(2));
    assert!(String::from_utf8_lossy(&output.stderr).starts_with("mft: standard input: has more than 16 MiB"));
}

#[test]
fn a_file_of_far_too_many_routes_is_explained() {
    let folder = Folder::new();
    let file = folder.with("many.routes", file_of_many(1_000_000));
    let output = output(&["check", &file]);
    assert_eq!(output.status.code(), Some(1));
    assert!(String::from_utf8_lossy(&output.stderr).contains(": route 4,097, at byte 28677, is one more than"));
}
