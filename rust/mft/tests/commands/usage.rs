//! Help, the version, and command lines that are wrong.

use crate::support::{example, mft, mft_reading, Folder};
use mft::commands;

#[test]
fn every_command_has_help_with_usage_options_an_example_and_exit_statuses() {
    for command in commands::ALL {
        let help = mft(&[command.name, "--help"]).done();
        assert!(help.starts_with(&format!("usage: mft {} ", command.name)), "{help}");
        for part in ["--help", "\nexample: mft ", "\nExit status: 0 "] {
            assert!(help.contains(part), "{}: {part}", command.name);
        }
        assert!(help.lines().all(|line| line.chars().count() <= 120), "{help}");
        for flag in command.form.flags {
            assert!(help.contains(&format!("--{} {}", flag.long, flag.value)), "{}: {}", command.name, flag.long);
        }
        assert_eq!(mft(&["help", command.name]).done(), help);
        assert_eq!(mft(&[command.name, "-h", "whatever"]).done(), help);
    }
}

#[test]
fn the_program_has_help_that_names_every_command() {
    let help = mft(&["--help"]).done();
    for command in commands::ALL {
        assert!(help.contains(&format!("  mft {:<8} {}", command.name, command.about)), "{help}");
    }
    assert_eq!(mft(&["help"]).done(), help);
    assert_eq!(mft(&["-h"]).done(), help);
}

#[test]
fn the_version_is_printed() {
    assert_eq!(mft(&["--version"]).done(), format!("mft {}\n", env!("CARGO_PKG_VERSION")));
}

#[test]
fn without_a_command_the_usage_is_an_error() {
    assert!(mft::<&str>(&[]).not_tried().contains("\nusage: mft COMMAND"));
}

#[test]
fn a_wrong_command_line_names_the_word_that_is_wrong() {
    let cases: [(&[&str], &str); 20] = [
        (&["nonsense"], "mft: nonsense is no command of this program\n"),
        (&["--nonsense"], "mft: --nonsense is no option of this program\n"),
        (&["help", "nonsense"], "mft: nonsense is no command of this program\n"),
        (&["help", "runs", "more"], "mft: help: more is one argument too many\n"),
        (&["runs"], "mft: runs: FILE.routes is missing\n"),
        (&["runs", "a", "b"], "mft: runs: b is one argument too many\n"),
        (&["runs", "a", "--wrong"], "mft: runs: --wrong is no option of this command\n"),
        (&["runs", "a", "-o", "b"], "mft: runs: -o is no option of this command\n"),
        (&["compile", "a"], "mft: compile: -o FILE is missing\n"),
        (&["compile", "a", "-o"], "mft: compile: --output has no value after it: FILE\n"),
        (&["compile", "-o", "b", "a", "--output=c"], "mft: compile: --output is given twice\n"),
        (&["diff", "a"], "mft: diff: NEW.routes is missing\n"),
        (&["lookup", "a"], "mft: lookup: ADDRESS is missing\n"),
        (&["apply", "a", "b", "-o", "c"], "mft: apply: -p PORT is missing\n"),
        (&["apply", "a", "b", "--port", "--output", "c"], "mft: apply: --port has no value after it: PORT\n"),
        (&["apply", "a", "b", "--port", "nine", "-o", "c"], "mft: apply: --port nine is no number\n"),
        (&["apply", "a", "b", "--port", "09", "-o", "c"], "mft: apply: --port 09 is no number\n"),
        (&["apply", "a", "b", "--port=", "-o", "c"], "mft: apply: --port  is no number\n"),
        (&["page", "a", "-o", "b", "--date", "2026-02-29"], "mft: page: --date 2026-02-29 is no date: that month has"),
        (&["page", "a", "-o", "b", "--title", " "], "mft: page: --title   is no text\n"),
    ];
    for (words, expected) in cases {
        let ran = mft(words);
        assert!(ran.not_tried().starts_with(expected), "{words:?}: {}", ran.errors);
    }
}

#[test]
fn a_text_that_is_no_address_is_named() {
    for text in ["10.20.1", "10.20.1.256", "bay", "", "10.20.1.0/24", "::1", "10.20.01.0"] {
        let ran = mft(&["lookup", &example("floor.routes"), "10.0.0.1", text]);
        assert!(ran.not_tried().starts_with(&format!("mft: lookup: {text} is no address")), "{}", ran.errors);
    }
}

#[test]
fn a_title_that_is_too_long_is_not_taken() {
    let (file, title) = (example("floor.routes"), "x".repeat(121));
    assert!(mft(&["page", &file, "-o", "-", "--title", &title]).not_tried().contains("more than 120 characters"));
}

#[test]
fn options_stand_before_or_after_files_in_every_form() {
    let (folder, text) = (Folder::new(), example("floor.txt"));
    let new = folder.file("new.routes");
    let (joined, long) = (format!("-o{new}"), format!("--output={new}"));
    let forms: [&[&str]; 6] = [
        &["compile", &text, "-o", &new],
        &["compile", "-o", &new, &text],
        &["compile", "--output", &new, &text],
        &["compile", &long, &text],
        &["compile", &joined, &text],
        &["compile", "-o", &new, "--", &text],
    ];
    for words in forms {
        assert!(mft(words).done().ends_with("new.routes: 3 routes in 20 bytes\n"));
        assert_eq!(std::fs::read(&new).expect("it was written"), crate::support::example_bytes("floor.routes"));
        std::fs::remove_file(&new).expect("it was written");
    }
}

#[test]
fn after_two_dashes_a_word_is_a_file() {
    assert!(mft(&["runs", "--", "--help"]).not_tried().starts_with("mft: --help: cannot be read: "));
}

#[test]
fn standard_input_is_read_once_only() {
    let said = "mft: diff: - stands for standard input, which can be read once only\n";
    assert!(mft(&["diff", "-", "-"]).not_tried().starts_with(said));
    let twice: [&[&str]; 3] = [
        &["apply", "-", "-", "--port", "1", "-o", "x"],
        &["apply", "a", "-", "-", "--port", "1", "-o", "x"],
        &["page", "-", "--names", "-", "-o", "x"],
    ];
    for words in twice {
        assert!(mft(words).not_tried().contains("can be read once only"), "{words:?}");
    }
}

#[test]
fn an_address_may_not_be_read_from_standard_input() {
    assert!(mft_reading(b"", &["lookup", "-", "-"]).not_tried().starts_with("mft: lookup: - is no address"));
}
