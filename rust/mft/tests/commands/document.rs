//! The examples in `docs/MFT.md` are what the program prints.

use crate::support::{Folder, EXAMPLES};
use std::os::unix::fs::symlink;
use std::path::Path;
use std::process::Command;

const DOCUMENT: &str = include_str!("../../../../docs/MFT.md");
const PROGRAM: &str = env!("CARGO_BIN_EXE_mft");

/// What a line of the shell prints, results and errors, in this folder.
fn printed(command: &str, folder: &Path) -> String {
    let programs = Path::new(PROGRAM).parent().expect("the program is in a folder").display();
    let path = format!("{programs}:{}", std::env::var("PATH").unwrap_or_default());
    let shell =
        Command::new("sh").args(["-c", &format!("({command}) 2>&1")]).env("PATH", path).current_dir(folder).output();
    String::from_utf8(shell.expect("there is a shell").stdout).expect("what is printed is text")
}

/// The commands of the examples, each with what the document says it prints.
fn examples() -> Vec<(String, String)> {
    let mut examples: Vec<(String, String)> = Vec::new();
    let mut in_example = false;
    for line in DOCUMENT.lines() {
        let Some(line) = line.strip_prefix("    ") else {
            in_example = false;
            continue;
        };
        if let Some(command) = line.strip_prefix("$ ") {
            examples.push((command.into(), String::new()));
            in_example = true;
        } else if let Some((_, printed)) = examples.last_mut().filter(|_| in_example) {
            *printed += &format!("{line}\n");
        }
    }
    examples
}

#[test]
fn every_example_prints_what_the_document_says() {
    let folder = Folder::new();
    symlink(EXAMPLES, folder.path().join("examples")).expect("a link can be made");
    let examples = examples();
    for (command, expected) in &examples {
        assert_eq!(printed(command, folder.path()), *expected, "{command}");
    }
    for command in mft::commands::ALL {
        let words = format!("mft {} ", command.name);
        assert!(examples.iter().any(|(line, _)| line.contains(&words)), "no example of {words}");
    }
}
