//! The example of the README at the root is one that compiles and runs, and depends on this package.

use std::path::Path;

const README: &str = include_str!("../../../README.md");
const PACKAGE: &str = env!("CARGO_MANIFEST_DIR");

mod program {
    include!("../examples/lookup.rs");

    pub fn run() -> Result<(), Box<dyn Error>> {
        main()
    }
}

/// The first block of the README in this language.
fn block(language: &str) -> &'static str {
    let (_, after) = README.split_once(&format!("```{language}\n")).expect("the README has such a block");
    let (block, _) = after.split_once("```").expect("the block ends");
    block
}

#[test]
fn the_program_of_the_readme_is_the_example() {
    assert_eq!(block("rust"), include_str!("../examples/lookup.rs"));
}

#[test]
fn the_program_of_the_readme_runs_at_the_root() {
    std::env::set_current_dir(Path::new(PACKAGE).join("../..")).expect("the root is there");
    program::run().expect("the program ends well");
}

#[test]
fn the_dependency_of_the_readme_is_this_package() {
    let line = block("toml").strip_prefix("[dependencies]\nmaftehon = ").expect("a dependency on maftehon");
    let path = line.strip_prefix("{ path = \"../maftehon/").and_then(|rest| rest.strip_suffix("\" }\n"));
    assert!(Path::new(PACKAGE).ends_with(path.expect("a path in a checkout named maftehon")));
}
