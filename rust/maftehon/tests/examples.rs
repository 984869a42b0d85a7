//! The text sources in `examples` say exactly what the route files beside them hold, the stored pages are the
//! reference's, and the messages leave what the lines after them say.

use maftehon::{Route, RouteList, Table};
use reference::runs_text;
use std::fs;
use std::path::{Path, PathBuf};
use workload::clear_spare_bits;
use workload::messages::captured;

const EXAMPLES: &str = concat!(env!("CARGO_MANIFEST_DIR"), "/../../examples");
const REFUSED: &str = concat!(env!("CARGO_MANIFEST_DIR"), "/../../examples/refused");

/// The paths of the route files in a folder.
fn route_files(folder: &str) -> Vec<PathBuf> {
    let entries = fs::read_dir(folder).expect("the examples are there");
    let paths = entries.map(|entry| entry.expect("the folder can be read").path());
    paths.filter(|path| path.extension().is_some_and(|extension| extension == "routes")).collect()
}

/// The route of a line; none where there is only a comment, from `#` on, or nothing.
fn route_of(line: &str) -> Option<Route> {
    let text = line.split('#').next().unwrap_or_default();
    let is_blank = text.trim().is_empty();
    (!is_blank).then(|| text.parse().unwrap_or_else(|error| panic!("{line}: {error}")))
}

fn list_of_text(path: &Path) -> RouteList {
    let text = fs::read_to_string(path).unwrap_or_else(|error| panic!("{}: {error}", path.display()));
    let routes: Vec<Route> = text.lines().filter_map(route_of).collect();
    RouteList::from_routes(&routes).unwrap_or_else(|refusal| panic!("{}: {refusal}", path.display()))
}

/// The bytes of a file as it is written back: those of the file itself where no spare bits are set.
fn cleared(bytes: &[u8]) -> Vec<u8> {
    let mut cleared = bytes.to_vec();
    clear_spare_bits(&mut cleared);
    cleared
}

#[test]
fn every_route_file_is_what_its_text_source_says() {
    let files = route_files(EXAMPLES);
    assert!(!files.is_empty());
    for file in files {
        let bytes = fs::read(&file).expect("the file can be read");
        let list = list_of_text(&file.with_extension("txt"));
        assert_eq!(list.write(), cleared(&bytes), "{}", file.display());
        assert_eq!(RouteList::read(&bytes), Ok(list), "{}", file.display());
    }
}

#[test]
fn only_the_controllers_file_has_spare_bits_set() {
    for file in route_files(EXAMPLES) {
        let bytes = fs::read(&file).expect("the file can be read");
        assert_eq!(cleared(&bytes) != bytes, file.ends_with("controller.routes"), "{}", file.display());
    }
}

#[test]
fn every_stored_page_is_the_references() {
    for folder in [EXAMPLES, REFUSED] {
        let files = route_files(folder);
        assert!(!files.is_empty());
        for file in files {
            let [bytes, page] =
                [&file, &file.with_extension("runs")].map(|path| fs::read(path).expect("the file can be read"));
            assert_eq!(runs_text(&bytes), page, "{}", file.display());
        }
    }
}

#[test]
fn every_file_in_refused_is_refused() {
    for file in route_files(REFUSED) {
        let page = fs::read(file.with_extension("runs")).expect("the file can be read");
        assert!(page.starts_with(b"refused "), "{}", file.display());
    }
}

#[test]
fn every_message_leaves_what_the_line_after_it_says() {
    for sent in captured() {
        let mut table = Table::with_capacity(6);
        for (number, (message, expected)) in sent.messages.iter().enumerate() {
            assert_eq!(table.apply(message, 9), Ok(()), "{}, message {number}", sent.daemon);
            let words = expected.iter().flat_map(|(value, length)| [*value, *length, 9]).collect();
            assert_eq!(Ok(table.save()), RouteList::from_words(words), "{}, message {number}", sent.daemon);
        }
    }
}
