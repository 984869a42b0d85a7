//! A call of the program, a folder for its files, and files to call it on.

use mft::Streams;
use reference::file_write;
use std::ffi::OsString;
use std::fs;
use std::path::{Path, PathBuf};
use std::sync::atomic::{AtomicU32, Ordering};
use workload::{list_of, Kind, Random};

pub const EXAMPLES: &str = concat!(env!("CARGO_MANIFEST_DIR"), "/../../examples");

/// What a call leaves.
#[derive(Debug)]
pub struct Ran {
    pub status: u8,
    pub output: Vec<u8>,
    pub errors: String,
}

impl Ran {
    /// What it printed, of a call that was done.
    #[track_caller]
    pub fn done(&self) -> String {
        assert_eq!((self.status, self.errors.as_str()), (0, ""));
        self.text()
    }

    pub fn text(&self) -> String {
        String::from_utf8(self.output.clone()).expect("what is printed is text")
    }

    /// What it said, of a call that was refused and printed nothing.
    #[track_caller]
    pub fn refused(&self) -> &str {
        self.failed(1)
    }

    /// What it said, of a call that was wrong, or whose file could not be read or written.
    #[track_caller]
    pub fn not_tried(&self) -> &str {
        self.failed(2)
    }

    #[track_caller]
    fn failed(&self, status: u8) -> &str {
        assert_eq!((self.status, self.text().as_str()), (status, ""), "{}", self.errors);
        assert!(self.errors.starts_with("mft: ") && self.errors.ends_with('\n'), "{}", self.errors);
        &self.errors
    }
}

/// Calls the program with these words, and nothing on its standard input.
pub fn mft<W: Into<OsString> + Clone>(words: &[W]) -> Ran {
    mft_reading(b"", words)
}

/// Calls the program with this on its standard input.
pub fn mft_reading<W: Into<OsString> + Clone>(mut input: &[u8], words: &[W]) -> Ran {
    let words: Vec<OsString> = words.iter().cloned().map(Into::into).collect();
    let (mut output, mut errors) = (Vec::new(), Vec::new());
    let status = mft::run(&words, &mut Streams { input: &mut input, output: &mut output, errors: &mut errors });
    Ran { status, output, errors: String::from_utf8(errors).expect("what is said is text") }
}

/// A folder that is there as long as this value.
pub struct Folder(PathBuf);

impl Folder {
    pub fn new() -> Folder {
        static NEXT: AtomicU32 = AtomicU32::new(0);
        let number = NEXT.fetch_add(1, Ordering::Relaxed);
        let path = std::env::temp_dir().join(format!("mft-test-{}-{number}", std::process::id()));
        fs::create_dir(&path).expect("a new folder can be made");
        Folder(path)
    }

    pub fn path(&self) -> &Path {
        &self.0
    }

    /// The path of a file in it, as a word of the command line.
    pub fn file(&self, name: &str) -> String {
        self.0.join(name).into_os_string().into_string().expect("the path is text")
    }

    /// Writes a file, and gives its path.
    pub fn with(&self, name: &str, bytes: impl AsRef<[u8]>) -> String {
        let path = self.file(name);
        fs::write(&path, bytes).expect("the file can be written");
        path
    }

    /// The names of all that is in it, sorted.
    pub fn names(&self) -> Vec<String> {
        let entries = fs::read_dir(&self.0).expect("the folder can be read");
        let mut names: Vec<String> = entries
            .map(|entry| entry.expect("the folder can be read").file_name().to_string_lossy().into_owned())
            .collect();
        names.sort();
        names
    }
}

impl Drop for Folder {
    fn drop(&mut self) {
        let _ = fs::remove_dir_all(&self.0);
    }
}

/// The path of a bundled example.
pub fn example(name: &str) -> String {
    format!("{EXAMPLES}/{name}")
}

pub fn example_bytes(name: &str) -> Vec<u8> {
    fs::read(example(name)).unwrap_or_else(|error| panic!("{name}: {error}"))
}

/// The bundled route files that are good.
pub const GOOD: [&str; 4] = ["floor", "line", "empty", "controller"];

/// The file of a valid list.
pub fn file_of(list: &[u32]) -> Vec<u8> {
    let mut file = vec![0; 5 + 7 * list.len()];
    let written = file_write(list, &mut file);
    assert_eq!(written.number, 0);
    file.truncate(written.answer[1] as usize);
    file
}

/// A list of some routes of any shape, now and then of many.
pub fn any_list(random: &mut Random) -> Vec<u32> {
    let kind = random.pick(&Kind::ALL);
    let count = match random.below(12) {
        0 => 4096 - random.index(3),
        1 => 250 + random.index(12),
        2 => random.index(250),
        _ => random.index(12),
    };
    list_of(&kind.routes(random, count))
}

/// A file of routes of 32 bits, from 10.0.0.0 up, however many, whether or not that is too many.
pub fn file_of_many(count: u32) -> Vec<u8> {
    let route = |number: u32| {
        let [a, b, c, d] = (0x0A00_0000 + number).to_be_bytes();
        [32, a, b, c, d, 0, 7]
    };
    let mut file = vec![1];
    file.extend((7 * count).to_be_bytes());
    file.extend((0..count).flat_map(route));
    file
}

/// As many seeds, from the first one on.
pub fn seeds(count: u64) -> impl Iterator<Item = u64> {
    (0..count).map(|number| compare::first_seed().wrapping_add(number))
}
