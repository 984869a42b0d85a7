//! What a command leaves: text for standard output, and files that are written whole or not at all.

use crate::failure::Failure;
use crate::input::STANDARD;
use crate::shown;
use std::ffi::OsStr;
use std::fs::{self, File, OpenOptions};
use std::io::{self, Write};
use std::path::{Path, PathBuf};

/// Names that are tried for a temporary file, where others are taken.
const NAMES_TRIED: u32 = 1000;

/// What a command that was not refused leaves.
#[derive(Clone, PartialEq, Eq, Debug, Default)]
pub struct Outcome {
    /// The exit status.
    pub status: u8,
    /// For standard output.
    pub output: Vec<u8>,
    /// For standard error: what is said beside bytes that go to standard output.
    pub notes: String,
}

impl Outcome {
    /// Done, and this is the result.
    pub fn said(text: impl Into<String>) -> Outcome {
        Outcome { output: text.into().into_bytes(), ..Outcome::default() }
    }

    /// Writes a file, and says what was done, and then this about the file. With `-` as the target the bytes go to
    /// standard output, and what is said to standard error.
    ///
    /// # Errors
    ///
    /// Where the file cannot be written. What stood there before is there still.
    pub fn written(target: &OsStr, bytes: Vec<u8>, done: &str, about: &str) -> Result<Outcome, Failure> {
        if target == STANDARD {
            let notes = format!("{done}standard output: {about}\n");
            return Ok(Outcome { status: 0, output: bytes, notes });
        }
        let name = shown::name(target);
        write(Path::new(target), &bytes).map_err(|error| {
            Failure::file(format!(
                "{name}: cannot be written: {error}\n  See that its folder is there, and that you may write in it."
            ))
        })?;
        Ok(Outcome::said(format!("{done}{name}: {about}\n")))
    }
}

/// Writes the file whole, or leaves it as it was: the bytes go to a temporary file beside it, which then takes its
/// name.
fn write(target: &Path, bytes: &[u8]) -> io::Result<()> {
    // A link stays a link: what it leads to is written.
    let target = target.canonicalize().unwrap_or_else(|_| target.to_path_buf());
    match fs::metadata(&target) {
        // A device or a pipe takes bytes, and another file must not take its name.
        Ok(found) if !found.is_file() => OpenOptions::new().write(true).open(&target)?.write_all(bytes),
        found => {
            let (file, temporary) = create_beside(&target)?;
            let permissions = found.ok().map(|found| found.permissions());
            let done = fill(file, bytes, permissions).and_then(|()| fs::rename(&temporary, &target));
            if done.is_err() {
                // The error that is told is the first one.
                let _ = fs::remove_file(&temporary);
            }
            done
        }
    }
}

/// A new file in the folder of the target, by a short name, since the target's may be as long as names can be.
fn create_beside(target: &Path) -> io::Result<(File, PathBuf)> {
    let process = std::process::id();
    for number in 0..NAMES_TRIED {
        let temporary = target.with_file_name(format!(".mft-{process}-{number}.tmp"));
        match OpenOptions::new().write(true).create_new(true).open(&temporary) {
            Err(error) if error.kind() == io::ErrorKind::AlreadyExists => {}
            created => return created.map(|file| (file, temporary)),
        }
    }
    Err(io::Error::new(io::ErrorKind::AlreadyExists, "too many temporary files stand beside it"))
}

/// The bytes are on the disc before the file gets its name. Who may read the file stays as it was.
fn fill(mut file: File, bytes: &[u8], permissions: Option<fs::Permissions>) -> io::Result<()> {
    if let Some(permissions) = permissions {
        file.set_permissions(permissions)?;
    }
    file.write_all(bytes)?;
    file.sync_all()
}
