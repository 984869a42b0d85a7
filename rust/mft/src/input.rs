//! Files that are read whole, and standard input, which `-` names.

use crate::explain;
use crate::failure::Failure;
use crate::shown;
use maftehon::RouteList;
use std::ffi::OsStr;
use std::fs::File;
use std::io::{self, Read};

/// The name of standard input on the command line.
pub const STANDARD: &str = "-";

/// The most bytes that are read of a file. The largest route file has 28,677, so that what is longer is something else,
/// or has no end.
const BYTES_LAST: u64 = 16 << 20;

/// What a file holds, and what it is called.
pub struct Source {
    /// The name as messages have it.
    pub name: String,
    /// All bytes.
    pub bytes: Vec<u8>,
}

/// Where commands read files.
pub struct Input<'a> {
    stdin: &'a mut dyn Read,
}

impl<'a> Input<'a> {
    /// With this as standard input.
    pub fn new(stdin: &'a mut dyn Read) -> Input<'a> {
        Input { stdin }
    }

    /// All of a file, or of standard input.
    ///
    /// # Errors
    ///
    /// Where it cannot be read, or has over 16 MiB.
    pub fn read(&mut self, file: &OsStr) -> Result<Source, Failure> {
        let name = called(file);
        let bytes = if file == STANDARD { all_of(&mut self.stdin) } else { File::open(file).and_then(all_of) };
        match bytes {
            Ok(Some(bytes)) => Ok(Source { name, bytes }),
            Ok(None) => {
                let advice = "See that it is the right file: the largest route file has 28,677 bytes.";
                Err(Failure::file(format!("{name}: has more than 16 MiB, and is not read\n  {advice}")))
            }
            Err(error) => {
                let advice = "See that the name is right, and that you may read the file.";
                Err(Failure::file(format!("{name}: cannot be read: {error}\n  {advice}")))
            }
        }
    }

    /// A route file, and its routes as the library reads them.
    ///
    /// # Errors
    ///
    /// Where the file cannot be read, or the library refuses it, explained.
    pub fn routes(&mut self, file: &OsStr) -> Result<(Source, RouteList), Failure> {
        let source = self.read(file)?;
        let list = RouteList::read(&source.bytes).map_err(|refusal| explain::file(&source, refusal))?;
        Ok((source, list))
    }
}

/// What messages call a file.
pub fn called(file: &OsStr) -> String {
    if file == STANDARD {
        "standard input".into()
    } else {
        shown::name(file)
    }
}

/// All bytes, if there are not too many.
fn all_of(reader: impl Read) -> io::Result<Option<Vec<u8>>> {
    let mut bytes = Vec::new();
    reader.take(BYTES_LAST + 1).read_to_end(&mut bytes)?;
    Ok(Some(bytes).filter(|bytes| bytes.len() as u64 <= BYTES_LAST))
}
