//! `mft`: route files made, read, looked up in, compared, changed and printed. `mft --help` lists the commands.

use mft::Streams;
use std::ffi::OsString;
use std::io;
use std::process::ExitCode;

fn main() -> ExitCode {
    let words: Vec<OsString> = std::env::args_os().skip(1).collect();
    let (mut input, mut output, mut errors) = (io::stdin(), io::stdout(), io::stderr());
    let mut streams = Streams { input: &mut input, output: &mut output, errors: &mut errors };
    ExitCode::from(mft::run(&words, &mut streams))
}
