//! Names and texts from outside, made fit to be shown on a terminal.

use std::ffi::OsStr;

/// What stands for a character that would do something in place of being seen.
const UNSEEN: char = char::REPLACEMENT_CHARACTER;

/// A name from the command line. What is no text in it, and what a terminal would obey, is replaced.
pub fn name(name: &OsStr) -> String {
    name.to_string_lossy().chars().map(seen).collect()
}

/// The character itself, or what stands for a control character.
pub fn seen(character: char) -> char {
    if character.is_control() {
        UNSEEN
    } else {
        character
    }
}
