//! The page for the wall: which addresses go to which writer, in HTML that prints on A4 without a script.
//!
//! The program itself says what stands on which sheet. A browser's page counters and repeated heads differ from one to
//! the next, and what hangs on a wall must say on each sheet how many there are.

mod html;
mod names;
mod rows;
mod sheets;
mod wrap;

pub use names::Names;
pub use wrap::wrapped;

use crate::date::Date;
use maftehon::Run;

/// The most characters of a name or a title. More would not leave a sheet room for its rows.
pub const CHARACTERS_LAST: usize = 120;

/// What the page says.
pub struct Facts {
    /// What stands on top.
    pub title: String,
    /// The day that it was made.
    pub date: Date,
    /// The name of the route file.
    pub file: String,
    /// The SHA-256 of the route file, in groups of digits.
    pub checksum: String,
    /// How many routes it has.
    pub routes: usize,
    /// The names of ports.
    pub names: Names,
    /// The runs, as the library lists them.
    pub runs: Vec<Run>,
    /// How many addresses go to each port, and to none, as the library counts them.
    pub counts: Vec<(Option<u16>, u64)>,
}

/// A page, ready to be printed.
pub struct Page {
    /// The document.
    pub html: String,
    /// How many sheets of paper it takes.
    pub sheets: usize,
}

impl Facts {
    /// The page that says all this.
    pub fn page(&self) -> Page {
        let head = html::Head::of(self);
        let tables = rows::tables(self);
        let sheets = sheets::sheets(&tables, head.lines());
        Page { html: html::document(self, &head, &tables, &sheets), sheets: sheets.len() }
    }
}
