//! Every command, as the shell calls it: what it prints, what it writes, and how it ends.

mod support;

mod apply;
mod check;
mod compile;
mod counts;
mod date;
mod diff;
mod document;
mod files;
mod lookup;
mod noise;
mod page;
mod process;
mod runs;
mod sha256;
mod text;
mod usage;
