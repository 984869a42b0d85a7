//! The outcomes as Markdown tables for each set.

use super::race::{Outcome, Runner};
use super::Measured;

pub fn report(all: &[Measured]) -> String {
    all.iter().map(tables).collect::<Vec<_>>().join("\n")
}

/// The runners that have a table of their own, each with its head: C that checks nothing, and those by which the library is
/// measured against itself.
const OWN: [(Runner, [&str; 4]); 6] = [
    (Runner::Unchecked, ["What", "proved", "C without a check", "proved ÷ that C"]),
    (Runner::Image, ["What", "segment tables", "image, stride 4", "segment tables ÷ image"]),
    (Runner::Refused, ["What", "segment tables", "a call refused at once", "segment tables ÷ that call"]),
    (Runner::Single, ["What", "one call for all", "a call for each", "one call ÷ a call for each"]),
    (Runner::Check, ["What", "message", "good-order check", "message ÷ check"]),
    (Runner::CheckOfCounted, ["What", "with counts", "good-order check", "with counts ÷ check"]),
];

/// First what is measured against plain code and the reference; then segment tables against C that checks nothing, an image
/// and a call that is refused at once, many lookups in one call against as many calls, and messages and counts against the
/// check of a table.
fn tables(measured: &Measured) -> String {
    let of = |runner| measured.outcomes.iter().filter(move |outcome| outcome.of(runner).is_some());
    let against_others = measured.outcomes.iter().filter(|outcome| is_against_others(outcome));
    let head = ["What", "proved", "plain", "proved ÷ plain", "reference", "proved ÷ reference"];
    let row =
        |outcome: &Outcome| [cells(outcome, Runner::Plain), cells(outcome, Runner::Reference)[2..].into()].concat();
    let own = OWN.map(|(runner, head)| table(&head, of(runner).map(|outcome| cells(outcome, runner))));
    format!("### {}\n\n{}\n{}", measured.set, table(&head, against_others.map(row)), own.join("\n"))
}

fn is_against_others(outcome: &Outcome) -> bool {
    outcome.of(Runner::Plain).or(outcome.of(Runner::Reference)).is_some()
}

/// What was measured, the time of the proved library, that of this runner, and the ratio; empty where it did not run.
fn cells(outcome: &Outcome, runner: Runner) -> Vec<String> {
    let time_of = |runner| outcome.of(runner).map_or("".into(), time);
    let ratio = outcome.ratio(runner).map_or("".into(), three_figures);
    vec![outcome.what.into(), time_of(Runner::Proved), time_of(runner), ratio]
}

pub fn table(head: &[&str], rows: impl Iterator<Item = Vec<String>>) -> String {
    let rows: String = rows.map(|cells| format!("| {} |\n", cells.join(" | "))).collect();
    format!("| {} |\n|{}\n{rows}", head.join(" | "), "---|".repeat(head.len()))
}

pub fn time(nanoseconds: f64) -> String {
    let (count, unit) = match nanoseconds {
        n if n < 1e3 => (n, "ns"),
        n if n < 1e6 => (n / 1e3, "µs"),
        n => (n / 1e6, "ms"),
    };
    format!("{} {unit}", three_figures(count))
}

/// Three figures, and no more zeros than the number has.
pub fn three_figures(number: f64) -> String {
    let decimals = (2 - number.log10().floor() as i32).clamp(0, 4) as usize;
    format!("{number:.decimals$}")
}
