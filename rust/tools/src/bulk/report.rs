//! The outcomes as a Markdown table, and whether the proved library took no longer than the trie.

use super::runner::Runner;
use super::Measured;
use crate::bench::report::{table, three_figures, time};

/// The table of all races, and a line about each runner of the proved library.
pub fn report(all: &[Measured]) -> String {
    let verdicts: String = Runner::PROVED.map(|runner| format!("- {}\n", verdict(all, runner))).concat();
    format!("{}\n{verdicts}", table_of(all))
}

/// The time of each runner for all lookups and for one, and its ratio to the trie's, with the lowest and the highest of
/// a round.
pub fn table_of(all: &[Measured]) -> String {
    let columns = Runner::PROVED.map(|runner| [runner.name(), "÷ trie"]).concat();
    let head = [vec!["Set", "Addresses", Runner::Trie.name()], columns].concat();
    table(&head, all.iter().map(row))
}

fn row(measured: &Measured) -> Vec<String> {
    let proved = Runner::PROVED.map(|runner| [times(measured, runner), ratio(measured, runner)]);
    let first = [measured.set.into(), measured.drawn.into(), times(measured, Runner::Trie)];
    first.into_iter().chain(proved.into_iter().flatten()).collect()
}

fn times(measured: &Measured, runner: Runner) -> String {
    let nanoseconds = measured.of(runner);
    format!("{}, {}", time(nanoseconds), time(nanoseconds / measured.count as f64))
}

fn ratio(measured: &Measured, runner: Runner) -> String {
    format!("{} ({})", three_figures(measured.ratio(runner)), range(measured.ratios(runner)))
}

fn range(ratios: impl Iterator<Item = f64>) -> String {
    let (lowest, highest) = ratios.fold((f64::MAX, 0f64), |(low, high), ratio| (low.min(ratio), high.max(ratio)));
    format!("{} to {}", three_figures(lowest), three_figures(highest))
}

/// Whether a runner took no longer than the trie, or where it did not.
fn verdict(all: &[Measured], runner: Runner) -> String {
    let cases = || all.iter().map(|measured| (measured, measured.ratio(runner)));
    let case = |(measured, ratio): (&Measured, f64)| {
        format!("{}, {} ({})", measured.set, measured.drawn, three_figures(ratio))
    };
    let longer: Vec<String> = cases().filter(|(_, ratio)| *ratio > 1.0).map(case).collect();
    let took = match longer[..] {
        [] => "no longer than the trie on every set and kind of addresses".into(),
        _ => format!("longer than the trie on {}", longer.join("; ")),
    };
    format!("{} took {took}: {} of its time.", runner.name(), range(cases().map(|(_, ratio)| ratio)))
}
