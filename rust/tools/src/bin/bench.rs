//! `bench [ROUNDS]`: measures the proved library, plain Rust or C, and the reference in turns, prints a Markdown table
//! of the medians and ratios, and draws `docs/speed.svg`. Nothing is asserted about a time.

use tools::bench::{chart, measure, report, Measured};

const ROUNDS: usize = 41;
const CHART: &str = concat!(env!("CARGO_MANIFEST_DIR"), "/../../docs/speed.svg");

fn main() -> std::io::Result<()> {
    let rounds = std::env::args().nth(1).and_then(|text| text.parse().ok()).unwrap_or(ROUNDS);
    let all: Vec<Measured> = tools::KINDS.into_iter().map(|kind| measure(kind, rounds)).collect();
    println!("{} Medians of {rounds} rounds, sets of 4,096 routes.\n", tools::setting());
    print!("{}", report(&all));
    std::fs::write(CHART, chart(&all))
}
