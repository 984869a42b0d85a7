//! `exhaustive [--sample N]`: images, table and segment tables of three sets of 4,096 routes against the run listing, at
//! every one of the 2^32 addresses, or at those next to a run's ends and every N-th one.
//!
//! Prints a line for each set and structure, tells on standard error how far it is, and ends with 1 at a difference.

use std::process::ExitCode;
use std::time::Instant;
use tools::exhaustive::{list_and_runs, sample_of, Structure};
use workload::Kind;

fn main() -> ExitCode {
    let arguments: Vec<String> = std::env::args().skip(1).collect();
    let arguments: Vec<&str> = arguments.iter().map(String::as_str).collect();
    let step = match arguments[..] {
        [] => None,
        ["--sample", step] if step.parse().is_ok_and(|step: u32| step > 0) => step.parse().ok(),
        _ => {
            eprintln!("usage: exhaustive [--sample N]");
            return ExitCode::from(2);
        }
    };
    let all_agree = tools::KINDS.into_iter().all(|kind| agrees(kind, step));
    ExitCode::from(u8::from(!all_agree))
}

/// Goes through one set, and prints a line for each structure.
fn agrees(kind: Kind, step: Option<u32>) -> bool {
    let (list, runs) = list_and_runs(kind);
    Structure::all_of(&list).iter().all(|structure| {
        let start = Instant::now();
        let (addresses, difference) = match step.map(|step| sample_of(&runs, step)) {
            Some(sample) => (sample.len() as u64, structure.difference_in_sample(&runs, &sample)),
            None => (1 << 32, structure.difference(kind.name(), &runs)),
        };
        let (seconds, name) = (start.elapsed().as_secs(), structure.name());
        let verdict = difference.map_or("0 differences".into(), |address| format!("DIFFERS at address {address}"));
        println!("{:<14} {name:<16} {} runs, {addresses} addresses: {verdict} ({seconds} s)", kind.name(), runs.len());
        difference.is_none()
    })
}
