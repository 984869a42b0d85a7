//! `fuzz SECONDS [SEED]`: the comparisons of the tests on fresh seeds until the time is up.
//!
//! Prints how many calls of each kind were compared, and tells on standard error how far it is. On a difference it prints the seed and ends with 1; that seed as
//! SEED finds it again at once.

use compare::{scenarios, Checker, PROVED, REFERENCE};
use std::process::ExitCode;
use std::time::{Duration, Instant, SystemTime, UNIX_EPOCH};
use tools::progress::{grouped, Progress};
use workload::Random;

fn main() -> ExitCode {
    let arguments: Vec<u64> = std::env::args().skip(1).map_while(|text| text.parse().ok()).collect();
    match arguments[..] {
        [seconds] => fuzz(seconds, clock_seed()),
        [seconds, seed] => fuzz(seconds, seed),
        _ => {
            eprintln!("usage: fuzz SECONDS [SEED]");
            ExitCode::from(2)
        }
    }
}

fn clock_seed() -> u64 {
    SystemTime::now().duration_since(UNIX_EPOCH).map_or(0, |since| since.as_nanos() as u64)
}

fn fuzz(seconds: u64, first_seed: u64) -> ExitCode {
    let (start, time) = (Instant::now(), Duration::from_secs(seconds));
    let mut checker = Checker::new(&PROVED, &REFERENCE);
    let mut progress = Progress::start();
    let mut seed = first_seed;
    loop {
        if let Err(difference) = scenarios::any(&mut checker, &mut Random::new(seed)) {
            println!("difference at seed {seed}: {difference}\nto run it again: fuzz 0 {seed}");
            return ExitCode::FAILURE;
        }
        seed = seed.wrapping_add(1);
        if start.elapsed() >= time {
            break;
        }
        let calls = || grouped(checker.tally.total());
        progress.tell(|so_far| format!("fuzz: {so_far} of {seconds} s, {} calls compared", calls()));
    }
    drop(progress);
    let (seeds, calls) = (seed.wrapping_sub(first_seed), checker.tally.total());
    print!("{}", checker.tally);
    println!("{seeds} seeds from {first_seed}, {calls} calls compared, 0 differences");
    ExitCode::SUCCESS
}
