//! What a measurement is made with.

/// The machine, the archive and the Rust, in a sentence each.
pub fn setting() -> String {
    // The last two are what `build.rs` was told.
    format!("{}. libmaftehon.a: {}. Rust: {}.", machine(), env!("ARCHIVE"), env!("RUST"))
}

/// The processor's name and how many cores are to be had.
fn machine() -> String {
    let information = std::fs::read_to_string("/proc/cpuinfo").unwrap_or_default();
    let name = information.lines().find_map(|line| line.strip_prefix("model name")?.split(": ").nth(1));
    let cores = std::thread::available_parallelism().map_or(1, |cores| cores.get());
    format!("{}, {cores} cores", name.unwrap_or(std::env::consts::ARCH))
}
