//! Compiles the plain C that the library is measured against, with the C compiler that `CC` names, or `cc`; and tells the
//! programs which archive they have linked and how their Rust was compiled.

use std::path::PathBuf;
use std::process::Command;

const SOURCES: [&str; 2] = ["plain_segments", "plain_walk"];
/// What one would compile it with; no extensions of the processor, as in the library that is shipped.
const FLAGS: [&str; 6] = ["-std=c11", "-O2", "-Wall", "-Wextra", "-Werror", "-c"];

fn main() {
    compile_c();
    println!("cargo:rustc-env=ARCHIVE={}", variable("DEP_MAFTEHON_ARCHIVE"));
    println!("cargo:rustc-env=RUST={}", rust());
}

fn compile_c() {
    println!("cargo:rerun-if-env-changed=CC");
    let folder = PathBuf::from(variable("OUT_DIR"));
    let compiler = std::env::var("CC").unwrap_or_else(|_| "cc".into());
    println!("cargo:rustc-link-search=native={}", folder.display());
    for name in SOURCES {
        let source = format!("src/{name}.c");
        println!("cargo:rerun-if-changed={source}");
        let object = folder.join(format!("{name}.o"));
        run(Command::new(&compiler).args(FLAGS).arg(source).arg("-o").arg(&object));
        run(Command::new("ar").arg("crs").arg(folder.join(format!("lib{name}.a"))).arg(&object));
        println!("cargo:rustc-link-lib=static={name}");
    }
}

/// The compiler's version, and what it was handed.
fn rust() -> String {
    let version = Command::new(variable("RUSTC")).arg("--version").output().expect("the compiler says its version");
    let version = String::from_utf8_lossy(&version.stdout);
    let flags = match variable("CARGO_ENCODED_RUSTFLAGS").as_str() {
        "" => "no target-cpu and no other flags".into(),
        flags => flags.replace('\x1f', " "),
    };
    format!("{}, opt-level {}, {flags}", version.trim_end(), variable("OPT_LEVEL"))
}

fn variable(name: &str) -> String {
    std::env::var(name).unwrap_or_else(|error| panic!("cargo sets {name}: {error}"))
}

fn run(command: &mut Command) {
    let status = command.status().unwrap_or_else(|error| panic!("{command:?}: {error}"));
    assert!(status.success(), "{command:?} failed");
}
