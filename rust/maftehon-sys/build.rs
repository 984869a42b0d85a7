//! Links the proved library: `libmaftehon.a` from the folder `MAFTEHON_LIB`, or from where `make lib` leaves it. What it
//! was compiled for goes to the build of a package that depends on this one, as `DEP_MAFTEHON_ARCHIVE`.

use std::path::{Path, PathBuf};

const ARCHIVE: &str = "libmaftehon.a";
/// The line that `make lib` leaves beside the archive.
const ABOUT: &str = "maftehon.txt";

fn main() {
    println!("cargo:rerun-if-env-changed=MAFTEHON_LIB");
    let folder = std::env::var_os("MAFTEHON_LIB").map_or_else(folder_of_make_lib, PathBuf::from);
    let archive = folder.join(ARCHIVE);
    println!("cargo:rerun-if-changed={}", archive.display());
    // The linker runs in another folder than this program, so the path is made absolute.
    let Ok(found) = archive.canonicalize() else {
        eprintln!("{} is missing: run `make lib` first, or set MAFTEHON_LIB to its folder", archive.display());
        std::process::exit(1);
    };
    println!("cargo:rustc-link-search=native={}", found.with_file_name("").display());
    println!("cargo:rustc-link-lib=static=maftehon");
    println!("cargo:archive={}", about(&found.with_file_name(ABOUT)));
}

/// The processor that the archive was compiled for, and its SHA-256.
fn about(file: &Path) -> String {
    let Ok(text) = std::fs::read_to_string(file) else {
        // The archive is from elsewhere. To watch a file that is not there would be to build anew each time.
        return "unknown processor".into();
    };
    println!("cargo:rerun-if-changed={}", file.display());
    text.lines().take(1).collect()
}

fn folder_of_make_lib() -> PathBuf {
    let package = std::env::var_os("CARGO_MANIFEST_DIR").expect("cargo names the package's folder");
    Path::new(&package).join("../../target/lib")
}
