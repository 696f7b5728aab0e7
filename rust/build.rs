//! Links the static library that `rt lib` writes in `crates/embed`. `ENCLAVE_LIB_DIR` names the folder that
//! holds it by its whole path, where that is not `crates/embed/out` of this repository.

use std::env;
use std::path::{Path, PathBuf};

const VARIABLE: &str = "ENCLAVE_LIB_DIR";

fn main() {
    println!("cargo::rerun-if-env-changed={VARIABLE}");
    let folder = env::var_os(VARIABLE).map_or_else(own_folder, PathBuf::from);
    let library = folder.join("libembed.a");
    println!("cargo::rerun-if-changed={}", library.display());
    if !library.is_file() {
        println!("cargo::error={}", complaint(&library));
        return;
    }
    println!("cargo::rustc-link-search=native={}", folder.display());
    println!("cargo::rustc-link-lib=static=embed");
}

// Where `rt lib` writes the library.
fn own_folder() -> PathBuf {
    let here = env::var_os("CARGO_MANIFEST_DIR").expect("set by cargo");
    PathBuf::from(here).join("../crates/embed/out")
}

// What is wrong where the library is missing, and what to do.
fn complaint(library: &Path) -> String {
    format!(
        "{} is missing: run `rt lib` in the folder crates/embed of the repository, or set {VARIABLE} to the folder that holds libembed.a",
        library.display()
    )
}
