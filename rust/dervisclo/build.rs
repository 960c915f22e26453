//! Links the static library `libgateway.a`, which `tools/library` has proved and writes to `target/staticlib`. The
//! variable `DERVISCLO_LIB_DIR` names another folder that holds it; a relative path is seen from the repository's root.

use std::env;
use std::path::PathBuf;

const VARIABLE: &str = "DERVISCLO_LIB_DIR";
const DEFAULT: &str = "target/staticlib"; // from the repository's root
const LIBRARY: &str = "libgateway.a";

fn main() {
    println!("cargo::rerun-if-env-changed={VARIABLE}");
    println!("cargo::rerun-if-changed=build.rs");

    let package = PathBuf::from(env::var_os("CARGO_MANIFEST_DIR").unwrap());
    let repository = package.join("../..").canonicalize().unwrap();
    let folder = repository.join(env::var_os(VARIABLE).unwrap_or_else(|| DEFAULT.into()));
    let library = folder.join(LIBRARY);
    println!("cargo::rerun-if-changed={}", library.display());
    if !library.is_file() {
        println!(
            "cargo::error={} is not there: run `tools/library` in the repository first, \
             or name the folder that holds {LIBRARY} in {VARIABLE}",
            library.display()
        );
        return;
    }
    println!("cargo::rustc-link-search=native={}", folder.display());
    println!("cargo::rustc-link-lib=static=gateway");
    // for the test that builds the C example
    println!("cargo::rustc-env=DERVISCLO_LIBRARY={}", library.display());
}
