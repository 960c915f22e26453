//! Lays the crate's `ast/mod.rs` and `ast/serialize.rs`, unchanged, beside the files of `shims/ast`, and
//! compiles that folder as the module `ast`. Where the sources are absent it sets the cfg `sources_absent`.

use std::env;
use std::fs;
use std::path::{Path, PathBuf};

const VARIABLE: &str = "DERVISCLO_CRATE_SOURCES";
const DEFAULT: &str = "../shared/docs/src"; // from the repository's root
const SHIMS: [&str; 3] = ["from_cst.rs", "impls.rs", "serialize.rs"];

fn main() {
    println!("cargo::rustc-check-cfg=cfg(sources_absent)");
    println!("cargo::rerun-if-env-changed={VARIABLE}");
    println!("cargo::rerun-if-changed=build.rs");

    let package = PathBuf::from(env::var_os("CARGO_MANIFEST_DIR").unwrap());
    let out = PathBuf::from(env::var_os("OUT_DIR").unwrap());
    let given = env::var_os(VARIABLE).unwrap_or_else(|| DEFAULT.into());
    let sources = package.join("../..").join(given).join("src/ast");
    let module = sources.join("mod.rs");
    let serialize = sources.join("serialize.rs");
    for file in [&module, &serialize] {
        println!("cargo::rerun-if-changed={}", file.display());
    }
    if !module.is_file() || !serialize.is_file() {
        println!("cargo::rustc-cfg=sources_absent");
        return;
    }

    let ast = out.join("ast");
    fs::create_dir_all(&ast).unwrap();
    copy(&module, &ast.join("mod.rs"));
    copy(&serialize, &ast.join("serialize_unchanged.rs"));
    for shim in SHIMS {
        let from = package.join("shims/ast").join(shim);
        println!("cargo::rerun-if-changed={}", from.display());
        copy(&from, &ast.join(shim));
    }
    let entry = format!(
        "#[allow(dead_code)]\n#[path = {:?}]\npub mod ast;\n",
        ast.join("mod.rs")
    );
    fs::write(out.join("ast.rs"), entry).unwrap();
}

fn copy(from: &Path, to: &Path) {
    let bytes = fs::read(from).unwrap_or_else(|e| panic!("{}: {e}", from.display()));
    fs::write(to, bytes).unwrap_or_else(|e| panic!("{}: {e}", to.display()));
}
