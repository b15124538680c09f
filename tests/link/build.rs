//! Links target/staticlib/libsolver_link.a, which `./build-link` proves and builds.

use std::env;
use std::path::Path;

fn main() {
    let manifest = env::var_os("CARGO_MANIFEST_DIR").expect("set by cargo");
    let directory = Path::new(&manifest).join("../../target/staticlib");
    let archive = directory.join("libsolver_link.a");
    println!("cargo:rustc-link-search=native={}", directory.display());
    println!("cargo:rustc-link-lib=static=solver_link");
    println!("cargo:rerun-if-changed={}", archive.display());
}
