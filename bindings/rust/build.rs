//! Finds the static library: in the folder that `INTAKE_LIB_DIR` names, else where `tools/archive` writes it in this repository.
use std::env;
use std::path::{Path, PathBuf};

fn main() {
    let built = Path::new(env!("CARGO_MANIFEST_DIR")).join("../../target/staticlib");
    let folder = env::var_os("INTAKE_LIB_DIR").map_or(built, PathBuf::from);
    let archive = folder.join("libexports.a");
    // To look at the sources needs no archive, so a missing one is an error only where something is linked.
    if !archive.exists() {
        let fix = "run `tools/archive`, or set INTAKE_LIB_DIR to the folder that has it";
        println!("cargo:warning={} is not there: {}", archive.display(), fix);
    }
    println!("cargo:rerun-if-env-changed=INTAKE_LIB_DIR");
    println!("cargo:rerun-if-changed={}", archive.display());
    println!("cargo:rustc-link-search=native={}", folder.display());
    println!("cargo:rustc-link-lib=static=exports");
}
