//! Links libtwine.a, from the directory that TWINE_LIB_DIR names or else from crates/twine/out of the repository that the package is in.
//! `differential` and `bench` are built by this file too.

use std::env;
use std::path::PathBuf;

fn main() {
    println!("cargo::rerun-if-env-changed=TWINE_LIB_DIR");
    // a build script runs in its package's directory
    let here = env::current_dir().expect("the package's directory");
    let dir = match env::var_os("TWINE_LIB_DIR").map(PathBuf::from) {
        Some(named) => here.join(named),
        None => {
            let repository = here.ancestors().find(|above| above.join("crates.txt").is_file());
            repository.unwrap_or(&here).join("crates/twine/out")
        }
    };
    let archive = dir.join("libtwine.a");
    if !archive.is_file() {
        println!(
            "cargo::error=there is no {}; run: bindings/c/archive (in the repository's root), or name its directory in TWINE_LIB_DIR",
            archive.display()
        );
        return;
    }
    println!("cargo::rerun-if-changed={}", archive.display());
    println!("cargo::rustc-link-search=native={}", dir.display());
    println!("cargo::rustc-link-lib=static=twine");
}
