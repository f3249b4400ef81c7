//! The build script of the crates that link a proved static library: of the crate NAME it finds and
//! links libNAME.a.
//!
//! It lies in the folder that DAHOMIKE_LIB_DIR names, or else in target/staticlib of the
//! repository, where `tools/libraries` puts it.

use std::env;
use std::path::PathBuf;

const DIRECTORY_VARIABLE: &str = "DAHOMIKE_LIB_DIR";

fn main() {
    println!("cargo::rerun-if-env-changed={DIRECTORY_VARIABLE}");
    let library = env::var("CARGO_PKG_NAME").expect("cargo sets the crate's name");
    let directory = library_directory();
    let archive = directory.join(format!("lib{library}.a"));
    println!("cargo::rerun-if-changed={}", archive.display());
    if !archive.is_file() {
        println!("cargo::error=the static library {} is missing", archive.display());
        println!(
            "cargo::error=run `tools/libraries` in the repository's root, \
             or set {DIRECTORY_VARIABLE} to the folder that holds lib{library}.a"
        );
        return;
    }
    println!("cargo::rustc-link-search=native={}", directory.display());
    println!("cargo::rustc-link-lib=static={library}");
}

fn library_directory() -> PathBuf {
    if let Some(directory) = env::var_os(DIRECTORY_VARIABLE) {
        return PathBuf::from(directory);
    }
    let manifest = env::var_os("CARGO_MANIFEST_DIR").expect("cargo sets the crate's folder");
    let crate_folder = PathBuf::from(manifest);
    let repository = crate_folder.ancestors().nth(2).expect("the crate is in rust");
    repository.join("target/staticlib")
}
