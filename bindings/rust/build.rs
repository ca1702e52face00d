//! Links libbezinkwolu.a: the one that stands in lib/ beside this file, as ./package leaves it, or
//! the one in the folder that BEZINKWOLU_LIB_DIR names.

use std::env;
use std::path::PathBuf;

fn main() {
    println!("cargo:rerun-if-env-changed=BEZINKWOLU_LIB_DIR");
    let packaged = PathBuf::from(env::var_os("CARGO_MANIFEST_DIR").unwrap_or_default()).join("lib");
    let folder = env::var_os("BEZINKWOLU_LIB_DIR").map_or(packaged, PathBuf::from);
    let archive = folder.join("libbezinkwolu.a");
    if !archive.is_file() {
        eprintln!("bezinkwolu: there is no {}", archive.display());
        eprintln!("bezinkwolu: make a package by `./package FOLDER` in the repository and depend on FOLDER/rust, or name a folder that has the archive in BEZINKWOLU_LIB_DIR");
        std::process::exit(1);
    }
    println!("cargo:rerun-if-changed={}", archive.display());
    println!("cargo:rustc-link-search=native={}", folder.display());
    println!("cargo:rustc-link-lib=static=bezinkwolu");
}
