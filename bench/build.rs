//! Makes the Rust's module trees as the judge does, and links the library that LANTERNLEAN_LIB names.

#[allow(dead_code)]
#[path = "../tests/compare/build.rs"]
mod judge;

use std::env;
use std::fs;
use std::path::PathBuf;

fn main() {
    println!("cargo::rerun-if-changed=build.rs");
    println!("cargo::rerun-if-env-changed=LANTERNLEAN_RUST");
    println!("cargo::rerun-if-env-changed=LANTERNLEAN_LIB");
    let out = PathBuf::from(env::var("OUT_DIR").unwrap());
    judge::make_trees(&judge::rust_folder(), &out);

    let library = env::var("LANTERNLEAN_LIB").expect("bench/run sets LANTERNLEAN_LIB");
    println!("cargo::rerun-if-changed={library}");
    let archive = fs::read(&library).expect("the library cannot be read");
    let defined = judge::symbols(&archive);
    for entry in judge::ENTRIES {
        println!("cargo::rustc-check-cfg=cfg(have_{entry})");
        if defined.iter().any(|s| s == entry) {
            println!("cargo::rustc-cfg=have_{entry}");
        }
    }
    println!("cargo::rustc-link-arg={library}");
}
