//! Links the library that ./install wrote: in the folder that G7231_FOLDER names, or in target/g7231.

use std::env;
use std::path::PathBuf;
use std::process::exit;

fn main() {
    println!("cargo::rerun-if-changed=build.rs");
    println!("cargo::rerun-if-env-changed=G7231_FOLDER");
    let folder = match env::var_os("G7231_FOLDER") {
        Some(named) if !named.is_empty() => PathBuf::from(named),
        _ => PathBuf::from(env::var_os("CARGO_MANIFEST_DIR").unwrap()).join("../../target/g7231"),
    };
    let archive = folder.join("lib/libg7231.a");
    println!("cargo::rerun-if-changed={}", archive.display());
    if !archive.is_file() {
        eprintln!("there is no {}: run ./install, or let G7231_FOLDER name the folder in full", archive.display());
        exit(1);
    }
    let bindings = folder.join("share/g7231/g7231.rs");
    println!("cargo::rerun-if-changed={}", bindings.display());
    println!("cargo::rustc-env=G7231_BINDINGS={}", bindings.display());
    println!("cargo::rustc-link-search=native={}", folder.join("lib").display());
    println!("cargo::rustc-link-lib=static=g7231");
}
