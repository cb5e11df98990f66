//! Finds the archive `libmako_fristen.a`: in the folder that `MAKO_FRISTEN_LIB` names, an absolute
//! path, else in target/staticlib, where `./fristen` puts it.

use std::path::PathBuf;
use std::{env, process};

const FOLDER: &str = "MAKO_FRISTEN_LIB";

fn main() {
    println!("cargo:rerun-if-env-changed={FOLDER}");
    let folder = match env::var_os(FOLDER) {
        Some(folder) => PathBuf::from(folder),
        None => PathBuf::from(env!("CARGO_MANIFEST_DIR")).join("../target/staticlib"),
    };
    // The build script and the linker do not start in the same folder.
    if !folder.is_absolute() {
        eprintln!("error: {FOLDER} is no absolute path: {}", folder.display());
        process::exit(1);
    }
    let archive = folder.join("libmako_fristen.a");
    println!("cargo:rerun-if-changed={}", archive.display());
    if !archive.is_file() {
        eprintln!("error: there is no {}", archive.display());
        eprintln!("  run `./fristen --help` at the repository's root, which builds it,");
        eprintln!("  or set {FOLDER} to the folder that holds libmako_fristen.a");
        process::exit(1);
    }
    println!("cargo:rustc-link-search=native={}", folder.display());
    println!("cargo:rustc-link-lib=static=mako_fristen");
    // For the test that links a C program with it.
    println!("cargo:rustc-env=MAKO_FRISTEN_ARCHIVE={}", archive.display());
}
