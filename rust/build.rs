//! Links the proved library, `libhjerringsel.a`.
//!
//! It is looked for in `target/staticlib` at the project's root, or in the folder that the
//! environment variable HJERRINGSEL_LIB_DIR names.

use std::env;
use std::path::{Path, PathBuf};
use std::process::exit;

const ARCHIVE: &str = "libhjerringsel.a";

fn library_folder() -> PathBuf {
    match env::var_os("HJERRINGSEL_LIB_DIR") {
        Some(folder) => PathBuf::from(folder),
        None => Path::new(&env::var_os("CARGO_MANIFEST_DIR").expect("set by cargo"))
            .join("..")
            .join("target")
            .join("staticlib"),
    }
}

fn main() {
    println!("cargo:rerun-if-env-changed=HJERRINGSEL_LIB_DIR");
    let folder = library_folder();
    let archive = folder.join(ARCHIVE);
    println!("cargo:rerun-if-changed={}", archive.display());
    if !archive.is_file() {
        eprintln!("the library {} is missing: run tools/build first", archive.display());
        eprintln!("(or name its folder in the environment variable HJERRINGSEL_LIB_DIR)");
        exit(1);
    }
    let folder = folder.canonicalize().expect("the folder holds the archive");
    println!("cargo:rustc-link-search=native={}", folder.display());
    println!("cargo:rustc-link-lib=static=hjerringsel");
    // The test of the C example links the same archive by hand.
    println!("cargo:rustc-env=HJERRINGSEL_LIB_DIR={}", folder.display());
}
