//! Links libhalviruso.a, from build/ or from the folder that HALVIRUSO_LIB_DIR names.

use std::env;
use std::path::{Path, PathBuf};
use std::process;

fn main() {
    println!("cargo:rerun-if-env-changed=HALVIRUSO_LIB_DIR");
    let folder = env::var_os("HALVIRUSO_LIB_DIR")
        .map_or_else(|| Path::new(env!("CARGO_MANIFEST_DIR")).join("../../build"), PathBuf::from);
    let archive = folder.join("libhalviruso.a");
    println!("cargo:rerun-if-changed={}", archive.display());
    if !archive.is_file() {
        eprintln!("{} isn't there.", archive.display());
        eprintln!(
            "Run `make lib` at the top of the repository, or name its folder in HALVIRUSO_LIB_DIR."
        );
        process::exit(1);
    }
    println!("cargo:rustc-link-search=native={}", folder.display());
    println!("cargo:rustc-link-lib=static=halviruso");
}
