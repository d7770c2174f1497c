//! Compiles the plain C, and links the proved library where this machine can run it.

use std::env;
use std::path::Path;
use std::process::Command;

fn run(command: &mut Command) {
    let status = command.status();
    assert!(status.is_ok_and(|status| status.success()), "{command:?} failed");
}

fn main() {
    let out = env::var("OUT_DIR").expect("cargo sets it");
    let object = Path::new(&out).join("plain.o");
    let flags = ["-std=c11", "-O3", "-Wall", "-Wextra", "-Werror", "-fPIC", "-I../include"];
    run(Command::new("gcc").args(flags).args(["-c", "plain.c", "-o"]).arg(&object));
    run(Command::new("ar").arg("crs").arg(Path::new(&out).join("libplain.a")).arg(&object));
    println!("cargo:rustc-link-search=native={out}");
    println!("cargo:rustc-link-lib=static=plain");
    println!("cargo:rerun-if-changed=plain.c");
    println!("cargo:rerun-if-changed=../include/halviruso.h");
    println!("cargo:rustc-check-cfg=cfg(linked)");
    // the archive is x86-64 code; bench/here leaves the same library for another processor
    let build = Path::new(env!("CARGO_MANIFEST_DIR")).join("../build");
    let x86_64 = env::var("CARGO_CFG_TARGET_ARCH").as_deref() == Ok("x86_64");
    let folder = if x86_64 { build } else { build.join("here") };
    let archive = folder.join("libhalviruso.a");
    println!("cargo:rerun-if-changed={}", archive.display());
    if archive.exists() {
        println!("cargo:rustc-cfg=linked");
        println!("cargo:rustc-link-search=native={}", folder.display());
        println!("cargo:rustc-link-lib=static=halviruso");
    }
}
