//! Finds the archive `libbivdrazo.a` for the processor, which clients/build makes: in the folder in
//! `BIVDRAZO_FOLDER`; in `lib/PROCESSOR`, where the packed crate has it; or in `../out`, which for
//! another processor than this machine's has a folder of its name. Without it the crate can be
//! documented, checked, built and packed, but no program can be linked.

use std::env;
use std::path::{Path, PathBuf};

/// What cargo says in this variable.
fn said(name: &str) -> String {
    env::var(name).unwrap_or_else(|_| panic!("cargo sets {name}"))
}

/// The folder that has the archive for a processor.
fn folder_of(here: &Path, processor: &str) -> PathBuf {
    let packaged = here.join("lib");
    let made = here.join("../out");
    if let Some(folder) = env::var_os("BIVDRAZO_FOLDER") {
        PathBuf::from(folder)
    } else if packaged.exists() {
        packaged.join(processor)
    } else if said("HOST").starts_with(processor) {
        made
    } else {
        made.join(processor)
    }
}

fn main() {
    println!("cargo:rerun-if-env-changed=BIVDRAZO_FOLDER");
    let here = PathBuf::from(said("CARGO_MANIFEST_DIR"));
    let (processor, system) = (said("CARGO_CFG_TARGET_ARCH"), said("CARGO_CFG_TARGET_OS"));
    let folder = folder_of(&here, &processor);
    let archive = folder.join("libbivdrazo.a");
    println!("cargo:rerun-if-changed={}", archive.display());
    if system != "linux" {
        println!("cargo:warning=bivdrazo has a library for Linux, and none for {system}");
    } else if !archive.exists() {
        println!(
            "cargo:warning={} is missing: clients/build makes it for x86_64 and aarch64",
            archive.display()
        );
    } else {
        println!("cargo:rustc-link-search=native={}", folder.display());
        println!("cargo:rustc-link-lib=static=bivdrazo");
    }
}
