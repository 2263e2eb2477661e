//! Tells the linker where `libgateway.a` is: in the folder that GATEWAY_ARCHIVE_FOLDER names, and if it names none, where
//! `tools/archive` writes it.

use std::env;
use std::path::PathBuf;
use std::process::exit;

const FOLDER: &str = "GATEWAY_ARCHIVE_FOLDER";
const WRITTEN_TO: &str = concat!(env!("CARGO_MANIFEST_DIR"), "/../../target/staticlib");

fn is_target(of: &str, name: &str) -> bool {
    env::var(of).map_or(false, |value| value == name)
}

fn main() {
    if !is_target("CARGO_CFG_TARGET_ARCH", "x86_64") || !is_target("CARGO_CFG_TARGET_OS", "linux") {
        eprintln!("libgateway.a is for x86-64 Linux: build for the target x86_64-unknown-linux-gnu (docs/EMBEDDING.md says how)");
        exit(1);
    }
    let folder = env::var_os(FOLDER).map_or_else(|| PathBuf::from(WRITTEN_TO), PathBuf::from);
    let archive = folder.join("libgateway.a");
    if !folder.is_absolute() || !archive.is_file() {
        eprintln!("there is no {}: run tools/archive, or let {FOLDER} name the archive's folder from the root on", archive.display());
        exit(1);
    }
    println!("cargo:rustc-link-search=native={}", folder.display());
    println!("cargo:rerun-if-env-changed={FOLDER}");
    println!("cargo:rerun-if-changed={}", archive.display());
}
