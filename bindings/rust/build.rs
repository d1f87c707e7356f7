//! Links the library: `libkettleflock.a` in the folder that KETTLEFLOCK_LIB_DIR names by an absolute path, else where
//! `scripts/archive` puts it.

use std::env;
use std::path::PathBuf;

const FOLDER: &str = "KETTLEFLOCK_LIB_DIR";

fn main() {
    let folder = match env::var_os(FOLDER).filter(|folder| !folder.is_empty()) {
        Some(folder) => PathBuf::from(folder),
        None => PathBuf::from(env!("CARGO_MANIFEST_DIR")).join("../../target/staticlib"),
    };
    let archive = folder.join("libkettleflock.a");
    println!("cargo::rerun-if-env-changed={FOLDER}");
    println!("cargo::rerun-if-changed={}", archive.display());
    if !archive.is_file() {
        println!(
            "cargo::error=there is no {}: make it with `scripts/archive`, or name its folder by {FOLDER}",
            archive.display()
        );
        return;
    }
    println!("cargo::rustc-link-search=native={}", folder.display());
    println!("cargo::rustc-link-lib=static=kettleflock");
}
