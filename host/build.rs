//! Links the archive of the proved library: from the folder in VIMELOSA_ARCHIVE_DIR, or from
//! ../target/staticlib, where `.ci/build archive` puts it.

use std::path::{Path, PathBuf};
use std::{env, process};

fn main() {
    let folder = archive_folder();
    let archive = folder.join("libvimelosa.a");
    if !archive.is_file() {
        eprintln!("There is no archive {}.", archive.display());
        eprintln!(
            "Run `.ci/build archive` in the repository, which proves the library and takes minutes,"
        );
        eprintln!("or set VIMELOSA_ARCHIVE_DIR to the absolute path of the folder that has libvimelosa.a.");
        process::exit(1);
    }
    println!("cargo:rerun-if-env-changed=VIMELOSA_ARCHIVE_DIR");
    println!("cargo:rerun-if-changed={}", archive.display());
    println!("cargo:rustc-link-search=native={}", folder.display());
    println!("cargo:rustc-link-lib=static=vimelosa");
}

/// A relative path is one from this package. Where that is, is asked when the script runs: cargo may run one
/// that it built for the same package in another folder.
fn archive_folder() -> PathBuf {
    let package = env::var_os("CARGO_MANIFEST_DIR").expect("cargo tells a build script its package");
    let folder = env::var_os("VIMELOSA_ARCHIVE_DIR").unwrap_or_else(|| "../target/staticlib".into());
    Path::new(&package).join(folder)
}
