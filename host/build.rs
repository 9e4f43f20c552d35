//! Links the proved archive: `tools/archive` writes it to target/staticlib of the repository.
//! The variable BINLARIAT_ARCHIVE names another folder that holds a libbinlariat.a.

use std::env;
use std::path::{Path, PathBuf};

fn main() {
    println!("cargo::rerun-if-env-changed=BINLARIAT_ARCHIVE");
    let folder = match env::var_os("BINLARIAT_ARCHIVE") {
        Some(folder) => PathBuf::from(folder),
        None => Path::new(&env::var_os("CARGO_MANIFEST_DIR").unwrap()).join("../target/staticlib"),
    };
    let archive = folder.join("libbinlariat.a");
    println!("cargo::rerun-if-changed={}", archive.display());
    if !archive.is_file() {
        println!(
            "cargo::error={} isn't there: run tools/archive in the repository first, \
             or name the folder that holds libbinlariat.a in BINLARIAT_ARCHIVE",
            archive.display()
        );
        return;
    }
    println!("cargo::rustc-link-search=native={}", folder.display());
    println!("cargo::rustc-link-lib=static=binlariat");
}
