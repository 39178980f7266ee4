//! Links libbuntingraft.a, and libbuntingraft_replay.a beside it, from the
//! folder that BUNTINGRAFT_LIB_DIR names or else from the repository's
//! target/staticlib.

use std::env;
use std::path::{Path, PathBuf};
use std::process::exit;

/// The folder in which the archives are looked for.
fn archive_folder() -> PathBuf {
    match env::var_os("BUNTINGRAFT_LIB_DIR") {
        Some(folder) => PathBuf::from(folder),
        None => PathBuf::from(env!("CARGO_MANIFEST_DIR")).join("../../target/staticlib"),
    }
}

/// Links the archive of a crate, or ends where it is not in the folder.
fn link(folder: &Path, name: &str) {
    let archive = folder.join(format!("lib{name}.a"));
    println!("cargo:rerun-if-changed={}", archive.display());
    if !archive.is_file() {
        eprintln!(
            "{} is not there: run tools/archives in the root of the repository first",
            archive.display()
        );
        exit(1);
    }
    println!("cargo:rustc-link-lib=static={name}");
}

fn main() {
    let folder = archive_folder();
    println!("cargo:rerun-if-env-changed=BUNTINGRAFT_LIB_DIR");
    println!("cargo:rustc-link-search=native={}", folder.display());
    link(&folder, "buntingraft");
    link(&folder, "buntingraft_replay");
}
