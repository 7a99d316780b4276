//! Links the archive of what is proved.

use std::env;
use std::path::{Path, PathBuf};

/// Names another folder of the archive than the repository's own.
const FOLDER: &str = "OSTROGOSZ_STATICLIB";

/// The archive, without what the linker adds to its name.
const ARCHIVE: &str = "ostrogosz";

fn main() {
    let folder = archive_folder();
    println!("cargo:rerun-if-env-changed={FOLDER}");
    println!("cargo:rustc-link-search=native={}", folder.display());
    link(&folder);
}

fn archive_folder() -> PathBuf {
    let own = || Path::new(env!("CARGO_MANIFEST_DIR")).join("../../target/staticlib");
    env::var_os(FOLDER).map_or_else(own, PathBuf::from)
}

/// Only what is proved is in an archive, so a missing one is said in the words
/// of the command that proves it. Checking, linting and documenting need none;
/// what links then fails on the missing names.
fn link(folder: &Path) {
    let archive = folder.join(format!("lib{ARCHIVE}.a"));
    println!("cargo:rerun-if-changed={}", archive.display());
    if archive.is_file() {
        println!("cargo:rustc-link-lib=static={ARCHIVE}");
    } else {
        println!(
            "cargo:warning=lib{ARCHIVE}.a is missing, so nothing will link: \
             run `scripts/archives` at the root of the repository, or name its folder in {FOLDER}"
        );
    }
}
