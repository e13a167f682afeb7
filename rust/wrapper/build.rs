//! Links the static library from the folder in OBOEFINCH_LIB, or from where `tools/build oboefinch` leaves it.

use std::path::{Path, PathBuf};

const FOLDER_VARIABLE: &str = "OBOEFINCH_LIB";
const FOLDER_BESIDE: &str = "../../crates/oboefinch/out";
const ARCHIVE: &str = "liboboefinch.a";

fn main() {
    println!("cargo:rerun-if-env-changed={FOLDER_VARIABLE}");
    let folder = library_folder();
    println!("cargo:rerun-if-changed={}", folder.join(ARCHIVE).display());
    println!("cargo:rustc-link-search=native={}", folder.display());
    println!("cargo:rustc-link-lib=static=oboefinch");
}

fn library_folder() -> PathBuf {
    let named = match std::env::var_os(FOLDER_VARIABLE) {
        Some(folder) => PathBuf::from(folder),
        None => Path::new(env!("CARGO_MANIFEST_DIR")).join(FOLDER_BESIDE),
    };
    named.canonicalize().unwrap_or_else(|error| {
        let folder = named.display();
        panic!("no folder {folder} with {ARCHIVE} ({error}): build it with tools/build oboefinch, or set {FOLDER_VARIABLE}")
    })
}
