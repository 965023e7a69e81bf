//! Links the proved library, which `make library` writes to `host/target/proved/` of the repository.

use std::path::{Path, PathBuf};
use std::{env, fs, process};

/// Names another folder that holds the archive.
const FOLDER: &str = "ASHLARKIN_LIB_DIR";
const ARCHIVE: &str = "libashlarkin.a";

fn main() {
    let folder = folder();
    let archive = folder.join(ARCHIVE);
    println!("cargo:rerun-if-env-changed={FOLDER}");
    println!("cargo:rerun-if-changed={}", archive.display());
    if !archive.is_file() {
        eprintln!("{}: the proved library isn't there", archive.display());
        eprintln!("build it with `make library` at the repository's root, or set {FOLDER} to its folder");
        process::exit(1);
    }
    println!("cargo:rustc-link-search=native={}", folder.display());
    println!("cargo:rustc-link-lib=static=ashlarkin");
}

/// The folder of the archive, absolute, since rustc runs in another one.
fn folder() -> PathBuf {
    // Asked when it runs: a checkout that was copied with its built files must not link the old one's archive.
    let here = env::var_os("CARGO_MANIFEST_DIR").expect("cargo sets it for build scripts");
    let root = Path::new(&here).join("../..");
    let named = env::var_os(FOLDER).map(PathBuf::from);
    let folder = root.join(named.unwrap_or_else(|| "host/target/proved".into()));
    fs::canonicalize(&folder).unwrap_or(folder)
}
