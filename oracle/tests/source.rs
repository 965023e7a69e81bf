//! The Rust in docs/src is the text that was given, byte for byte: every file has its recorded checksum, and no file is
//! there that has none.

use std::collections::BTreeMap;
use std::fs;
use std::path::{Path, PathBuf};

use sha2::{Digest, Sha256};

fn files(folder: &Path, found: &mut Vec<PathBuf>) {
    for item in fs::read_dir(folder).expect("a readable folder") {
        let path = item.expect("a readable folder").path();
        if path.is_dir() { files(&path, found) } else { found.push(path) }
    }
}

#[test]
fn the_rust_is_unchanged() {
    let here = Path::new(env!("CARGO_MANIFEST_DIR"));
    let root = here.join("../docs/src");
    let mut found = vec![];
    files(&root, &mut found);
    let actual: BTreeMap<String, String> = found
        .iter()
        .map(|path| {
            let name = path.strip_prefix(&root).expect("below the root").display().to_string();
            (name, format!("{:x}", Sha256::digest(fs::read(path).expect("a readable file"))))
        })
        .collect();
    let recorded: BTreeMap<String, String> = include_str!("source.sha256")
        .lines()
        .map(|line| line.split_once("  ").expect("a sum and a name"))
        .map(|(sum, name)| (name.to_string(), sum.to_string()))
        .collect();
    assert_eq!(actual, recorded);
}
