//! What documents say of the repository's files, where it can be told by a program.

use std::fs;
use std::path::{Path, PathBuf};

/// The entries of a folder; none if it is not there.
fn entries(folder: &Path) -> Vec<PathBuf> {
    let entries = fs::read_dir(folder).into_iter().flatten();
    entries.map(|entry| entry.expect("the entry can be read").path()).collect()
}

/// The last part of a path, without its ending.
fn name(path: &Path) -> String {
    path.file_stem().expect("the path has a name").to_string_lossy().into_owned()
}

/// `CRATE/EDIT` of every must-fail edit.
fn edits() -> Vec<String> {
    let crates = entries(&Path::new(env!("CARGO_MANIFEST_DIR")).join("../crates"));
    let of_crate = |folder: &PathBuf| {
        let edits = entries(&folder.join("must-fail"));
        edits.iter().map(|edit| format!("{}/{}", name(folder), name(edit))).collect::<Vec<_>>()
    };
    crates.iter().flat_map(of_crate).collect()
}

#[test]
fn every_must_fail_edit_is_listed_once() {
    let document = include_str!("../../docs/EDITS.md");
    let is_edit =
        |word: &&str| word.contains('/') && word.chars().all(|x| x.is_alphanumeric() || "_/".contains(x));
    let mut listed: Vec<&str> = document.split('`').skip(1).step_by(2).filter(is_edit).collect();
    listed.sort_unstable();
    let mut edits = edits();
    edits.sort_unstable();
    assert_eq!(listed, edits);
}
