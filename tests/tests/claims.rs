//! The claims page: each name on it stands in the code, and each path is there.

use std::fs;
use std::path::{Path, PathBuf};

const PAGE: &str = include_str!("../../docs/CLAIMS.md");

/// Every source, definition and proof, as one text.
fn sources(folder: &Path, text: &mut String) {
    for entry in fs::read_dir(folder).unwrap() {
        let path = entry.unwrap().path();
        if path.is_dir() {
            // what rt makes there is no source
            if !path.ends_with("out") {
                sources(&path, text);
            }
        } else if path.extension().is_some_and(|end| end == "rt" || end == "antt") {
            text.push_str(&fs::read_to_string(&path).unwrap());
        }
    }
}

fn is_of_a_name(c: char) -> bool {
    c.is_alphanumeric() || c == '_' || c == '-' || c == '·'
}

#[test]
fn every_name_is_in_the_code() {
    let root = PathBuf::from(env!("CARGO_MANIFEST_DIR")).join("..");
    let mut text = String::new();
    sources(&root.join("crates"), &mut text);
    let names: std::collections::BTreeSet<&str> = text.split(|c| !is_of_a_name(c)).collect();
    let mut seen = 0;
    for name in PAGE.split('`').skip(1).step_by(2) {
        // commands and Rattle's own words are no names of ours
        if name.contains([' ', '[', '&']) || [".ci/run", "requires"].contains(&name) {
            continue;
        }
        seen += 1;
        if name.contains('/') {
            assert!(root.join(name).exists(), "{name}");
        } else if name.ends_with(".antt") {
            assert!(root.join("crates/series/specs").join(name).exists(), "{name}");
        } else {
            for part in name.split("::") {
                assert!(names.contains(part) || root.join("crates").join(part).exists(), "{name}");
            }
        }
    }
    assert!(seen > 60, "{seen}");
}
