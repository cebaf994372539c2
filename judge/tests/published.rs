//! The kept files are the published ones: by their sums, and byte for byte where the environment
//! variable TORVASKIN_PUBLISHED names the folder that holds `src`.

use std::fs;
use std::path::{Path, PathBuf};
use std::process::Command;

fn kept() -> PathBuf {
    Path::new(env!("CARGO_MANIFEST_DIR")).join("published")
}

/// The paths that SUMS names.
fn sums() -> Vec<String> {
    let sums = fs::read_to_string(kept().join("SUMS")).expect("SUMS");
    let path = |line: &str| line.split_once("  ").expect("sum, two spaces, path").1.to_owned();
    sums.lines().map(path).collect()
}

#[test]
fn kept_files_have_their_sums() {
    let sums = sums();
    assert_eq!(sums.len(), 10);
    let mut check = Command::new("sha256sum");
    let checked = check.args(["--check", "--quiet", "SUMS"]).current_dir(kept());
    assert!(checked.status().expect("sha256sum").success());
    if let Some(folder) = std::env::var_os("TORVASKIN_PUBLISHED") {
        for path in &sums {
            let bytes = fs::read(kept().join(path)).expect("a kept file");
            let theirs = fs::read(Path::new(&folder).join(path)).expect("a published file");
            assert!(bytes == theirs, "{path} differs from the published file");
        }
    }
}

/// Each module that the compiler sees is the kept file, then the file beside it.
#[test]
fn built_modules_begin_with_the_kept_files() {
    macro_rules! built {
        ($name:literal, $path:literal) => {{
            let kept: &[u8] = include_bytes!(concat!("../published/src/", $path));
            let built = judge::built_source($name);
            assert!(built.starts_with(kept), $path);
            let beside = Path::new(env!("CARGO_MANIFEST_DIR")).join(concat!("src/beside/", $name, ".rs"));
            let beside = fs::read(beside).unwrap_or_default();
            assert_eq!(&built[kept.len()..], &beside, $path);
        }};
    }
    built!("osm_id", "osm_id.rs");
    built!("error", "error.rs");
    built!("version_floor", "osc/version_floor.rs");
    built!("interner", "osc/interner.rs");
    built!("compact", "osc/compact.rs");
    built!("parse", "osc/parse.rs");
    built!("sorted", "osc/sorted.rs");
    built!("xml_parse", "osc/xml_parse.rs");
}
