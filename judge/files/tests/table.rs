//! The model beside the edge table, the files at random, and the kept files of quick-xml and memchr.

use std::collections::BTreeSet;
use std::fs;
use std::path::Path;
use std::process::Command;

use files::compare::{Class, Counts, Model, edge_rows, enemies, large, limits, random};
use files::file::{ROADFILE, answer};
use files::produce::{Files, Shape, Style, real};
use files::{edge, rust};
use judge::Outcome;

#[test]
fn edge_rows_by_the_model() {
    let mut counts = Counts::new();
    edge_rows(&mut Model(ROADFILE), &mut counts).unwrap_or_else(|difference| panic!("{difference}"));
    assert_eq!(counts.values().sum::<u64>(), 231);
}

#[test]
fn edge_rows_by_the_rust() {
    for row in edge::rows() {
        assert_eq!(rust::listing_of(&row.input).ok(), row.rust, "{}", row.name);
    }
}

/// Every file is in a class, and most are compared with the Rust.
#[test]
fn files_at_random() {
    let mut counts = Counts::new();
    random(&mut Model(ROADFILE), &ROADFILE, &mut counts, 1, 6_000).unwrap_or_else(|difference| panic!("{difference}"));
    counts.iter().for_each(|(class, files)| println!("{files:>7}  {class}"));
    assert!(counts[&Class::Compared] > 3_000, "{counts:?}");
    let only_rust = counts.keys().filter(|class| matches!(class, Class::OnlyRust(_))).count();
    assert!(only_rust >= 12, "{counts:?}");
    // and each refusal of a file that is not one of sizes or limits
    let mut source = Files::new(1);
    let files = (0..6_000).map(|n| source.file([Style::Compared, Style::Damaged, Style::Wide][n % 3]));
    let number = |file: Vec<u8>| match answer(&file, &ROADFILE).outcome {
        Outcome::Refused(stop) => stop.number,
        Outcome::Listing(_) => 0,
    };
    let numbers: BTreeSet<u32> = files.map(number).collect();
    assert_eq!(numbers, [0, 2, 5, 6, 7, 8, 9, 10, 11, 12, 18, 23, 24, 25, 26].into());
}

#[test]
fn real_files() {
    let mut counts = Counts::new();
    let reply = large(&mut Model(ROADFILE), &ROADFILE, &mut counts, &Shape::SOME, 1);
    reply.unwrap_or_else(|difference| panic!("{difference}"));
    assert_eq!(counts[&Class::Compared], 2);
    assert_eq!((counts[&Class::Refused], counts[&Class::OnlyRust("`<` in a value")]), (3, 1));
    let length = real(&Shape::SOME, 1).len();
    assert!((400_000..600_000).contains(&length), "{length}");
    // the large one: its page is longer than a mebibyte, and has room in what `roadfile` lends
    let file = real(&Shape::LARGE, 1);
    assert!(file.len() > 5_000_000);
    let tight = judge::Sizes { output: 1 << 20, ..ROADFILE };
    let listing = rust::listing_of(&file).expect("the Rust takes it");
    assert!(answer(&file, &ROADFILE).outcome.print() == listing, "the large file's listings differ");
    assert!(answer(&file, &tight).outcome.print().starts_with(b"refused\t19\t"));
}

/// Each size and limit is met, and each enemy answered.
#[test]
fn limits_and_enemies() {
    let mut counts = Counts::new();
    let port = &mut Model(ROADFILE);
    let reply = limits(port, &ROADFILE, &mut counts).and_then(|()| enemies(port, &ROADFILE, &mut counts, 1_000_000));
    reply.unwrap_or_else(|difference| panic!("{difference}"));
    counts.iter().for_each(|(class, files)| println!("{files:>7}  {class}"));
    assert_eq!(counts[&Class::OnlyRust("D6, sizes and limits")], 11);
}

/// The kept files of ../vendored have their sums, and nothing else is there.
#[test]
fn kept_files_have_their_sums() {
    let kept = Path::new(env!("CARGO_MANIFEST_DIR")).join("../vendored");
    let sums = fs::read_to_string(kept.join("SUMS")).expect("SUMS");
    let mut check = Command::new("sha256sum");
    let checked = check.args(["--check", "--quiet", "SUMS"]).current_dir(&kept);
    assert!(checked.status().expect("sha256sum").success());
    let found = Command::new("find").args([".", "-type", "f"]).current_dir(&kept).output().expect("find");
    let mut found: Vec<&str> = std::str::from_utf8(&found.stdout).expect("names").lines().collect();
    found.retain(|path| *path != "./SUMS");
    let mut named: Vec<String> =
        sums.lines().map(|line| format!("./{}", line.split_once("  ").expect("two spaces").1)).collect();
    found.sort_unstable();
    named.sort_unstable();
    assert_eq!(found, named);
}

/// What the compiler sees for xml_parse.rs is the published file, then the file beside it.
#[test]
fn xml_parse_is_unchanged() {
    let published: &[u8] = include_bytes!("../../published/src/osc/xml_parse.rs");
    let beside: &[u8] = include_bytes!("../../src/beside/xml_parse.rs");
    assert!(over::built_xml_parse() == [published, beside].concat());
}
