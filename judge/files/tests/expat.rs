//! The model of a file's rules beside expat.

use files::edge;
use files::expat::{Counts, compare, expat};
use files::produce::{Files, Shape, Style, real, soup};
use judge::random::Random;

const NONE: &str = "python3 with xml.parsers.expat is not there: well-formedness was not compared with expat's";

fn compared(files: &[Vec<u8>]) -> Option<Counts> {
    let counts = compare(files).map(|reply| reply.unwrap_or_else(|difference| panic!("{difference}")));
    match &counts {
        Some(counts) => counts.iter().for_each(|(class, files)| println!("{files:>7}  {class}")),
        None => println!("{NONE}"),
    }
    counts
}

/// The edge table's column, and its classes.
#[test]
fn edge_rows() {
    let rows = edge::rows();
    let inputs: Vec<Vec<u8>> = rows.iter().map(|row| row.input.clone()).collect();
    let Some(counts) = compared(&inputs) else { return };
    assert_eq!(counts.values().sum::<u64>(), 231);
    for (row, told) in rows.iter().zip(expat(&inputs).expect("it was there")) {
        assert_eq!(told.is_ok(), row.expat == "ok", "{}: {told:?}", row.name);
    }
}

/// Pieces of XML at random, and small change files.
#[test]
fn files_at_random() {
    let (mut random, mut source) = (Random::new(1), Files::new(7));
    let mut files: Vec<Vec<u8>> = (0..100_000).map(|_| soup(&mut random)).collect();
    files.extend((0..6_000).map(|n| source.file([Style::Compared, Style::Wide, Style::Damaged][n % 3])));
    let Some(counts) = compared(&files) else { return };
    assert!(counts["both take it, with the same events"] > 3_000, "{counts:?}");
}

/// A real-looking file has the events that expat finds.
#[test]
fn real_file() {
    let Some(counts) = compared(&[real(&Shape::SOME, 1)]) else { return };
    assert_eq!(counts["both take it, with the same events"], 1);
}
