//! A file that osmium writes: its page is that of its event lines, and that of the file which osmium was given.

use files::file::{ROADFILE, answer, lines_of};
use files::produce::{Shape, real};
use files::{expat, osmium, rust};
use judge::run;

#[test]
fn file_that_osmium_writes() {
    let given = real(&Shape::SOME, 3);
    let Some(written) = osmium::written(&given) else {
        println!("{}", osmium::NONE);
        return;
    };
    assert!(given != written);
    let page = answer(&written, &ROADFILE).outcome.print();
    assert!(page.len() > 100_000);
    let (lines, reply) = lines_of(&written);
    assert_eq!(reply, Ok(()));
    assert!(page == run(lines.as_bytes(), false).0.print(), "the page of its event lines differs");
    assert!(page == answer(&given, &ROADFILE).outcome.print(), "the page of the file that it was given differs");
    assert!(rust::listing_of(&written).as_ref() == Ok(&page), "the Rust's page differs");
    if let Some(counts) = expat::compare(&[written]) {
        assert_eq!(counts.expect("a class")["both take it, with the same events"], 1);
    }
}
