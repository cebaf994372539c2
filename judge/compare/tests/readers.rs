//! Readers of event lines and the listing: the library against the Rust.

use compare::overlay::{Between, Entries};
use compare::same;
use judge::compare::call::{Answer, Call, Lines, Port, Storage};
use judge::compare::overlay;
use judge::random::{Random, depth, seed_and_rounds};
use judge::{Kind, Sizes};

const LIBRARY: &dyn Port = &Entries(Between);

#[test]
fn nesting() {
    same(overlay::nesting(LIBRARY, depth()));
}

#[test]
fn names() {
    let (seed, rounds) = seed_and_rounds();
    same(overlay::names(LIBRARY, seed, rounds));
}

#[test]
fn coordinates() {
    let (seed, rounds) = seed_and_rounds();
    same(overlay::coordinates(LIBRARY, seed, rounds));
}

#[test]
fn documents() {
    let (seed, rounds) = seed_and_rounds();
    let compared = overlay::documents(LIBRARY, seed, rounds);
    if let Ok((documents, _)) = compared {
        println!("{documents} documents");
    }
    same(compared.map(|(_, answers)| answers));
}

#[test]
fn wide_documents() {
    let (seed, rounds) = seed_and_rounds();
    same(overlay::wide_documents(LIBRARY, seed, rounds).map(|(_, answers)| answers));
}

#[test]
fn large_document() {
    let (seed, _) = seed_and_rounds();
    let compared = overlay::large_document(LIBRARY, seed);
    if let Ok((bytes, _)) = compared {
        assert!(bytes > 200_000, "{bytes} bytes taken");
    }
    same(compared.map(|(_, answers)| answers));
}

#[test]
fn several_readers() {
    let (seed, rounds) = seed_and_rounds();
    same(overlay::readers(LIBRARY, seed, rounds));
}

/// The last answer to lines given to a fresh reader of an empty overlay, and what is lent then.
fn told(lines: &str) -> (Answer, Storage) {
    let mut lent = Storage::drawn(&mut Random::new(1), &Sizes::ROADLIST);
    assert_eq!(LIBRARY.call(&mut lent, &Call::SetUp(Sizes::ROADLIST.numbers(), 0)).number(), 0);
    lent.readers = vec![Lines::fresh(&mut Random::new(2))];
    let mut answer = Answer::reply(Ok(()));
    for line in lines.split_inclusive('\n') {
        answer = LIBRARY.call(&mut lent, &Call::Event(0, line.into()));
    }
    (answer, lent)
}

/// The port's side of docs/DIFFERENCES.md: D1, 16 of a reader in D6, D9, and D10 to D13.
#[test]
fn differences() {
    let refused = |number, line| {
        let held = 0;
        Answer::Event { number, held, line }
    };
    let (answer, lent) = told("open\tosmChange\nopen\tcreate\nempty\tnode\tid=1\tuser=u\n");
    assert_eq!((answer, lent.counters[6]), (refused(7, 3), 1));
    let tags = "empty\ttag\tk=a\tv=b\n".repeat(257);
    let (answer, _) = told(&format!("open\tosmChange\nopen\tcreate\nopen\tway\tid=1\n{tags}"));
    assert_eq!(answer, refused(16, 260));
    for stamp in ["2024-01-01T-1:00:00Z", "2024-01--1T00:00:00Z", "-001-01-01T00:00:00Z", "2024-01-01T+1:00:00Z"] {
        let (answer, _) = told(&format!("open\tosmChange\nopen\tcreate\nempty\tway\tid=1\ttimestamp={stamp}\n"));
        assert_eq!(answer, refused(9, 3));
    }
    let node =
        |coordinates: &str| told(&format!("open\tosmChange\nopen\tcreate\nempty\tnode\tid=1\t{coordinates}\tlon=0\n"));
    let other_forms = ["1e1", "1E1", "1e-8", ".5", "-.5", "5.", "0000", "0090.0", "0.0000000000000"];
    let past_the_range = ["inf", "-inf", "infinity", "-infinity", "INF", "nan", "NaN", "1e2", "1000"];
    for text in other_forms.into_iter().chain(past_the_range) {
        assert_eq!(node(&format!("lat={text}")).0, refused(23, 3), "{text}");
    }
    for (text, latitude) in [("0.00000105", 11), ("-0.00000105", -11)] {
        let (answer, lent) = node(&format!("lat={text}"));
        assert_eq!(answer, refused(0, 0));
        // Behind the id.
        assert_eq!(lent.arena(Kind::Node)[8..12], i32::to_le_bytes(latitude));
    }
    assert_eq!(node("lat=0\tlat7=x").0, refused(24, 3));
    assert_eq!(node("lat7=0\tlat=x").0, refused(24, 3));
    assert_eq!(node("lat7=0").0, refused(0, 0));
}

/// Document 01's input A.
#[test]
fn input_a() {
    let (_, mut lent) = told(
        "open\tosmChange\nopen\tmodify\nopen\tnode\tid=7\tversion=3\tlat7=10\tlon7=-20\nempty\ttag\tk=name\tv=A\nclose\nclose\nopen\tdelete\nempty\tway\tid=-4\tversion=2\nclose\nclose\n",
    );
    let (number, held, line) = (0, 0, 0);
    assert_eq!(LIBRARY.call(&mut lent, &Call::End(0)), Answer::Event { number, held, line });
    let output = b"n\t7\t+\t3\t9\t3\t0\t0\t0\t\t10\t-20\t1\tname\tA\nw\t-4\t-\t2\n";
    let listed = LIBRARY.call(&mut lent, &Call::Listing(output.len()));
    assert_eq!(listed, Answer::listing(output.len(), Ok(output.to_vec())));
}
