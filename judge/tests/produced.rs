//! The produced documents, and the driver one event at a time against `drive_osc`.

use std::collections::BTreeMap;

use judge::produce::{Documents, Style, levels};
use judge::{Change, Outcome, Overlay, Reader, run, split_lines};

/// The documents of one style, each with whether regression is allowed.
fn each_document(style: Style, count: usize, mut each: impl FnMut(Vec<u8>, bool)) {
    let mut documents = Documents::new(7, style);
    for n in 0..count {
        documents.forget();
        let lines = documents.document();
        each(lines.concat(), n % 2 == 1);
    }
}

#[test]
fn valid_documents_are_accepted() {
    let mut sizes = Vec::new();
    each_document(Style::VALID, 1_000, |input, allow| {
        let (outcome, _) = run(&input, allow);
        let Outcome::Listing(listing) = outcome else {
            panic!("{outcome:?}\n{}", String::from_utf8_lossy(&input));
        };
        sizes.push(listing.len());
    });
    let long = sizes.iter().filter(|&&n| n > 300).count();
    assert!(long > 200, "{long} long listings");
}

#[test]
fn damaged_documents_meet_every_number() {
    let mut numbers = BTreeMap::new();
    each_document(Style::DAMAGED, 5_000, |input, allow| {
        let number = match run(&input, allow).0 {
            Outcome::Listing(_) => 0,
            Outcome::Refused(stop) => stop.number,
        };
        *numbers.entry(number).or_insert(0) += 1;
    });
    println!("{numbers:?}");
    for number in [0, 2, 3, 4, 5, 6, 7, 8, 9, 10, 11, 12, 18, 23, 24] {
        let count = numbers.get(&number).copied().unwrap_or(0);
        assert!(count >= 3, "{number}: {count} of {numbers:?}");
    }
}

/// What wide documents are for: lines of more than sixteen attributes, long values with escapes, many texts, elements of many children with refs behind tags.
#[test]
fn wide_documents_are_wide() {
    let (mut attributes, mut escapes, mut texts, mut children, mut behind) = (0, 0, 0, 0, 0);
    each_document(Style::WIDE, 90, |input, _| {
        let (mut held, mut here, mut tag) = (std::collections::BTreeSet::new(), 0, false);
        for line in input.split(|&b| b == b'\n') {
            let fields: Vec<&[u8]> = line.split(|&b| b == b'\t').collect();
            attributes += usize::from(fields.len() > 2 + 17);
            for value in fields.iter().filter(|f| f.starts_with(b"k=") || f.starts_with(b"v=")) {
                escapes += usize::from(value.len() > 40 && value.contains(&b'\\'));
                held.insert(value[2..].to_vec());
            }
            match fields.get(1) {
                Some(&b"node" | &b"way" | &b"relation") => (here, tag) = (0, false),
                Some(&b"tag") => (here, tag) = (here + 1, true),
                Some(&b"nd") => {
                    here += 1;
                    behind += usize::from(tag);
                }
                _ => {}
            }
            children += usize::from(here == 200);
        }
        texts = texts.max(held.len());
    });
    for (n, least) in [(attributes, 1_000), (escapes, 1_000), (texts, 100), (children, 20), (behind, 1_000)] {
        assert!(n >= least, "{:?}", (attributes, escapes, texts, children, behind));
    }
}

#[test]
fn steps_are_the_driver() {
    for (style, count) in [(Style::VALID, 1_000), (Style::DAMAGED, 1_000), (Style::WIDE, 60)] {
        each_document(style, count, |input, allow| {
            let (outcome, driven) = run(&input, allow);
            // One event at a time, the overlay left as the Rust leaves it.
            let mut overlay = Overlay::new();
            overlay.allow_version_regression(allow);
            let mut by_word = overlay.clone();
            let mut reader = Reader::new();
            let mut other = Reader::new();
            let mut reply = Ok(());
            for (line, ended) in split_lines(&input) {
                let before = by_word.state();
                let by_words = other.line(&mut by_word, line, ended, Change::None, None);
                reply = reader.line(&mut overlay, line, ended, Change::AsRust, None);
                assert_eq!(reply, by_words);
                if reply.is_err() {
                    // By document 01 nothing changed; the Rust may have kept one text more.
                    assert_eq!(before, by_word.state());
                    let after = overlay.state();
                    assert_eq!(before.kinds, after.kinds);
                    assert!(after.texts.starts_with(&before.texts));
                    assert!(after.texts.len() <= before.texts.len() + 1);
                    break;
                }
                assert_eq!(overlay.state(), by_word.state());
            }
            match reply.and_then(|()| reader.end()) {
                Ok(()) => assert_eq!(outcome, Outcome::Listing(overlay.listing())),
                Err(stop) => assert_eq!(outcome, Outcome::Refused(stop)),
            }
            assert_eq!(driven.state(), overlay.state());
        });
    }
}

#[test]
fn prefixes_reach_their_levels() {
    let names = ["Doc", "Root", "Section", "Element", "Leaf", "Other", "Done"];
    let mut seen = [0; 7];
    for (name, lines) in levels() {
        let mut overlay = Overlay::new();
        let mut reader = Reader::new();
        for line in &lines {
            let line = line.strip_suffix(b"\n").expect("a line feed");
            let reply = reader.line(&mut overlay, line, true, Change::None, None);
            assert_eq!(reply, Ok(()), "{name}");
        }
        let level = usize::from(reader.place().level);
        assert!(name.starts_with(names[level]), "{name}");
        seen[level] += 1;
    }
    assert_eq!(seen, [1, 1, 3, 9, 9, 1, 2]);
}
