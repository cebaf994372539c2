//! Whole documents, batches and single events, beside the published driver with its stand-in for XML.

use crate::by_hand;
use crate::{least, row};
use judge::{Overlay, drive};
use quick_xml::{Reader as Events, events::Event};
use std::fmt::Write;
use std::hint::black_box;
use torvaskin::{ElementKind, Lent, Reader, Sizes, Storage};

/// Ids from 1 on, in order or shuffled.
pub fn ids(count: i64, shuffled: bool) -> Vec<i64> {
    let mut ids: Vec<i64> = (1..=count).collect();
    if shuffled {
        ids.sort_by_key(|id| id.cast_unsigned().wrapping_mul(0x9e37_79b9_7f4a_7c15));
    }
    ids
}

/// One way: six refs and four tags, twelve lines. Its keys are among so many texts.
fn way(out: &mut String, id: i64, texts: i64) {
    let _ = writeln!(
        out,
        "open\tway\tid={id}\tversion=3\ttimestamp=2024-03-17T09:41:{:02}Z\tchangeset=148213377\tuid=20481\tuser=surveyor",
        id % 60
    );
    for i in 0..6 {
        let _ = writeln!(out, "empty\tnd\tref={}", 1_000_000_000 + (id * 7_919 + i * 104_729) % 900_000_000);
    }
    for (i, value) in ["residential", "Karl-Liebknecht-Straße", "50", "asphalt"].into_iter().enumerate() {
        let _ = writeln!(out, "empty\ttag\tk=key:{}\tv={value}", (id * 4 + i as i64) % texts);
    }
    out.push_str("close\n");
}

/// Ways in one `create`.
pub fn document(ids: &[i64], texts: i64) -> String {
    let mut out = String::from("open\tosmChange\tversion=0.6\nopen\tcreate\n");
    for id in ids {
        way(&mut out, *id, texts);
    }
    out.push_str("close\nclose\n");
    out
}

/// A document by one batch into an empty overlay.
fn batch(lent: Lent<'_>, input: &str) {
    let mut overlay = torvaskin::Overlay::set_up(lent, &Sizes::MOST).expect("set up");
    let mut reader = Reader::new();
    assert_eq!(reader.events(&mut overlay, input).expect("taken"), input.len());
    reader.end(&overlay).expect("done");
}

/// What the stand-in for XML takes of the Rust's time: each line read as an event, and nothing done with it.
fn stand_in(input: &str) {
    let (mut events, mut buffer) = (Events::from_reader(input.as_bytes()), Vec::new());
    loop {
        buffer.clear();
        match events.read_event_into(&mut buffer).expect("an event") {
            Event::Eof => return,
            event => drop(black_box(event)),
        }
    }
}

/// Whole documents, a line.
pub fn documents() {
    let mut lent = Sizes::MOST.allocate().expect("within limits");
    for (count, shuffled, texts) in
        [(64, false, 200), (512, false, 200), (4_096, false, 200), (4_096, true, 200), (4_096, false, 2_000)]
    {
        let input = document(&ids(count, shuffled), texts);
        let lines = input.lines().count();
        let order = if shuffled { "shuffled" } else { "in order" };
        by_hand::same_storage(&input);
        let port = row(
            &format!("document of {count} ways, ids {order}, {texts} texts, {lines} lines: a line"),
            lines,
            || batch(lent.lent(), &input),
            || {
                let mut overlay = Overlay::new();
                drive(input.as_bytes(), &mut overlay).expect("taken");
                black_box(&overlay);
            },
        );
        crate::by_hand(port, lines, || by_hand::batch(lent.lent(), &input));
        println!("  of the Rust's, its stand-in for XML\t\t{:.1} ns", least(lines, || stand_in(&input)));
    }
}

/// An overlay whose ids and arena of ways are full to so many of 4,096 ways.
fn filled(ways: i64) -> torvaskin::Overlay {
    let mut overlay = torvaskin::Overlay::new(&Sizes::MOST).expect("within limits");
    let mut reader = Reader::new();
    reader.events(&mut overlay, document(&ids(ways, false), 200)).expect("taken");
    overlay
}

/// Single events, and batches of 200 lines, with little and with much held. A step is what a line more costs in a batch.
pub fn steps() {
    for (name, ways) in [("10 %", 410), ("99 %", 4_055)] {
        let mut overlay = filled(ways);
        let start = "open\tosmChange\tversion=0.6\nopen\tcreate\nopen\tway\tid=1\tversion=3\n";
        let child = "empty\ttag\tk=key:7\tv=residential\n";
        let run = |lines: usize| format!("{start}{}", child.repeat(lines));
        let mut time = |lines: usize| {
            let input = run(lines);
            least(100, || {
                for _ in 0..100 {
                    black_box(Reader::new().events(&mut overlay, &input).expect("taken"));
                }
            })
        };
        let (few, many) = (time(1), time(197));
        println!("batch of 4 lines at {name}\t{few:.0} ns");
        println!("batch of 200 lines at {name}\t{many:.0} ns\t{:.0} ns a line", many / 200.0);
        println!("a step at {name}\t{:.1} ns", (many - few) / 196.0);
        let mut reader = Reader::new();
        reader.events(&mut overlay, start).expect("taken");
        let mut event = || reader.event(&mut overlay, "other\n").expect("taken");
        println!("single event at {name}\t{:.0} ns", least(100, || (0..100).for_each(|_| event())));
    }
}

/// How costs grow with what is held: a single event, a line of a batch of 200, a line of a whole document that brings it. Rows of a table of docs/BENCHMARKS.md.
pub fn sizes() {
    let mut lent = Sizes::MOST.allocate().expect("within limits");
    let start = "open\tosmChange\tversion=0.6\nopen\tcreate\nopen\tway\tid=1\tversion=3\n";
    let run = format!("{start}{}", "empty\ttag\tk=key:7\tv=residential\n".repeat(197));
    for ways in [16, 64, 256, 1_024, 4_055] {
        let mut overlay = filled(ways);
        let mut reader = Reader::new();
        reader.events(&mut overlay, start).expect("taken");
        let event = least(100, || (0..100).for_each(|_| reader.event(&mut overlay, "other\n").expect("taken")));
        let line = least(20_000, || {
            for _ in 0..100 {
                black_box(Reader::new().events(&mut overlay, &run).expect("taken"));
            }
        });
        let input = document(&ids(ways, false), 200);
        let whole = least(input.lines().count(), || batch(lent.lent(), &input));
        println!("| {ways} | {event:.0} | {line:.0} | {whole:.0} |");
    }
}

/// Texts taken in one by one, and what is read of an overlay of 4,096 ways.
pub fn readings() {
    let texts: Vec<String> = (1..4_096).map(|i| format!("text {i}")).collect();
    let mut lent = Sizes::MOST.allocate().expect("within limits");
    row(
        "intern, 4,095 texts, each",
        texts.len(),
        || {
            let mut overlay = torvaskin::Overlay::set_up(lent.lent(), &Sizes::MOST).expect("set up");
            for text in &texts {
                black_box(overlay.intern(text).expect("taken"));
            }
        },
        || {
            let mut overlay = Overlay::new();
            for text in &texts {
                black_box(overlay.intern(text));
            }
        },
    );
    let overlay = filled(4_055);
    let get = least(100, || {
        for id in 1..=100 {
            black_box(overlay.get(ElementKind::Way, id).expect("read"));
        }
    });
    println!("get of one id among 4,055\t{get:.0} ns");
    let known = least(100, || {
        for id in 1..=100 {
            black_box(overlay.known_version(ElementKind::Way, id).expect("read"));
        }
    });
    println!("known version of one id among 4,055\t{known:.0} ns");
    let all = least(1, || assert_eq!(overlay.live_versions(ElementKind::Way).expect("read").len(), 4_055));
    println!("all 4,055 ids with their known versions\t{all:.0} ns\t{:.1} ns an id", all / 4_055.0);
}
