//! docs/STORAGE.md: the words and bytes that its tables show are those that the library leaves.

use compare::overlay::{Between, Entries};
use judge::compare::call::{Answer, Call, Lines, Port, Push, Storage};
use judge::random::Random;
use judge::{KINDS, Kind, Meta, Sizes};

const LIBRARY: &dyn Port = &Entries(Between);
const PAGE: &str = include_str!("../../../docs/STORAGE.md");

/// The lines under a heading, up to the next one.
fn section(heading: &str) -> impl Iterator<Item = &'static str> {
    let (_, rest) = PAGE.split_once(&format!("\n{heading}\n")).unwrap_or_else(|| panic!("no {heading}"));
    rest.lines().take_while(|line| !line.starts_with('#'))
}

/// The rows of the table under a heading that show something: where it stands, and what is shown.
fn shown(heading: &str) -> Vec<(usize, &'static str)> {
    let row = |line: &'static str| {
        let (place, rest) = line.strip_prefix("| ")?.split_once(" | `")?;
        Some((place.parse().ok()?, rest.split_once('`')?.0))
    };
    section(heading).filter_map(row).collect()
}

#[track_caller]
fn words(heading: &str, words: &[u64]) {
    let words = words.iter().map(u64::to_string).enumerate();
    let shown = shown(heading).into_iter().map(|(place, word)| (place, word.to_owned()));
    assert!(words.eq(shown), "{heading}");
}

#[track_caller]
fn bytes(heading: &str, bytes: &[u8]) {
    let mut read = 0;
    for (place, hexadecimal) in shown(heading) {
        let part: Vec<u8> = hexadecimal.split(' ').map(|b| u8::from_str_radix(b, 16).expect("a byte")).collect();
        assert_eq!((place, &bytes[place..place + part.len()]), (read, &part[..]), "{heading}");
        read += part.len();
    }
    assert_eq!(read, bytes.len(), "{heading}");
}

/// An empty overlay with a fresh reader.
fn empty(sizes: &Sizes) -> Storage {
    let mut lent = Storage::drawn(&mut Random::new(1), sizes);
    taken(&mut lent, &Call::SetUp(sizes.numbers(), 0));
    lent.readers = vec![Lines::fresh(&mut Random::new(2))];
    lent
}

#[track_caller]
fn taken(lent: &mut Storage, call: &Call) {
    assert_eq!(LIBRARY.call(lent, call).number(), 0, "{}", call.shown());
}

/// So many lines of document 01's input A.
fn after_input_a(lines: usize) -> Storage {
    let mut lent = empty(&Sizes::ROADLIST);
    let input = include_str!("../../../samples/example.events");
    for line in input.split_inclusive('\n').take(lines) {
        taken(&mut lent, &Call::Event(0, line.into()));
    }
    lent
}

fn listing(lent: &mut Storage) -> Answer {
    LIBRARY.call(lent, &Call::Listing(100))
}

#[test]
fn input_a() {
    let lent = after_input_a(10);
    words("## Counters", &lent.counters);
    words("### Table of nodes", &lent.table(Kind::Node)[..3]);
    words("### Table of ways", &lent.table(Kind::Way)[..3]);
    words("### Spans", &lent.spans()[..4]);
    bytes("### String bytes", &lent.string_bytes()[..4]);
    bytes("### Arena of nodes", &lent.arena(Kind::Node)[..58]);
}

#[test]
fn way_and_relation() {
    let mut lent = after_input_a(10);
    let mut way = Push::plain(Kind::Way, -3, Meta::default());
    way.refs = vec![7, -12];
    taken(&mut lent, &way.call());
    bytes("### Arena of ways", &lent.arena(Kind::Way)[..lent.counters[4] as usize]);
    assert_eq!(way.parts(), lent.arena(Kind::Way)[45..61]);
    let mut relation = Push::plain(Kind::Relation, 9, Meta { flags: 5, user: 1, ..Meta::default() });
    relation.members = vec![(-3, 1, 0)];
    relation.tags = vec![(1, b"yes".into())];
    taken(&mut lent, &relation.call());
    bytes("### Arena of relations", &lent.arena(Kind::Relation)[..lent.counters[5] as usize]);
}

#[test]
fn a_reader() {
    let lent = after_input_a(4);
    words("## A reader", &lent.readers[0].words);
    bytes("### Staged bytes", &lent.readers[0].parts[..9]);
}

#[test]
fn lengths() {
    let sizes = Sizes { arenas: [1 << 20; 3], ..Sizes::ROADLIST };
    for (k, kind) in [Kind::Node, Kind::Way, Kind::Relation].into_iter().enumerate() {
        let mut lent = empty(&sizes);
        let mut push = Push::plain(kind, 1, Meta::default());
        taken(&mut lent, &push.call());
        let without = lent.counters[3 + k];
        match kind {
            Kind::Node => (),
            Kind::Way => push.refs = vec![0; 2_000],
            Kind::Relation => push.members = vec![(0, 0, 0); 2_000],
        }
        push.tags = vec![(0, vec![b'v'; 64]); 256];
        taken(&mut lent, &push.call());
        let whole = lent.counters[3 + k] - without;
        let row = format!("| {kind} | {without} | {},{:03} |", whole / 1_000, whole % 1_000);
        assert!(section("### Lengths").any(|line| line == row), "{row}");
    }
}

/// The used fronts and the counters of an overlay in other blocks, which hold anything else.
fn moved(from: &Storage, sizes: &Sizes) -> Storage {
    let mut to = Storage::drawn(&mut Random::new(3), sizes);
    to.give(&sizes.numbers());
    let used = from.counters.map(|n| n as usize);
    for kind in KINDS {
        let (ids, bytes) = (3 * used[kind as usize], used[3 + kind as usize]);
        to.table_mut(kind)[..ids].copy_from_slice(&from.table(kind)[..ids]);
        to.arena_mut(kind)[..bytes].copy_from_slice(&from.arena(kind)[..bytes]);
    }
    to.spans_mut()[..2 * used[6]].copy_from_slice(&from.spans()[..2 * used[6]]);
    to.string_bytes_mut()[..used[7]].copy_from_slice(&from.string_bytes()[..used[7]]);
    to.counters = from.counters;
    let mut reader = Lines::fresh(&mut Random::new(4));
    reader.words = from.readers[0].words;
    reader.parts[..9].copy_from_slice(&from.readers[0].parts[..9]);
    to.readers = vec![reader];
    to
}

/// The used fronts and all counters are an overlay in other blocks of the same sizes; a reader goes on in them. In blocks of other sizes they
/// are one once these stand behind the counters, and 22 before.
#[test]
fn carried_over() {
    let mut from = after_input_a(4);
    let sizes = Sizes { ids: [1, 4_096, 7], arenas: [58, 1 << 20, 0], strings: 2, string_bytes: 4, output: 0 };
    let (mut same, mut other) = (moved(&from, &Sizes::ROADLIST), moved(&from, &sizes));
    assert_eq!(LIBRARY.call(&mut other, &Call::IsSound).number(), 22);
    other.give(&sizes.numbers());
    for lent in [&mut from, &mut same, &mut other] {
        taken(lent, &Call::IsSound);
        for line in include_str!("../../../samples/example.events").split_inclusive('\n').skip(4) {
            taken(lent, &Call::Event(0, line.into()));
        }
    }
    let listed = listing(&mut from);
    assert_eq!((listing(&mut same), listing(&mut other)), (listed.clone(), listed));
}

/// A block that is lent longer or shorter than at set-up is 22, and nothing is changed.
#[test]
fn lent_longer() {
    let changes: [fn(&mut Storage); 6] = [
        |lent| lent.words.push(0),
        |lent| lent.words.extend([0; 3]),
        |lent| _ = lent.words.pop(),
        |lent| lent.bytes.push(0),
        |lent| lent.bytes.extend([0; 8_192]),
        |lent| _ = lent.bytes.pop(),
    ];
    for change in changes {
        let mut lent = after_input_a(4);
        change(&mut lent);
        let before = lent.clone();
        let push = Push::plain(Kind::Way, 1, Meta::default()).call();
        for call in [Call::IsSound, Call::Intern(b"new".into()), push, Call::Event(0, b"close\n".into())] {
            assert_eq!(LIBRARY.call(&mut lent, &call).number(), 22);
            assert!(lent == before);
        }
    }
}

/// Damage that leaves a sound overlay is not seen; damage that does not is 22.
#[test]
fn not_seen() {
    let mut lent = after_input_a(10);
    let before = listing(&mut lent);
    lent.arena_mut(Kind::Node)[57] = b'B';
    taken(&mut lent, &Call::IsSound);
    assert_ne!(listing(&mut lent), before);
    lent.arena_mut(Kind::Node)[57] = 0xff;
    assert_eq!(LIBRARY.call(&mut lent, &Call::IsSound).number(), 22);
    // One size, then another that takes it back from a part that holds nothing.
    let mut lent = after_input_a(10);
    lent.counters[13] += 1;
    assert_eq!(LIBRARY.call(&mut lent, &Call::IsSound).number(), 22);
    lent.counters[14] -= 1;
    taken(&mut lent, &Call::IsSound);
    assert_eq!(listing(&mut lent), before);
}
