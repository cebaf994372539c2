//! docs/REFUSALS.md: calls for the numbers that no change file gives. Each test reads the number from the row that cites it.

use compare::Library;
use compare::overlay::{Between, Entries};
use judge::compare::call::{Call, Given, Lines, Port, Push, Storage};
use judge::compare::lookups::LookupPort;
use judge::random::Random;
use judge::{Kind, Meta, Sizes};

const LIBRARY: &dyn Port = &Entries(Between);
const PAGE: &str = include_str!("../../../docs/REFUSALS.md");

/// The number of the row that cites a test here.
fn cited(test: &str) -> u32 {
    let test = format!("`compare/refusals: {test}`");
    let row = PAGE.lines().find(|line| line.contains(&test)).unwrap_or_else(|| panic!("{test} is not cited"));
    row.split('|').nth(1).and_then(|number| number.trim().parse().ok()).expect("a number")
}

/// Storage of sizes that set-up takes, empty, with a fresh reader.
fn empty() -> Storage {
    let mut lent = Storage::drawn(&mut Random::new(1), &Sizes::ROADLIST);
    assert_eq!(LIBRARY.call(&mut lent, &Call::SetUp(Sizes::ROADLIST.numbers(), 0)).number(), 0);
    lent.readers = vec![Lines::fresh(&mut Random::new(2))];
    lent
}

/// What a call answers on an empty overlay that was changed.
fn number(change: impl Fn(&mut Storage), call: &Call) -> u32 {
    let mut lent = empty();
    change(&mut lent);
    LIBRARY.call(&mut lent, call).number()
}

#[test]
fn sizes_of_set_up() {
    let refused = cited("sizes_of_set_up");
    let set_up = |lent: &mut Storage, sizes| LIBRARY.call(lent, &Call::SetUp(sizes, 0)).number();
    let of_sizes = |change: fn(&mut Given)| {
        let mut sizes = Sizes::ROADLIST.numbers();
        change(&mut sizes);
        set_up(&mut empty().resized(&sizes), sizes)
    };
    assert_eq!(of_sizes(|_| ()), 0);
    assert_eq!(of_sizes(|sizes| sizes[0] = 0), refused);
    assert_eq!(of_sizes(|sizes| sizes[1] = 4_097), refused);
    assert_eq!(of_sizes(|sizes| sizes[5] = 1_048_577), refused);
    assert_eq!(of_sizes(|sizes| sizes[6] = 0), refused);
    assert_eq!(of_sizes(|sizes| sizes[6] = 4_097), refused);
    assert_eq!(of_sizes(|sizes| sizes[7] = 65_537), refused);
    let in_blocks = |change: fn(&mut Storage)| {
        let mut lent = empty();
        change(&mut lent);
        set_up(&mut lent, Sizes::ROADLIST.numbers())
    };
    assert_eq!(in_blocks(|_| ()), 0);
    assert_eq!(in_blocks(|lent| lent.words.push(0)), refused);
    assert_eq!(in_blocks(|lent| lent.words.truncate(2)), refused);
    assert_eq!(in_blocks(|lent| lent.bytes.push(0)), refused);
    assert_eq!(in_blocks(|lent| lent.bytes.clear()), refused);
}

#[test]
fn records_not_well_formed() {
    let refused = cited("records_not_well_formed");
    let push = |kind: Kind, change: fn(&mut Push)| {
        let mut push = Push::plain(kind, 1, Meta::default());
        change(&mut push);
        number(|_| (), &push.call())
    };
    assert_eq!(push(Kind::Way, |_| ()), 0);
    assert_eq!(push(Kind::Way, |p| p.meta.flags = 8), refused);
    assert_eq!(push(Kind::Way, |p| p.meta.version = 3), refused);
    assert_eq!(push(Kind::Way, |p| p.tags = vec![(1, b"v".into())]), refused);
    assert_eq!(push(Kind::Relation, |p| p.members = vec![(1, 3, 0)]), refused);
    let mut way = Push::plain(Kind::Way, 1, Meta::default());
    way.refs = vec![5];
    let (head, meta, parts) = (way.head(), way.meta, way.parts());
    assert_eq!(number(|_| (), &Call::Push(1, head, meta, parts[..7].into())), refused);
    assert_eq!(number(|_| (), &Call::Push(1, head, meta, parts.repeat(2))), refused);
    assert_eq!(number(|_| (), &Call::Push(3, head, meta, parts)), refused);
    assert_eq!(number(|_| (), &Call::LiveCount(3)), refused);
}

#[test]
fn lists_not_in_order() {
    let refused = cited("lists_not_in_order");
    assert_eq!(Library.range_overlaps(&[2, 1], &[], 1, 2).0, refused);
    assert_eq!(Library.range_overlaps(&[], &[1, -1], 1, 2).0, refused);
    assert_eq!(Library.upsert_range(&[1, 1], 1, 2).0, refused);
    assert_eq!(Library.seek_find(None, &[-2, -1], 1).0, refused);
}

#[test]
fn numbers_past_a_list() {
    let refused = cited("numbers_past_a_list");
    for call in [Call::LiveId(0, 0), Call::DeletedId(1, 0), Call::Record(2, 0), Call::Text(1)] {
        assert_eq!(number(|_| (), &call), refused);
    }
}

#[test]
fn damaged_storage() {
    let refused = cited("damaged_storage");
    let sound = |change: fn(&mut Storage)| number(change, &Call::IsSound);
    assert_eq!(sound(|_| ()), 0);
    assert_eq!(sound(|s| s.counters[0] = 513), refused);
    assert_eq!(sound(|s| s.counters[3] = 10), refused);
    assert_eq!(sound(|s| s.spans_mut()[1] = 1), refused);
    assert_eq!(sound(|s| *s = s.resized(&[512, 512, 512, 8_192, 8_192, 8_192, 512, 65_537])), refused);
    assert_eq!(sound(|s| s.counters[9] = 511), refused);
    assert_eq!(sound(|s| s.bytes.push(0)), refused);
    let event = |change: fn(&mut Storage)| number(change, &Call::Event(0, b"other\n".into()));
    assert_eq!(event(|_| ()), 0);
    assert_eq!(event(|s| s.readers[0].words[0] = 7), refused);
    assert_eq!(event(|s| s.readers[0].words[15] = u64::MAX), refused);
}
