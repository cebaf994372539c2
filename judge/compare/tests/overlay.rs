//! Direct calls, reads, readers and listing in lent storage: the library against the Rust.

use compare::overlay::{Between, Entries};
use compare::same;
use judge::compare::call::{Answer, Call, Lines, Port, Push, Storage, claiming};
use judge::compare::direct;
use judge::compare::reads::{everything, nothing, the_listing};
use judge::random::{Random, depth, seed_and_rounds};
use judge::{Kind, Meta, Sizes};

const LIBRARY: &dyn Port = &Entries(Between);

#[test]
fn set_ups() {
    same(direct::set_ups(LIBRARY, the_listing));
}

#[test]
fn sequences() {
    same(direct::sequences(LIBRARY, depth() + 1, nothing));
}

#[test]
fn reads_after_sequences() {
    same(direct::sequences(LIBRARY, depth(), everything));
}

#[test]
fn calls() {
    let (seed, rounds) = seed_and_rounds();
    same(direct::calls(LIBRARY, seed, rounds, everything));
}

#[test]
fn long_lists() {
    let (seed, rounds) = seed_and_rounds();
    same(direct::long_lists(LIBRARY, seed, rounds, everything));
}

#[test]
fn orders() {
    same(direct::orders(LIBRARY));
}

#[test]
fn parts_not_as_counted() {
    same(direct::parts_not_as_counted(LIBRARY));
}

/// An empty overlay in the sizes that `roadlist` lends, with a fresh reader.
fn empty() -> Storage {
    let mut lent = Storage::drawn(&mut Random::new(1), &Sizes::ROADLIST);
    assert_eq!(LIBRARY.call(&mut lent, &Call::SetUp(Sizes::ROADLIST.numbers(), 0)).number(), 0);
    lent.readers = vec![Lines::fresh(&mut Random::new(2))];
    lent
}

fn plain(kind: Kind, id: i64) -> Push {
    Push::plain(kind, id, Meta::default())
}

/// Document 01's trial row of way 5.
#[test]
fn way_5() {
    let mut lent = empty();
    let at = |version| Push::plain(Kind::Way, 5, claiming(Some(version))).call();
    let delete = |version| Call::Delete(1, 5, claiming(Some(version)));
    let (taken, below_4) = (Answer::reply(Ok(())), Answer::reply(Err((12, 4))));
    for (call, answer) in [
        (at(4), &taken),
        (delete(3), &below_4),
        (delete(4), &taken),
        (plain(Kind::Way, 5).call(), &taken),
        (at(3), &below_4),
    ] {
        assert_eq!(LIBRARY.call(&mut lent, &call), *answer);
    }
}

/// Those of record lengths.
#[test]
fn record_lengths() {
    for (kind, change, len) in [
        (Kind::Node, (|p| p.tags = vec![(0, b"yes".into())]) as fn(&mut Push), 60),
        (Kind::Way, |p| p.refs = vec![1, 2], 61),
        (Kind::Relation, |p| p.members = vec![(1, 0, 0)], 58),
    ] {
        let (mut lent, mut push) = (empty(), plain(kind, 1));
        change(&mut push);
        assert_eq!(LIBRARY.call(&mut lent, &push.call()).number(), 0);
        assert_eq!(lent.counters[3 + kind as usize], len);
    }
}

/// The port's side of docs/DIFFERENCES.md: D3 to D6, as direct calls.
#[test]
fn differences() {
    let number = |change: fn(&mut Push), kind: Kind| {
        let mut push = plain(kind, 1);
        change(&mut push);
        LIBRARY.call(&mut empty(), &push.call()).number()
    };
    assert_eq!(LIBRARY.call(&mut empty(), &Call::Intern(b"\x01".into())).number(), 3);
    assert_eq!(number(|p| p.tags = vec![(0, "\u{ffff}".into())], Kind::Node), 3);
    assert_eq!(number(|p| p.place.0 = 900_000_001, Kind::Node), 10);
    assert_eq!(number(|p| (p.meta.flags, p.meta.version) = (8, 3), Kind::Way), 17);
    assert_eq!(number(|p| p.tags = vec![(1, b"v".into())], Kind::Way), 17);
    assert_eq!(number(|p| p.members = vec![(1, 3, 0)], Kind::Relation), 17);
    assert_eq!(number(|p| p.tags = vec![(0, Vec::new()); 257], Kind::Way), 16);
    let mut lent = empty();
    let mut numbers = |calls: &mut dyn Iterator<Item = Call>| -> Vec<u32> {
        calls.map(|call| LIBRARY.call(&mut lent, &call).number()).collect()
    };
    let ids = numbers(&mut (0..513).map(|id| Call::Delete(0, id, Meta::default())));
    assert_eq!((ids[511], ids[512]), (0, 14));
    let texts = numbers(&mut (0..512).map(|n: u32| Call::Intern(n.to_string().into())));
    assert_eq!((texts[510], texts[511]), (0, 13));
    let ways = numbers(&mut (0..183).map(|_| plain(Kind::Way, 1).call()));
    assert_eq!((ways[181], ways[182]), (0, 15));
}

/// D2 and D8, as reads.
#[test]
fn read_differences() {
    let mut lent = empty();
    assert_eq!(LIBRARY.call(&mut lent, &Call::Record(0, 0)), Answer::part(Err(21)));
    for id in [1, 2] {
        assert_eq!(LIBRARY.call(&mut lent, &plain(Kind::Node, id).call()).number(), 0);
    }
    assert_eq!(LIBRARY.call(&mut lent, &Call::Get(0, 1)), Answer::part(Ok(Some((0, 49)))));
}
