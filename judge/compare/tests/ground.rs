//! Key order, version floors, integers, stamps, the text check and lookups in lists: the library against
//! the judge.

use compare::{Library, NO_PLACE, same};
use judge::compare::Compared;
use judge::compare::ground::{self, Ground};
use judge::compare::lookups::{self, LookupPort};
use judge::random::seed_and_rounds;
use torvaskin::entry::seek_find;

fn of(comparison: fn(&dyn Ground, u64, u64) -> Compared) {
    let (seed, rounds) = seed_and_rounds();
    same(comparison(&Library, seed, rounds));
}

#[test]
fn ids() {
    of(ground::ids);
}

#[test]
fn versions() {
    of(ground::versions);
}

#[test]
fn integers() {
    of(ground::integers);
}

#[test]
fn stamps() {
    of(ground::stamps);
}

#[test]
fn texts() {
    of(ground::texts);
}

#[test]
fn short_lists() {
    same(lookups::short_lists(&Library));
}

#[test]
fn random_lists() {
    let (seed, rounds) = seed_and_rounds();
    same(lookups::random_lists(&Library, seed, rounds));
}

/// A word from 2^63 on is a fresh cursor; it comes back as exactly 2^63.
#[test]
fn fresh_words() {
    for word in [NO_PLACE, NO_PLACE + 1, usize::MAX] {
        let found = seek_find(&[0, 3, 5], word, 5);
        assert_eq!((found.number, found.found, found.place), (0, 2, 2));
        let refused = seek_find(&[3, 0], word, 5);
        let none = (20, NO_PLACE, NO_PLACE);
        assert_eq!((refused.number, refused.found, refused.place), none);
    }
}

/// Document 01's trial rows on these calls; that with a sign by document 02, request 6.
#[test]
fn trial_rows() {
    assert_eq!(Library.osm_id_key(0), (0, 0));
    assert_eq!(Library.osm_id_key(-1), (1, 1));
    assert_eq!(Library.osm_id_key(1), (2, 1));
    assert_eq!(Library.stamp(b"1970-01-01T00:00:00Z"), (0, 0));
    assert_eq!(Library.stamp(b"2000-02-29T00:00:00Z"), (0, 951_782_400));
    assert_eq!(Library.stamp(b"1900-02-29T00:00:00Z"), (9, 0));
    assert_eq!(Library.stamp(b"2024-01-01T-1:00:00Z"), (9, 0));
    assert_eq!(Library.read_i32(b"2147483647"), (0, 2_147_483_647));
    assert_eq!(Library.read_i32(b"2147483648"), (8, 0));
    assert_eq!(Library.read_i32(b"+7"), (0, 7));
    assert_eq!(Library.read_i32(b"-0"), (0, 0));
    assert_eq!(Library.range_overlaps(&[-100], &[], -5, 3), (0, true));
}
