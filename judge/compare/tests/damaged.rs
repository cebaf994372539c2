//! Damaged storage: the library against document 01's words.

use compare::overlay::{Between, Entries};
use compare::same;
use judge::compare::call::Port;
use judge::compare::damaged::{self, Values};
use judge::random::seed_and_rounds;

const LIBRARY: &dyn Port = &Entries(Between);

#[test]
fn bytes() {
    let (seed, rounds) = seed_and_rounds();
    same(damaged::bytes(LIBRARY, Values::of_run(seed, rounds)));
}

#[test]
fn whole_words() {
    same(damaged::whole_words(LIBRARY));
}

#[test]
fn sizes() {
    same(damaged::sizes(LIBRARY));
}

#[test]
fn limits() {
    same(damaged::limits(LIBRARY));
}

#[test]
fn random() {
    let (seed, rounds) = seed_and_rounds();
    same(damaged::random(LIBRARY, seed, rounds));
}

#[test]
fn readers() {
    let (seed, rounds) = seed_and_rounds();
    same(damaged::readers(LIBRARY, Values::of_run(seed, rounds)));
}
