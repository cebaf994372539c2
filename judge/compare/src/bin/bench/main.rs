//! How fast the library runs beside Rust's own functions and the published overlay, in one run: nanoseconds a call, the least of nine
//! rounds, and the ratio. Both sides are called through a trait object or a C entry, so that neither is inlined into the loop. Beside some rows stands
//! the same work by hand in C (`judge/yardstick`).

mod beside_the_rust;
mod by_hand;
mod change_files;
mod degrees;
mod documents;
mod hostile;

use compare::Library;
use judge::compare::ground::Ground;
use judge::{Meta, Overlay};
use std::hint::black_box;
use std::time::Instant;
use torvaskin::{Lent, Metadata, Record, Sizes, Storage};

const ROUNDS: usize = 9;

/// The least time of a call over the rounds, in nanoseconds.
fn least(calls: usize, mut work: impl FnMut()) -> f64 {
    let mut best = f64::INFINITY;
    for _ in 0..ROUNDS {
        let start = Instant::now();
        work();
        best = best.min(start.elapsed().as_secs_f64() * 1e9 / calls as f64);
    }
    best
}

/// The port's time is answered.
fn row(name: &str, calls: usize, port: impl FnMut(), rust: impl FnMut()) -> f64 {
    let (p, r) = (least(calls, port), least(calls, rust));
    println!("{name}\t{p:.1} ns\t{r:.1} ns\t{:.2}", p / r);
    p
}

/// What the yardstick takes for what took the port so long.
fn by_hand(port: f64, calls: usize, hand: impl FnMut()) {
    let hand = least(calls, hand);
    println!("  by hand in C\t{hand:.1} ns\tport / by hand {:.2}", port / hand);
}

/// One loop for each side over the same inputs; every answer is used.
fn over<A>(inputs: &[A], f: &dyn Fn(&A) -> u64) {
    let mut sum = 0u64;
    for a in inputs {
        sum = sum.wrapping_add(f(black_box(a)));
    }
    black_box(sum);
}

fn parse<T: std::str::FromStr + Into<i64>>(s: &[u8]) -> u64 {
    std::str::from_utf8(s).ok().and_then(|t| t.parse::<T>().ok()).map_or(0, |n| n.into().cast_unsigned())
}

/// Ways of so many refs pushed one after the other into an empty overlay.
fn pushes(lent: Lent<'_>, ways: i64, refs: &[i64]) {
    let mut overlay = torvaskin::Overlay::set_up(lent, &Sizes::MOST).expect("set up");
    let mut way = Record::way(0, refs.iter().copied()).version(1);
    for id in 1..=ways {
        way.id = id;
        overlay.push(&way).expect("taken");
    }
}

/// Tags of a road: a way that has them and no refs takes 253 bytes.
const TAGS: [(&str, &str); 12] = [
    ("highway", "residential"),
    ("name", "Hauptstrasse 12"),
    ("surface", "asphalt"),
    ("maxspeed", "50"),
    ("oneway", "yes"),
    ("alt_name", "Main Street"),
    ("lanes", "2"),
    ("lit", "no"),
    ("loc_name", "Rotherhithe New Road"),
    ("bicycle", "designated, on track"),
    ("source", "survey 2024-05-11"),
    ("sidewalk", "yes"),
];

/// The soundness test of ways with tags: few, and an arena that is 99 % full, with ids in order and shuffled.
fn soundness() {
    for (name, ways, shuffled) in [("in order", 100, false), ("in order", 4_096, false), ("shuffled", 4_096, true)] {
        let ids = documents::ids(ways, shuffled);
        let mut overlay = torvaskin::Overlay::new(&Sizes::MOST).expect("within limits");
        let mut way = TAGS.iter().fold(Record::way(0, []).version(1), |way, (key, value)| way.tag(key, value));
        for id in ids {
            way.id = id;
            overlay.push(&way).expect("taken");
        }
        let sound = least(1, || overlay.is_sound().expect("sound"));
        let lent = overlay.into_storage();
        let used = lent.counters[4];
        println!(
            "soundness, {ways} ways of 12 tags, ids {name}, {used} bytes\t{sound:.0} ns\t{:.2} ns a byte",
            sound / used as f64
        );
        by_hand(sound, 1, || assert!(by_hand::is_sound(lent.shared())));
    }
}

fn overlays() {
    let meta = Meta { flags: 9, version: 1, timestamp: 0, changeset: 0, uid: 0, user: 0 };
    for (ways, refs) in [(100, 4), (4_096, 26)] {
        let mut lent = Sizes::MOST.allocate().expect("within limits");
        let refs: Vec<i64> = (1..=refs).collect();
        row(
            &format!("direct push, {ways} ways of {} refs", refs.len()),
            usize::try_from(ways).expect("not negative"),
            || pushes(lent.lent(), ways, &refs),
            || {
                let mut overlay = Overlay::new();
                for id in 1..=ways {
                    overlay.push_way(id, &refs, &[], &meta).expect("taken");
                }
                black_box(&overlay);
            },
        );
    }
}

/// Named and tagged ways of ten refs, in both overlays.
fn roads(port: &mut torvaskin::Overlay, rust: &mut Overlay, ways: i64) {
    let keys = ["highway", "name", "maxspeed", "surface"];
    let (user, handles) = (rust.intern("some user"), keys.map(|key| rust.intern(key)));
    let (timestamp, changeset, uid) = (1_700_000_000, 140_000_000, 1_234_567);
    for id in 1..=ways {
        let name = format!("Karl-Liebknecht-Straße {id}");
        let values = ["residential", &name, "50", "asphalt"];
        let refs: Vec<i64> = (1..=10).map(|i| 1_000_000_000 + id * 7_919 * i).collect();
        let way = Record::way(id, refs.iter().copied());
        let way = keys.into_iter().zip(values).fold(way, |way, (key, value)| way.tag(key, value));
        let metadata = Metadata { version: Some(3), timestamp, changeset, uid, user: Some("some user"), hidden: false };
        port.push(&way.metadata(metadata)).expect("taken");
        let tags: Vec<(u32, &str)> = handles.into_iter().zip(values).collect();
        let meta = Meta { flags: 13, version: 3, timestamp, changeset, uid, user };
        rust.push_way(id, &refs, &tags, &meta).expect("taken");
    }
}

/// The listing, a byte of it. The Rust's side is the judge's own printing of the published overlay.
fn listings() {
    let mut overlay = Overlay::new();
    let mut port = torvaskin::Overlay::new(&Sizes::MOST).expect("within limits");
    roads(&mut port, &mut overlay, 300);
    let page = overlay.listing();
    let mut out = vec![0u8; page.len()];
    row(
        &format!("listing of 300 roads, {} bytes, a byte", page.len()),
        10 * page.len(),
        || (0..10).for_each(|_| assert_eq!(port.listing_into(&mut out).expect("listed").len(), page.len())),
        || (0..10).for_each(|_| drop(black_box(overlay.listing()))),
    );
    assert!(out == page);
}

fn main() {
    beside_the_rust::beside_the_rust();
    println!("what\tport\tRust\tratio");
    let numbers: Vec<Vec<u8>> =
        (0..100_000u64).map(|i| i.wrapping_mul(0x9e37_79b9_7f4a_7c15).cast_signed().to_string().into_bytes()).collect();
    row(
        "i64, up to 20 bytes",
        numbers.len(),
        || over(&numbers, &|s| Library.read_i64(s).1.cast_unsigned()),
        || over(&numbers, &|s| parse::<i64>(s)),
    );
    let small: Vec<Vec<u8>> = (0..100_000i32).map(|i| (i - 50_000).to_string().into_bytes()).collect();
    row(
        "i32, up to 6 bytes",
        small.len(),
        || over(&small, &|s| Library.read_i32(s).1.cast_unsigned()),
        || over(&small, &|s| parse::<i32>(s)),
    );
    for (name, sample) in [
        ("text, 64 KiB of ASCII", "road name 1 ".repeat(5_462)),
        ("text, 64 KiB half Cyrillic", "road дорога ".repeat(3_641)),
        ("text, 12 bytes", "road name 1 ".to_string()),
    ] {
        let copies = if sample.len() < 100 { 100_000 } else { 50 };
        let texts: Vec<Vec<u8>> = vec![sample.into_bytes(); copies];
        row(
            name,
            copies,
            || over(&texts, &|s| u64::from(Library.is_text(s))),
            || over(&texts, &|s| u64::from(std::str::from_utf8(s).is_ok())),
        );
    }
    degrees::degrees();
    overlays();
    soundness();
    listings();
    documents::documents();
    documents::steps();
    documents::readings();
    documents::sizes();
    hostile::hostile();
    change_files::change_files();
}
