//! Degrees: document 02's words against fractions that are worked out apart, and against the Rust's floats.

use judge::degrees::{Axis, NOT_DEGREES, OUT_OF_RANGE, by_floats, is_tie, read};
use judge::lines::unescape;
use judge::produce::{EDGE_DEGREES, NO_DEGREES, random_degrees};
use judge::random::{Random, seed_and_rounds};
use judge::seven_decimals;

/// Exact degrees: so many, over so many parts of one.
#[derive(Clone, Copy, Debug)]
struct Fraction {
    over: i128,
    parts: i128,
}

/// The degrees that digits and a sign stand for. Nothing is scaled: `1.50` is 150 over 100.
fn fraction(text: &str) -> Fraction {
    let mut fraction = Fraction { over: 0, parts: 1 };
    let mut behind_point = false;
    for byte in text.bytes() {
        match byte {
            b'.' => behind_point = true,
            b'+' | b'-' => {}
            digit => {
                fraction.over = 10 * fraction.over + i128::from(digit - b'0');
                fraction.parts *= if behind_point { 10 } else { 1 };
            }
        }
    }
    if text.starts_with('-') {
        fraction.over = -fraction.over;
    }
    fraction
}

/// "The result is the nearest 1e-7 degree, ties away from zero", tested and not computed: no other whole number is nearer, and
/// of two that are as near this is further from zero.
fn is_nearest(whole: i128, degrees: Fraction) -> bool {
    let far = |whole: i128| (whole * degrees.parts - degrees.over * 10_000_000).unsigned_abs();
    [whole - 1, whole + 1].into_iter().all(|other| {
        far(whole) < far(other) || (far(whole) == far(other) && other.unsigned_abs() < whole.unsigned_abs())
    })
}

fn within(degrees: Fraction, most: i128) -> bool {
    degrees.over.abs() <= most * degrees.parts
}

/// A text of the form: its answer on both axes.
#[track_caller]
fn agrees(text: &str) {
    let degrees = fraction(text);
    for (axis, most) in [(Axis::Latitude, 90), (Axis::Longitude, 180)] {
        match read(text, axis) {
            Ok(whole) => {
                assert!(within(degrees, most), "{text}");
                assert!(is_nearest(whole.into(), degrees), "{text}: {whole}");
            }
            Err(number) => {
                assert_eq!(number, OUT_OF_RANGE, "{text}");
                assert!(!within(degrees, most), "{text}");
            }
        }
    }
}

#[test]
fn the_words_are_exact_fractions() {
    EDGE_DEGREES.into_iter().for_each(agrees);
    let (seed, rounds) = seed_and_rounds();
    let mut random = Random::new(seed);
    for n in 0..500_000 * rounds {
        agrees(&random_degrees(&mut random, Axis::BOTH[n as usize % 2]));
    }
}

/// "If two accepted texts differ by d units exactly, their results differ by at most d + 1."
#[test]
fn close_texts_are_close() {
    let mut random = Random::new(seed_and_rounds().0);
    let mut taken = Vec::new();
    while taken.len() < 3_000 {
        let text = random_degrees(&mut random, Axis::Latitude);
        if let Ok(whole) = read(&text, Axis::Longitude) {
            taken.push((i128::from(whole), fraction(&text)));
        }
    }
    for (a, x) in &taken {
        for (b, y) in &taken {
            let apart = (x.over * y.parts - y.over * x.parts).abs() * 10_000_000;
            assert!((a - b).abs() * x.parts * y.parts <= apart + x.parts * y.parts, "{x:?} {y:?}");
        }
    }
}

#[test]
fn other_texts_are_23() {
    for text in NO_DEGREES {
        let text = unescape(text).expect("good escapes");
        assert_eq!(read(&text, Axis::Latitude), Err(NOT_DEGREES), "{text}");
        assert_eq!(read(&text, Axis::Longitude), Err(NOT_DEGREES), "{text}");
    }
}

/// Where the Rust's floats give another answer for a text of the form it is a tie, and one unit nearer to 0 or further.
#[test]
fn floats_differ_at_ties_alone() {
    let (seed, rounds) = seed_and_rounds();
    let mut random = Random::new(seed ^ 0x5a5a);
    let (mut ties, mut others) = (0, 0);
    for n in 0..500_000 * rounds {
        let text = random_degrees(&mut random, Axis::BOTH[n as usize % 2]);
        for axis in Axis::BOTH {
            let (words, floats) = (read(&text, axis), by_floats(&text, axis));
            ties += u32::from(is_tie(&text) && words.is_ok());
            if words != floats {
                others += 1;
                let (Ok(words), Ok(floats)) = (words, floats) else { panic!("{text}: {words:?} {floats:?}") };
                assert!(is_tie(&text) && words.abs_diff(floats) == 1, "{text}: {words} {floats}");
            }
        }
    }
    println!("{others} of {ties} ties");
    assert!(others > 100 && others < ties / 4);
}

/// `lat7` goes to the Rust as degrees with seven decimals, which its floats read back.
#[test]
fn seven_decimals_are_read_back() {
    let (seed, rounds) = seed_and_rounds();
    let mut random = Random::new(seed);
    let drawn =
        std::iter::repeat_with(|| random.below(3_600_000_001) as i64 - 1_800_000_000).take(1_000_000 * rounds as usize);
    let edges = (0..=31).flat_map(|bit| (-3..=3).flat_map(move |near| [(1i64 << bit) + near, -(1i64 << bit) + near]));
    let tens = (0..=9).flat_map(|n| (1..=18).map(move |m| m * 10i64.pow(n)));
    for value in edges.chain(tens).chain([900_000_000, 1_800_000_000, -900_000_000, -1_800_000_000]).chain(drawn) {
        let Ok(value) = i32::try_from(value) else { continue };
        let text = seven_decimals(value);
        for (axis, most) in [(Axis::Latitude, 900_000_000), (Axis::Longitude, 1_800_000_000)] {
            let expected = if value.unsigned_abs() <= most { Ok(value) } else { Err(OUT_OF_RANGE) };
            assert_eq!(by_floats(&text, axis), expected, "{text}");
            assert_eq!(read(&text, axis), expected, "{text}");
        }
    }
}
