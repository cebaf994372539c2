//! The inputs of docs/DIFFERENCES.md, run: what the Rust does, and that document 01's rule differs, or document 02's.

use std::panic::{AssertUnwindSafe, catch_unwind};

use judge::compare::call::{Call, Push};
use judge::compare::rust::Rust;
use judge::{Kind, Meta, Outcome, Overlay, Sizes, run, run_sized};

const NONE: Meta = Meta { flags: 0, version: 0, timestamp: 0, changeset: 0, uid: 0, user: 0 };

fn push(kind: Kind) -> Push {
    Push::plain(kind, 1, NONE)
}

/// The number that document 01 gives for a direct call on a new overlay.
fn by_words(call: &Call) -> u32 {
    Rust::default().call(&Sizes::ROADLIST, call).number()
}

#[test]
fn d1_user_of_a_refused_event() {
    let input = b"open\tosmChange\nopen\tcreate\nempty\tnode\tid=1\tuser=u\n";
    let (outcome, rust) = run(input, false);
    assert_eq!(outcome.print(), b"refused\t7\t3\t-\n");
    assert_eq!(rust.state().texts, ["", "u"]);
    let (outcome, words) = run_sized(input, false, &Sizes::ROADLIST);
    assert_eq!(outcome.print(), b"refused\t7\t3\t-\n");
    assert_eq!(words.state().texts, [""]);
    // The text that follows has handle 2 in the Rust and 1 by document 01, so a direct push that names handle 1 lists another key.
    let listed = |mut overlay: Overlay| {
        let handle = overlay.intern("x");
        overlay.push_way(5, &[], &[(1, "v")], &NONE).expect("taken");
        (handle, String::from_utf8(overlay.listing()).expect("text"))
    };
    let line = |key: &str| format!("w\t5\t+\t?\t0\t0\t0\t0\t0\t\t0\t1\t{key}\tv\n");
    assert_eq!(listed(rust), (2, line("u")));
    assert_eq!(listed(words), (1, line("x")));
}

#[test]
fn d2_view_to_the_arenas_end() {
    let mut overlay = Overlay::new();
    overlay.push_node(1, (0, 0), &[], &NONE).expect("taken");
    overlay.push_node(2, (0, 0), &[], &NONE).expect("taken");
    let record = overlay.record(Kind::Node, 1).expect("live");
    assert_eq!((record.len, record.view.len()), (49, 98));
}

#[test]
fn d3_utf8_that_is_no_xml() {
    let mut overlay = Overlay::new();
    assert_eq!(overlay.intern("\u{1}"), 1);
    overlay.push_node(1, (0, 0), &[(0, "\u{ffff}")], &NONE).expect("taken by the Rust");
    assert_eq!(by_words(&Call::Intern(b"\x01".to_vec())), 3);
    let mut tagged = push(Kind::Node);
    tagged.tags.push((0, "\u{ffff}".into()));
    assert_eq!(by_words(&tagged.call()), 3);
}

#[test]
fn d4_coordinates_of_a_direct_push() {
    let mut overlay = Overlay::new();
    overlay.push_node(1, (900_000_001, i32::MIN), &[], &NONE).expect("taken by the Rust");
    let mut far = push(Kind::Node);
    far.place = (900_000_001, 0);
    assert_eq!(by_words(&far.call()), 10);
}

#[test]
fn d5_flags_handles_and_types_of_a_direct_call() {
    // The version flag without the present flag: the Rust takes it, claims it, and shows no metadata.
    let meta = Meta { flags: 8, version: 3, ..NONE };
    let mut overlay = Overlay::new();
    overlay.push_way(1, &[], &[], &meta).expect("taken by the Rust");
    assert_eq!(overlay.known_version(Kind::Way, 1), Some(3));
    let record = overlay.record(Kind::Way, 1).expect("live");
    assert_eq!((record.flags, record.version), (8, 0));
    let mut flagged = push(Kind::Way);
    flagged.meta = meta;
    assert_eq!(by_words(&flagged.call()), 17);
    // A handle not held, and a type byte above 2: taken by the Rust, which panics when it reads them.
    let mut overlay = Overlay::new();
    overlay.push_way(1, &[], &[(1, "v")], &NONE).expect("taken");
    assert!(catch_unwind(AssertUnwindSafe(|| overlay.record(Kind::Way, 1))).is_err());
    let mut keyed = push(Kind::Way);
    keyed.tags.push((1, b"v".to_vec()));
    assert_eq!(by_words(&keyed.call()), 17);
    let mut overlay = Overlay::new();
    overlay.push_relation(1, &[(1, 3, 0)], &[], &NONE).expect("taken");
    assert!(catch_unwind(AssertUnwindSafe(|| overlay.record(Kind::Relation, 1))).is_err());
    let mut typed = push(Kind::Relation);
    typed.members.push((1, 3, 0));
    assert_eq!(by_words(&typed.call()), 17);
}

#[test]
fn d6_no_limits_in_the_rust() {
    // 257 tags by a reader.
    let mut input = b"open\tosmChange\nopen\tcreate\nopen\tway\tid=1\n".to_vec();
    for _ in 0..257 {
        input.extend_from_slice(b"empty\ttag\tk=a\tv=b\n");
    }
    input.extend_from_slice(b"close\nclose\nclose\n");
    assert!(matches!(run(&input, false).0, Outcome::Listing(_)));
    let (outcome, _) = run_sized(&input, false, &Sizes::ROADLIST);
    assert_eq!(outcome.print(), b"refused\t16\t260\t-\n");
    // 513 ids in roadlist's sizes.
    let mut input = b"open\tosmChange\nopen\tdelete\n".to_vec();
    for id in 0..513 {
        input.extend_from_slice(format!("empty\tway\tid={id}\n").as_bytes());
    }
    input.extend_from_slice(b"close\nclose\n");
    assert!(matches!(run(&input, false).0, Outcome::Listing(_)));
    let (outcome, _) = run_sized(&input, false, &Sizes::ROADLIST);
    assert_eq!(outcome.print(), b"refused\t14\t515\t-\n");
    // 512 texts beside the empty one, and a record past 8,192 bytes.
    let mut input = b"open\tosmChange\nopen\tdelete\n".to_vec();
    for n in 0..512 {
        input.extend_from_slice(format!("empty\tway\tid=1\tuser={n}\n").as_bytes());
    }
    input.extend_from_slice(b"close\nclose\n");
    assert!(matches!(run(&input, false).0, Outcome::Listing(_)));
    let (outcome, _) = run_sized(&input, false, &Sizes::ROADLIST);
    assert_eq!(outcome.print(), b"refused\t13\t514\t-\n");
    let mut input = b"open\tosmChange\nopen\tcreate\n".to_vec();
    for _ in 0..183 {
        input.extend_from_slice(b"empty\tway\tid=1\n");
    }
    input.extend_from_slice(b"close\nclose\n");
    assert!(matches!(run(&input, false).0, Outcome::Listing(_)));
    let (outcome, _) = run_sized(&input, false, &Sizes::ROADLIST);
    assert_eq!(outcome.print(), b"refused\t15\t185\t-\n");
}

#[test]
fn d7_lists_out_of_order() {
    use judge::compare::lookups::{JudgeLookups, LookupPort};
    // Asked for 1, the Rust's seek answers none, though the list holds it.
    let mut seek = judge::Seek::default();
    assert_eq!(seek.find(&[2, 1], 1), None);
    assert_eq!(JudgeLookups.seek_find(None, &[2, 1], 1), (20, None, None));
}

#[test]
fn d8_a_number_past_its_list() {
    let overlay = Overlay::new();
    assert!(catch_unwind(AssertUnwindSafe(|| overlay.sorted_record(Kind::Node, 0))).is_err());
}

#[test]
fn d9_signs_in_a_timestamp() {
    use judge::ground::{stamp, stamp_with_signs};
    for (text, seconds) in [
        ("2024-01-01T-1:00:00Z", 1_704_063_600),
        ("2024-01--1T00:00:00Z", 1_703_894_400),
        ("-001-01-01T00:00:00Z", -62_198_755_200),
        ("2024-01-01T+1:00:00Z", 1_704_070_800),
    ] {
        assert_eq!(stamp_with_signs(text.as_bytes()), Some(seconds));
        assert_eq!(stamp(text.as_bytes()), None);
        let input =
            format!("open\tosmChange\nopen\tcreate\nempty\tway\tid=1\ttimestamp={text}\tversion=x\nclose\nclose\n");
        let (outcome, _) = run_sized(input.as_bytes(), false, &Sizes::ROADLIST);
        assert_eq!(outcome.print(), b"refused\t9\t3\t-\n");
        let input = input.replace("\tversion=x", "");
        let listed = format!("w\t1\t+\t?\t1\t0\t{seconds}\t0\t0\t\t0\t0\n");
        assert_eq!(run(input.as_bytes(), false).0.print(), listed.as_bytes());
        let (outcome, _) = run_sized(input.as_bytes(), false, &Sizes::ROADLIST);
        assert_eq!(outcome.print(), b"refused\t9\t3\t-\n");
    }
}

/// A node whose latitude is this text: what the Rust lists for it, or its number.
fn by_rust(lat: &str) -> Result<i64, u32> {
    listed(run(&a_node(&format!("lat={lat}")), false).0)
}

/// The same by the documents' words.
fn by_documents(coordinates: &str) -> Result<i64, u32> {
    listed(run_sized(&a_node(coordinates), false, &Sizes::ROADLIST).0)
}

fn a_node(coordinates: &str) -> Vec<u8> {
    format!("open\tosmChange\nopen\tcreate\nempty\tnode\tid=1\t{coordinates}\tlon=0\nclose\nclose\n").into_bytes()
}

fn listed(outcome: Outcome) -> Result<i64, u32> {
    match outcome {
        Outcome::Listing(page) => {
            let page = String::from_utf8(page).expect("text");
            Ok(page.split('\t').nth(10).expect("a latitude").parse().expect("a number"))
        }
        Outcome::Refused(stop) => Err(stop.number),
    }
}

#[test]
fn d10_other_forms_of_degrees() {
    for (text, rust) in [
        ("1e1", 100_000_000),
        ("1E1", 100_000_000),
        ("1e-8", 0),
        (".5", 5_000_000),
        ("-.5", -5_000_000),
        ("5.", 50_000_000),
        ("0000", 0),
        ("0090.0", 900_000_000),
        ("0.0000000000000", 0),
    ] {
        assert_eq!((by_rust(text), by_documents(&format!("lat={text}"))), (Ok(rust), Err(23)), "{text}");
    }
}

#[test]
fn d11_numbers_past_the_range() {
    for text in ["inf", "-inf", "infinity", "-infinity", "INF", "nan", "NaN", "1e2", "1000"] {
        assert_eq!((by_rust(text), by_documents(&format!("lat={text}"))), (Err(10), Err(23)), "{text}");
    }
}

/// Every tie below 0.00000105 degrees is the same in both, so this is the smallest.
#[test]
fn d12_ties() {
    let tie = |n: u32| format!("0.{n:07}5");
    for n in 0..10 {
        let nearest = Ok(i64::from(n) + 1);
        assert_eq!((by_rust(&tie(n)), by_documents(&format!("lat={}", tie(n)))), (nearest, nearest), "{n}");
    }
    assert_eq!(tie(10), "0.00000105");
    assert_eq!((by_rust("0.00000105"), by_documents("lat=0.00000105")), (Ok(10), Ok(11)));
    assert_eq!((by_rust("-0.00000105"), by_documents("lat=-0.00000105")), (Ok(-10), Ok(-11)));
}

/// The Rust's own reader knows no `lat7`; the stand-in that names it `lat` is not asked for both.
#[test]
fn d13_both_forms() {
    assert_eq!(by_documents("lat=0\tlat7=x"), Err(24));
    assert_eq!(by_documents("lat7=0\tlat=x"), Err(24));
    assert_eq!(by_documents("lat7=0"), Ok(0));
}

#[test]
fn rfc_3339() {
    use judge::ground::stamp;
    assert_eq!(stamp(b"2016-12-31T23:59:60Z"), None);
    assert_eq!(stamp(b"2024-01-01t00:00:00Z"), None);
    assert_eq!(stamp(b"2024-01-01T00:00:00z"), None);
    assert_eq!(stamp(b"2024-01-01T00:00:00.5Z"), None);
    assert_eq!(stamp(b"2024-01-01T00:00:00+00:00"), None);
}
