//! Document 01's words, as a library, are told from the Rust in nothing; every comparison can fail: the
//! words with one fault are told from it.

use judge::compare::call::{Answer, Call, NO_FLOOR, Port, Storage};
use judge::compare::damaged::{self, Values};
use judge::compare::ground::{self, Ground, Judge, NONE};
use judge::compare::lookups::{self, JudgeLookups, LookupPort};
use judge::compare::program::{self, Program, edge_numbers_met, expected};
use judge::compare::reads::{everything, nothing, the_listing};
use judge::compare::words::{Words, is_sound, rows};
use judge::compare::{Compared, direct, overlay};
use judge::degrees::{self, Axis};
use judge::ground::stamp_with_signs;
use judge::{KINDS, Kind, Sizes, run_sized, seven_decimals};

/// What a fault makes of a call: what was lent before it, what is lent after it, and its answer.
type Fault = fn(&Call, &Storage, &mut Storage, &mut Answer);

/// The words with a fault.
struct Faulty(Fault);

impl Port for Faulty {
    fn call(&self, lent: &mut Storage, call: &Call) -> Answer {
        let before = lent.clone();
        let mut answer = Words::default().call(lent, call);
        (self.0)(call, &before, lent, &mut answer);
        answer
    }
}

/// A comparison by its name.
type Comparison = (&'static str, fn(&dyn Port) -> Compared);

const COMPARISONS: [Comparison; 16] = [
    ("set-ups", |port| direct::set_ups(port, nothing)),
    ("sequences", |port| direct::sequences(port, 2, everything)),
    ("calls", |port| direct::calls(port, 1, 1, everything)),
    ("long lists", |port| direct::long_lists(port, 1, 1, the_listing)),
    ("orders", direct::orders),
    ("parts", direct::parts_not_as_counted),
    ("nesting", |port| overlay::nesting(port, 2)),
    ("names", |port| overlay::names(port, 1, 1)),
    ("documents", |port| overlay::documents(port, 1, 1).map(|n| n.1)),
    ("readers", |port| overlay::readers(port, 1, 1)),
    ("bytes", |port| damaged::bytes(port, Values::One)),
    ("words", damaged::whole_words),
    ("sizes", damaged::sizes),
    ("limits", damaged::limits),
    ("lines", |port| damaged::readers(port, Values::One)),
    ("coordinates", |port| overlay::coordinates(port, 1, 1)),
];

#[test]
fn the_words_equal_the_rust() {
    for (name, comparison) in COMPARISONS[..10].iter().chain(&COMPARISONS[15..]) {
        let start = std::time::Instant::now();
        let compared = comparison(&Words::default());
        let answers = compared.unwrap_or_else(|difference| panic!("{name}: {difference}"));
        println!("{name}: {answers} answers, {:?}", start.elapsed());
        assert!(answers > 2_000, "{name}: {answers}");
    }
}

/// A wrong number in place of another.
fn swapped(answer: &mut Answer, from: u32, to: u32) {
    match answer {
        Answer::Reply { number, .. } | Answer::Event { number, .. } if *number == from => {
            *number = to;
        }
        _ => {}
    }
}

fn is_change(call: &Call) -> bool {
    matches!(call, Call::Push(..) | Call::Delete(..) | Call::Event(..))
}

/// The line with a 0 for each sign that begins a field of its timestamp.
fn digits_for_signs(line: &[u8]) -> Vec<u8> {
    let mut line = line.to_vec();
    let name = b"\ttimestamp=";
    if let Some(at) = line.windows(name.len()).position(|w| w == name) {
        for field in [0, 5, 8, 11, 14, 17] {
            match line.get_mut(at + name.len() + field) {
                Some(byte @ (b'+' | b'-')) => *byte = b'0',
                _ => {}
            }
        }
    }
    line
}

/// An event of a node whose coordinate that is first found in degrees is read otherwise: from the text, its axis and the number
/// that is answered, a text in its place.
fn with_degrees(
    call: &Call,
    before: &Storage,
    lent: &mut Storage,
    answer: &mut Answer,
    other: fn(&str, Axis, u32) -> Option<String>,
) {
    let Call::Event(n, line) = call else { return };
    let Some(line) = std::str::from_utf8(line).ok().and_then(|line| line.strip_suffix('\n')) else { return };
    let fields = line.split('\t').map(|field| {
        let axis = if field.starts_with("lat=") { Axis::Latitude } else { Axis::Longitude };
        let text = field.strip_prefix(axis.name()).and_then(|rest| rest.strip_prefix('='));
        let changed = text.and_then(|text| other(text, axis, answer.number()));
        changed.map_or(field.to_owned(), |text| format!("{}={text}", axis.name()))
    });
    let changed = fields.collect::<Vec<_>>().join("\t");
    if changed != line {
        *lent = before.clone();
        *answer = Words::default().call(lent, &Call::Event(*n, (changed + "\n").into_bytes()));
    }
}

/// The fields of an event's line, where its answer has this number.
fn fields_refused<'a>(call: &'a Call, answer: &Answer, number: u32) -> Option<(usize, Vec<&'a str>)> {
    match call {
        Call::Event(n, line) if answer.number() == number => {
            Some((*n, std::str::from_utf8(line).ok()?.strip_suffix('\n')?.split('\t').collect()))
        }
        _ => None,
    }
}

/// The same event without the fields of a name.
fn without(call: &Call, number: u32, name: &str, before: &Storage, lent: &mut Storage, answer: &mut Answer) {
    if let Some((n, fields)) = fields_refused(call, answer, number) {
        let left: Vec<&str> = fields.into_iter().filter(|field| !field.starts_with(name)).collect();
        *lent = before.clone();
        *answer = Words::default().call(lent, &Call::Event(n, (left.join("\t") + "\n").into_bytes()));
    }
}

/// Each fault, with the comparisons that must find it, by their numbers above.
const FAULTS: [(&str, Fault, &[usize]); 52] = [
    (
        "refuses all",
        |_, before, lent, answer| {
            *lent = before.clone();
            swapped(answer, 0, 17);
        },
        &[0, 1, 2, 3, 4, 5, 6, 8, 9],
    ),
    (
        "stores nothing",
        |call, before, lent, _| {
            if is_change(call) {
                *lent = before.clone();
            }
        },
        &[0, 1, 2, 3, 4, 5, 6, 8, 9],
    ),
    (
        "invents used bytes",
        |call, _, lent, _| {
            if is_change(call) && lent.counters[4] > 0 {
                lent.counters[4] += 1;
            }
        },
        &[1, 2, 3, 6, 8, 9],
    ),
    ("cries full", |_, _, _, answer| swapped(answer, 0, 15), &[1, 2, 3, 6, 8, 9]),
    ("swaps 14 and 15", |_, _, _, answer| swapped(answer, 14, 15), &[1, 2, 3, 4, 8, 9]),
    (
        "a sign in a timestamp taken",
        |call, before, lent, answer| {
            if let (Call::Event(n, line), 9) = (call, answer.number()) {
                *lent = before.clone();
                *answer = Words::default().call(lent, &Call::Event(*n, digits_for_signs(line)));
            }
        },
        &[8],
    ),
    ("swaps 5 and 6", |_, _, _, answer| swapped(answer, 6, 5), &[6, 7, 8, 9]),
    (
        "forgets the version held",
        |_, _, _, answer| {
            if let Answer::Reply { held, .. } | Answer::Event { held, .. } = answer {
                *held = 0;
            }
        },
        &[1, 2, 3, 6, 8, 9],
    ),
    (
        "forgets the line",
        |_, _, _, answer| {
            if let Answer::Event { line, .. } = answer {
                *line = (*line).min(1);
            }
        },
        &[6, 8, 9],
    ),
    (
        "writes past the record",
        |call, _, lent, _| {
            let end = lent.counters[4] as usize;
            if let (true, Some(byte)) = (is_change(call), lent.arena_mut(Kind::Way).get_mut(end)) {
                *byte = !*byte;
            }
        },
        &[1, 2, 3, 5, 6, 8, 9, 10],
    ),
    (
        "writes past the rows",
        |call, _, lent, _| {
            let end = 3 * lent.counters[1] as usize;
            if let (true, Some(word)) = (is_change(call), lent.table_mut(Kind::Way).get_mut(end)) {
                *word = !*word;
            }
        },
        &[1, 2, 3, 5, 6, 8, 9, 10],
    ),
    (
        "writes past the staged parts",
        |call, _, lent, _| {
            if let Call::Event(n, _) = call {
                let reader = &mut lent.readers[*n];
                let end = reader.words[14] as usize;
                reader.parts[end] = !reader.parts[end];
            }
        },
        &[6, 8, 9, 14],
    ),
    (
        "takes an unfinished line of a run",
        |call, _, _, answer| {
            if let (Call::Events(_, run), Answer::Events { number: 0, taken, .. }) = (call, answer) {
                *taken = run.len();
            }
        },
        &[8, 14],
    ),
    (
        "tests nothing before a run without a line",
        |call, before, lent, answer| {
            if let Call::Events(_, run) = call
                && !run.contains(&b'\n')
                && run.len() <= 16_384
            {
                *lent = before.clone();
                *answer = Answer::Events { number: 0, held: 0, line: 0, taken: 0 };
            }
        },
        &[9, 14],
    ),
    (
        "leaves a rest that is too long for a line",
        |call, before, lent, answer| {
            if let Call::Events(n, run) = call {
                let whole = run.iter().rposition(|byte| *byte == b'\n').map_or(0, |at| at + 1);
                *lent = before.clone();
                *answer = Words::default().call(lent, &Call::Events(*n, run[..whole].to_vec()));
            }
        },
        &[9, 14],
    ),
    (
        "clears the arenas at set-up",
        |call, _, lent, answer| {
            if matches!(call, Call::SetUp(..)) && answer.number() == 0 {
                KINDS.iter().for_each(|kind| lent.arena_mut(*kind).fill(0));
            }
        },
        &[0, 1, 10],
    ),
    (
        "keeps one bit of the setting",
        |call, _, lent, _| {
            if let Call::Allow(_) = call {
                lent.counters[8] &= 1;
            }
        },
        &[1, 2, 3, 10],
    ),
    (
        "a floor dropped",
        |call, _, lent, answer| {
            if matches!(call, Call::Push(..)) && answer.number() == 0 {
                let known = lent.counters[1] as usize;
                let (rows, _) = lent.table_mut(Kind::Way).as_chunks_mut::<3>();
                rows[..known].iter_mut().for_each(|row| row[2] = NO_FLOOR);
            }
        },
        &[1, 2, 3],
    ),
    (
        "an equal version refused",
        |call, before, lent, answer| {
            if let Call::Push(kind @ 0..=2, head, meta, _) = call {
                let known = Call::KnownVersion(*kind, head.id);
                let known = Words::default().call(&mut before.clone(), &known);
                let value = u64::from(meta.version.cast_unsigned());
                if meta.flags & 8 != 0 && known == (Answer::Number { number: 0, value }) {
                    *lent = before.clone();
                    swapped(answer, 0, 12);
                }
            }
        },
        &[1, 2, 3],
    ),
    (
        "a stop mark forgotten",
        |call, before, lent, answer| {
            if let (Call::Event(n, _), true) = (call, answer.number() > 0) {
                lent.readers[*n] = before.readers[*n].clone();
            }
        },
        &[6, 8, 9, 14],
    ),
    (
        "an end that stops",
        |call, _, lent, answer| {
            if let (Call::End(n), 18) = (call, answer.number()) {
                lent.readers[*n].words[16] = 18;
            }
        },
        &[6, 8, 9, 14],
    ),
    (
        "a listing written on 19",
        |_, _, _, answer| {
            if let Answer::Listing { number: 19, output, .. } = answer {
                output.fill(b'n');
            }
        },
        &[1, 2, 3, 6, 8, 9],
    ),
    (
        "a byte past the listing",
        |_, _, _, answer| {
            if let Answer::Listing { number: 0, len, output } = answer
                && let Some(byte) = output.get_mut(*len)
            {
                *byte = 0;
            }
        },
        &[1, 2, 3, 6, 8, 9],
    ),
    (
        "a listing's length of one byte more",
        |call, _, _, answer| {
            if let (Call::ListingLength, Answer::Number { number: 0, value }) = (call, answer) {
                *value += 1;
            }
        },
        &[1, 2, 3, 6, 8, 9],
    ),
    (
        "a number one past its list",
        |call, _, lent, answer| {
            if let (Call::LiveId(kind @ 0..=2, n), 21) = (call, answer.number())
                && *n == rows(lent, KINDS[usize::from(*kind)]).len() as u64
            {
                *answer = Answer::Number { number: 0, value: 0 };
            }
        },
        &[1, 2, 10],
    ),
    (
        "a record to the arena's end",
        |call, _, lent, answer| {
            if let (Call::Get(kind @ 0..=2, _), Answer::Part { found: 1, start, len, .. }) = (call, answer) {
                *len = lent.counters[3 + usize::from(*kind)] as usize - *start;
            }
        },
        &[1, 2, 10],
    ),
    (
        "22 of no kind answered 17",
        |call, _, _, answer| {
            if let Call::Push(3.., ..) = call {
                swapped(answer, 22, 17);
            }
        },
        &[10, 11, 12],
    ),
    (
        "one more id than the most",
        |call, _, lent, answer| {
            if matches!(call, Call::IsSound) && lent.table(Kind::Relation).len() / 3 == 4_097 {
                swapped(answer, 22, 0);
            }
        },
        &[12],
    ),
    (
        "a block lent longer later",
        |call, before, _, answer| {
            let mut shorter = before.clone();
            if matches!(call, Call::IsSound) && shorter.bytes.pop().is_some() && is_sound(&shorter) {
                swapped(answer, 22, 0);
            }
        },
        &[12],
    ),
    (
        "words left over",
        |call, before, _, answer| {
            let mut shorter = before.clone();
            if matches!(call, Call::IsSound) && shorter.words.pop().is_some() && is_sound(&shorter) {
                swapped(answer, 22, 0);
            }
        },
        &[12],
    ),
    (
        "sizes whose sum comes round",
        |call, before, lent, answer| {
            if let (Call::SetUp(sizes, setting), 1) = (call, answer.number()) {
                let sizes = sizes.map(|size| size % (1 << 63));
                *answer = Words::default().call(lent, &Call::SetUp(sizes, *setting));
                if answer.number() == 1 {
                    *lent = before.clone();
                }
            }
        },
        &[0],
    ),
    (
        "sizes that leave a byte over",
        |call, before, lent, answer| {
            if let (Call::SetUp(sizes, setting), 1) = (call, answer.number()) {
                let mut shorter = before.clone();
                let last = shorter.bytes.pop();
                *answer = Words::default().call(&mut shorter, &Call::SetUp(*sizes, *setting));
                shorter.bytes.extend(last);
                *lent = shorter;
            }
        },
        &[0, 12],
    ),
    (
        "a size not written",
        |call, before, lent, answer| {
            if matches!(call, Call::SetUp(..)) && answer.number() == 0 {
                lent.counters[16] = before.counters[16];
            }
        },
        &[0, 1, 12],
    ),
    (
        "sizes written on 1",
        |call, _, lent, answer| {
            if let (Call::SetUp(sizes, _), 1) = (call, answer.number()) {
                lent.give(sizes);
            }
        },
        &[0, 10, 12],
    ),
    (
        "a size changed by a push",
        |call, _, lent, answer| {
            if matches!(call, Call::Push(..)) && answer.number() == 0 {
                lent.counters[12] += 1;
                lent.counters[13] = lent.counters[13].saturating_sub(1);
            }
        },
        &[1, 2, 3, 4, 5, 10],
    ),
    (
        "ways by the sizes of nodes",
        |call, before, _, answer| {
            if let Call::Push(1, ..) = call {
                let mut other = before.clone();
                other.counters[13] = before.counters[12];
                let full = Words { told: Some(true) }.call(&mut other, call).number() == 15;
                if full {
                    swapped(answer, 0, 15);
                }
            }
        },
        &[2],
    ),
    (
        "a word that is no code taken",
        |call, before, lent, answer| {
            if let (Call::End(n), Answer::Event { number: number @ 22, .. }) = (call, answer)
                && before.readers[*n].words[1] > 2
            {
                (*number, *lent) = (18, before.clone());
            }
        },
        &[14],
    ),
    (
        "ties to even",
        |call, before, lent, answer| {
            with_degrees(call, before, lent, answer, |text, axis, _| {
                let nearest = degrees::read(text, axis).ok().filter(|_| degrees::is_tie(text))?;
                Some(seven_decimals(nearest - nearest % 2))
            });
        },
        &[8, 15],
    ),
    (
        "a tie below zero towards it",
        |call, before, lent, answer| {
            with_degrees(call, before, lent, answer, |text, axis, _| {
                let nearest = degrees::read(text, axis).ok().filter(|_| degrees::is_tie(text))?;
                (nearest < 0).then(|| seven_decimals(nearest + 1))
            });
        },
        &[8, 15],
    ),
    (
        "the range after rounding",
        |call, before, lent, answer| {
            with_degrees(call, before, lent, answer, |text, _, _| {
                let nearest = degrees::nearest(degrees::exact(text)?);
                i32::try_from(nearest).ok().map(seven_decimals)
            });
        },
        &[15],
    ),
    (
        "the range of longitude for latitude",
        |call, before, lent, answer| {
            with_degrees(call, before, lent, answer, |text, axis, number| {
                let taken = number == 10 && axis == Axis::Latitude && degrees::read(text, Axis::Longitude).is_ok();
                taken.then(|| "90".to_owned())
            });
        },
        &[15],
    ),
    (
        "what the float reader takes",
        |call, before, lent, answer| {
            with_degrees(call, before, lent, answer, |text, axis, number| {
                degrees::by_floats(text, axis).ok().filter(|_| number == 23).map(seven_decimals)
            });
        },
        &[15],
    ),
    (
        "thirteen decimals",
        |call, before, lent, answer| {
            with_degrees(call, before, lent, answer, |text, _, number| {
                (number == 23 && text.contains('.') && text.len() > 13).then(|| text[..text.len() - 1].to_owned())
            });
        },
        &[15],
    ),
    (
        "four digits",
        |call, before, lent, answer| {
            with_degrees(call, before, lent, answer, |text, _, number| {
                text.strip_prefix('0').filter(|_| number == 23).map(str::to_owned)
            });
        },
        &[15],
    ),
    ("swaps 8 and 23", |_, _, _, answer| swapped(answer, 23, 8), &[15]),
    ("swaps 7 and 24", |_, _, _, answer| swapped(answer, 24, 7), &[15]),
    (
        "both forms after the text of one",
        |call, before, lent, answer| {
            let mut one = (before.clone(), answer.clone());
            without(call, 24, "lat7=", before, &mut one.0, &mut one.1);
            if one.1.number() == 23 {
                (*lent, *answer) = one;
            }
        },
        &[15],
    ),
    (
        "of both forms the whole number",
        |call, before, lent, answer| without(call, 24, "lat=", before, lent, answer),
        &[15],
    ),
    (
        "23 that stops nothing",
        |call, before, lent, answer| {
            if let (Call::Event(n, _), 23) = (call, answer.number()) {
                lent.readers[*n] = before.readers[*n].clone();
            }
        },
        &[15],
    ),
    (
        "a stop mark of 24 that is no reader's",
        |call, before, lent, answer| {
            if let (Call::End(n) | Call::Event(n, _), 24) = (call, answer.number())
                && before.readers[*n].words[16] == 24
            {
                (*lent, *answer) = (before.clone(), Answer::Event { number: 22, held: 0, line: 0 });
            }
        },
        &[15],
    ),
    (
        "a stop mark above 26 taken",
        |call, before, lent, answer| {
            if let (Call::End(n), 22) = (call, answer.number())
                && let mark @ 27.. = before.readers[*n].words[16]
            {
                *lent = before.clone();
                *answer = Answer::Event { number: mark as u32, held: 0, line: before.readers[*n].words[17] };
            }
        },
        &[14],
    ),
    (
        "degrees of a way read",
        |call, before, lent, answer| {
            if let Some((n, fields)) = fields_refused(call, answer, 0)
                && fields.get(1) == Some(&"way")
                && fields.contains(&"lat=x")
            {
                *lent = before.clone();
                let line = before.readers[n].words[15] + 1;
                (lent.readers[n].words[16], lent.readers[n].words[17]) = (23, line);
                *answer = Answer::Event { number: 23, held: 0, line };
            }
        },
        &[15],
    ),
];

#[test]
fn every_fault_is_found() {
    for (name, fault, finders) in FAULTS {
        for finder in finders {
            let (comparison, compare) = COMPARISONS[*finder];
            assert!(compare(&Faulty(fault)).is_err(), "{name} by {comparison}");
        }
    }
}

/// The calls without state, with a fault in one of them: a call's faults are numbered on from its number.
struct Ground1(usize);

macro_rules! through {
    ($($n:literal $name:ident($($arg:ident: $ty:ty),*) -> $out:ty, $($wrong:expr),+;)*) => {
        impl Ground for Ground1 {
            $(fn $name(&self, $($arg: $ty),*) -> $out {
                let good = Judge.$name($($arg),*);
                let wrong: &[fn($($ty,)* $out) -> $out] = &[$($wrong),+];
                self.0.checked_sub($n).and_then(|n| wrong.get(n)).map_or(good, |wrong| wrong($($arg,)* good))
            })*
        }
    };
}

through! {
    0 osm_id_key(id: i64) -> (u8, u64), |id, g| if id == i64::MIN { (1, i64::MAX as u64) } else { g };
    1 osm_id_cmp(a: i64, b: i64) -> u8, |a, b, _| 1 + (a > b) as u8 - (a < b) as u8;
    2 blob_osm_first_key(min: i64, max: i64) -> (u8, u64), |a, b, g| if a > b { (0, 0) } else { g };
    3 blob_osm_last_key(min: i64, max: i64) -> (u8, u64), |a, b, g| if b == 0 && a < 0 { (0, 0) } else { g };
    4 osm_id_rank(id: i64) -> u64, |id, g| if id > 0 { g - 1 } else { g };
    5 version_admit(floor: u64, claim: u64) -> (u32, i32), |f, c, g| if f == c && f < NONE { (12, 0) } else { g };
    6 version_raise(floor: u64, claim: u64) -> u64, |f, _, g| if g == NONE { f } else { g };
    7 read_i64(s: &[u8]) -> (u32, i64), |s, g| if s.len() > 20 { (8, 0) } else { g };
    8 read_i32(s: &[u8]) -> (u32, i64), |s, g| if s == b"-2147483649" { (0, 0) } else { g };
    9 stamp(s: &[u8]) -> (u32, i64), |s, g| if s.starts_with(b"2000-02-29") { (9, 0) } else { g },
        |s, g| stamp_with_signs(s).map_or(g, |v| (0, v));
    11 is_text(s: &[u8]) -> u8, |s, g| g | u8::from(s == "\u{fffe}".as_bytes());
}

#[test]
fn every_fault_without_state_is_found() {
    let comparisons = [ground::ids, ground::versions, ground::integers, ground::stamps, ground::texts];
    for comparison in comparisons {
        assert!(comparison(&Ground1(255), 1, 1).is_ok_and(|n| n > 100));
    }
    for (n, finder) in [0, 0, 0, 0, 0, 1, 1, 2, 2, 3, 3, 4].into_iter().enumerate() {
        assert!(comparisons[finder](&Ground1(n), 1, 0).is_err(), "{n}");
    }
}

/// Lookups in lists, with a fault.
struct Lookups1(u8);

impl LookupPort for Lookups1 {
    fn range_overlaps(&self, live: &[i64], deleted: &[i64], min: i64, max: i64) -> (u32, bool) {
        let deleted = if self.0 == 1 { &[] } else { deleted };
        JudgeLookups.range_overlaps(live, deleted, min, max)
    }

    fn upsert_range(&self, ids: &[i64], first: i64, last: i64) -> (u32, usize, usize) {
        let good = JudgeLookups.upsert_range(ids, first, last);
        if self.0 == 2 && good.1 == good.2 { (good.0, 0, 0) } else { good }
    }

    fn seek_find(&self, place: Option<usize>, ids: &[i64], id: i64) -> (u32, Option<usize>, Option<usize>) {
        let good = JudgeLookups.seek_find(place, ids, id);
        if self.0 == 3 { (good.0, place, good.2) } else { good }
    }
}

/// A program that lends other sizes.
struct Program1(Sizes);

impl Program for Program1 {
    fn print(&self, input: &[u8]) -> Vec<u8> {
        run_sized(input, false, &self.0).0.print()
    }
}

#[test]
fn every_other_fault_is_found() {
    for n in 0..=3 {
        assert_eq!(lookups::short_lists(&Lookups1(n)).is_ok(), n == 0, "{n}");
        assert_eq!(lookups::random_lists(&Lookups1(n), 1, 1).is_ok(), n == 0, "{n}");
    }
    let good = Sizes::ROADLIST;
    let ids = [513; 3];
    for (sizes, found) in [
        (good, false),
        (Sizes { ids, ..good }, true),
        (Sizes { arenas: [8_189; 3], ..good }, true),
        (Sizes { strings: 511, ..good }, true),
        (Sizes { string_bytes: 8_193, ..good }, true),
        (Sizes { output: 65_535, ..good }, true),
    ] {
        assert_eq!(program::limits(&Program1(sizes)).is_err(), found, "{sizes:?}");
    }
    assert!(program::documents(&Program1(good), 1, 1).is_ok_and(|n| n == 60));
    assert_eq!(expected(b"close"), b"refused\t4\t1\t-\n");
    let (numbers, plain) = edge_numbers_met();
    for number in [0, 2, 3, 4, 12, 13, 14, 15, 16, 18, 19] {
        assert!(numbers.contains(&number), "{number} of {numbers:?}");
    }
    assert!(plain > 30, "{plain}");
}
