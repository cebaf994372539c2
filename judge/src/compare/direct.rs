//! The overlay's direct calls: set-ups, every short sequence, lists of calls at random, the order of the
//! checks, and parts that are not as counted.

use std::collections::BTreeSet;

use super::Compared;
use super::both::Both;
use super::call::{Call, Given, Head, Port, Push, claiming};
use crate::answer::{KINDS, Kind, MOST_MEMBERS, MOST_REFS, MOST_TAGS, MOST_VALUE_BYTES, Meta, Sizes};
use crate::osc::compact::JUDGE_HEADS;
use crate::produce::Bytes;
use crate::random::Random;

/// Settings: 0 refuses regression, each other word allows it.
const SETTINGS: [u64; 5] = [0, 1, 2, 1 << 32, u64::MAX];

/// What is asked after calls: the reads, the listing, or nothing.
pub type After = fn(&mut Both<'_>) -> Result<(), String>;

/// Sizes that produced documents and short lists of calls rarely fill.
pub const ROOMY: Sizes =
    Sizes { ids: [64, 72, 80], arenas: [60_000, 64_000, 68_000], strings: 256, string_bytes: 16_384, output: 0 };

/// The largest that document 01 lets lend.
pub const LARGEST: Sizes =
    Sizes { ids: [4_096; 3], arenas: [1 << 20; 3], strings: 4_096, string_bytes: 1 << 16, output: 0 };

/// Ids and arenas of the three kinds, strings, string bytes.
fn sizes_of(numbers: [usize; 8]) -> Sizes {
    let [node, way, relation, nodes, ways, relations, strings, string_bytes] = numbers;
    Sizes { ids: [node, way, relation], arenas: [nodes, ways, relations], strings, string_bytes, output: 0 }
}

/// Sizes at and past their ends, two at a time, in blocks of these sizes; then sizes that are not those of the blocks, and others that are. A
/// refused set-up leaves the overlay as it was, and what it was lent too.
pub fn set_ups(port: &dyn Port, after: After) -> Compared {
    let (ids, arena) = ([0, 1, 2, 4_096, 4_097], [0, 1, 2, 1_048_576, 1_048_577]);
    let ends = [ids, ids, ids, arena, arena, arena, ids, [0, 1, 2, 65_536, 65_537]];
    let good = [3, 4, 5, 200, 300, 400, 6, 50];
    let most = [4_096, 4_096, 4_096, 1 << 20, 1 << 20, 1 << 20, 4_096, 1 << 16];
    let mut all = vec![most, good];
    for (a, ends_of_a) in ends.into_iter().enumerate() {
        for (b, ends_of_b) in ends.into_iter().enumerate().skip(a + 1) {
            for end in ends_of_a {
                for other in ends_of_b {
                    let mut numbers = good;
                    (numbers[a], numbers[b]) = (end, other);
                    all.push(numbers);
                }
            }
        }
    }
    let mut both = Both::new(port);
    let in_blocks = all.into_iter().map(|numbers| (numbers, sizes_of(numbers).numbers()));
    let in_others = not_of_blocks(good);
    for (n, (blocks, given)) in in_blocks.chain(in_others).enumerate() {
        both.set_up(&sizes_of(good), 0)?;
        both.intern(b"a")?;
        both.set_up_in(&sizes_of(blocks), &given, SETTINGS[n % 5])?;
        both.call(&Call::IsSound)?;
        both.intern(b"b")?;
        both.push(&Push::plain(KINDS[n % 3], 7, claiming(Some(1))))?;
        after(&mut both)?;
    }
    both.tally.done()
}

/// Sizes of blocks, and what is given in their place: blocks that are longer and shorter; one size more, less, past any block and such that
/// its sum comes round; of two sizes one more and the other less, both past the half of all numbers, and the two exchanged.
fn not_of_blocks(good: [usize; 8]) -> Vec<([usize; 8], Given)> {
    let given = sizes_of(good).numbers();
    let mut all = Vec::new();
    for n in 0..8 {
        for more in [1, 2, 3, 700] {
            let (mut longer, mut shorter) = (good, good);
            longer[n] += more;
            shorter[n] = shorter[n].saturating_sub(more);
            all.extend([(longer, given), (shorter, given)]);
        }
        let mut change = |change: &dyn Fn(&mut Given)| {
            let mut given = given;
            change(&mut given);
            all.push((good, given));
        };
        for more in [1, 2, 3, 1 << 32, 1 << 62, 1 << 63, u64::MAX / 3, u64::MAX / 3 + 1, 2 * (u64::MAX / 3) + 1] {
            change(&|given| given[n] = given[n].wrapping_add(more));
            change(&|given| given[n] = given[n].wrapping_sub(more));
        }
        for other in 0..n {
            change(&|given| given.swap(n, other));
            for (more, less) in [(1, 1), (2, 3), (3, 2), (1 << 63, 1 << 63), (1 << 62, 1 << 62)] {
                change(&|given| {
                    given[n] = given[n].wrapping_add(more);
                    given[other] = given[other].wrapping_sub(less);
                });
                change(&|given| {
                    given[n] = given[n].wrapping_sub(less);
                    given[other] = given[other].wrapping_add(more);
                });
            }
        }
    }
    all
}

/// Pushes and deletes of every kind, id and version given.
fn steps(kinds: &[Kind], ids: &[i64], versions: &[Option<i32>]) -> Vec<Call> {
    let mut steps = Vec::new();
    for &kind in kinds {
        for &id in ids {
            for &version in versions {
                steps.push(Push::plain(kind, id, claiming(version)).call());
                steps.push(Call::Delete(kind as u8, id, claiming(version)));
            }
        }
    }
    steps
}

/// Every sequence of direct calls up to `depth` on two ids of one kind and on one id of each kind, in
/// both settings, with the setting changed in between; of one call less in sizes that are soon full, of
/// one call more on one id.
pub fn sequences(port: &dyn Port, depth: usize, after: After) -> Compared {
    // In OSM order -1 comes before -2.
    let ids = [-2, -1];
    let versions = [None, Some(1), Some(2), Some(3)];
    let roomy = sizes_of([2, 3, 4, 500, 600, 700, 1, 0]);
    // Ids of one node, two ways, one relation; two nodes, two ways and, but for a byte, two relations.
    let tight = sizes_of([1, 2, 1, 98, 90, 89, 1, 0]);
    let settings = [Call::Allow(0), Call::Allow(u64::MAX)];
    let shallow = depth.saturating_sub(1).max(2);
    let mut lists = Vec::new();
    for kind in KINDS {
        let calls = steps(&[kind], &ids, &versions);
        lists.push((&roomy, 0, [&calls[..], &settings].concat(), depth));
        lists.push((&roomy, 1, calls.clone(), depth));
        lists.push((&tight, 0, calls, shallow));
    }
    let calls = steps(&KINDS, &[5], &versions[..3]);
    for (sizes, setting, depth) in [(&roomy, 0, depth), (&roomy, 2, depth), (&tight, 0, shallow)] {
        lists.push((sizes, setting, calls.clone(), depth));
    }
    let one_id = [&steps(&[Kind::Relation], &[9], &versions)[..], &settings].concat();
    lists.push((&roomy, 0, one_id, depth + 1));
    let mut both = Both::new(port);
    for (sizes, setting, calls, depth) in lists {
        both.set_up(sizes, setting)?;
        every_sequence(&mut both, &calls, depth, after)?;
    }
    both.tally.done()
}

/// Every sequence up to `depth` from here on; both sides come back to here after each.
fn every_sequence(both: &mut Both<'_>, calls: &[Call], depth: usize, after: After) -> Result<(), String> {
    for call in calls {
        let here = both.here();
        both.call(call)?;
        after(both)?;
        if depth > 1 {
            every_sequence(both, calls, depth - 1, after)?;
        }
        both.back(here);
    }
    Ok(())
}

/// Lists of direct calls at random, good and bad, on few ids, in roomy and in small sizes.
pub fn calls(port: &dyn Port, seed: u64, rounds: u64, after: After) -> Compared {
    let mut both = Both::new(port);
    let mut random = Random::new(seed);
    for n in 0..50 * rounds {
        both.set_up(&some_sizes(&mut random, n), *random.pick(&SETTINGS[..2]))?;
        for _ in 0..1 + random.below(60) {
            random_call(&mut both, &mut random)?;
            if random.once_in(20) {
                after(&mut both)?;
                both.call(&Call::IsSound)?;
            }
        }
        after(&mut both)?;
    }
    both.tally.done()
}

/// Long lists of direct calls at random, on several hundred ids of each kind, with tags, refs, members
/// and users, in sizes that fill towards the end. Every refusal of a direct call must occur.
pub fn long_lists(port: &dyn Port, seed: u64, rounds: u64, after: After) -> Compared {
    let mut both = Both::new(port);
    let mut random = Random::new(seed);
    let mut numbers = BTreeSet::new();
    for n in 0..rounds {
        let mut near = |n: usize| n + random.below(n / 2);
        let ids = [near(240), near(240), near(240)];
        let arenas = [near(24_000), near(24_000), near(24_000)];
        let (strings, string_bytes) = (near(40), near(600));
        let sizes = Sizes { ids, arenas, strings, string_bytes, output: 0 };
        both.set_up(&sizes, SETTINGS[usize::from(n % 4 == 3)])?;
        for call in 0..1_500 {
            numbers.insert(long_call(&mut both, &mut random, call)?);
            if call % 150 == 149 {
                after(&mut both)?;
            }
        }
        both.call(&Call::IsSound)?;
    }
    let direct = [0, 3, 10, 12, 13, 14, 15, 16, 17];
    let missing = direct.iter().find(|n| !numbers.contains(n));
    assert_eq!(missing, None, "a number that no call met");
    both.tally.done()
}

/// The `n`-th call of a long list: versions rise with it, ids come from some hundreds.
fn long_call(both: &mut Both<'_>, random: &mut Random, n: usize) -> Result<u32, String> {
    let texts = both.rust.texts() as usize;
    let id = random.below(441) as i64 - 220;
    let mut meta = any_meta(random, texts);
    if meta.flags & 8 != 0 && !random.once_in(40) {
        meta.version = (n / 60 + random.below(8)) as i32;
    }
    match random.below(40) {
        0..=2 => both.intern(&any_text(random)),
        3 => both.call(&Call::Allow(*random.pick(&SETTINGS))),
        4..=11 => both.call(&Call::Delete(random.below(3) as u8, id, meta)),
        _ => {
            let push = any_push(random, texts);
            both.push(&Push { id, meta, ..push })
        }
    }
}

/// Roomy sizes; at each fourth number small ones, in which lists of calls meet 13, 14 and 15.
pub(super) fn some_sizes(random: &mut Random, n: u64) -> Sizes {
    if n % 4 != 3 {
        return ROOMY;
    }
    let mut below = |n: usize| random.below(n);
    Sizes {
        ids: [1 + below(6), 1 + below(6), 1 + below(6)],
        arenas: [below(600), below(600), below(600)],
        strings: 1 + below(8),
        string_bytes: below(60),
        output: 0,
    }
}

/// Sizes that hold a state, with nothing left, with room for one record without parts, or with more.
fn other_sizes(both: &Both<'_>, random: &mut Random) -> Sizes {
    let state = both.rust.overlay.state();
    let mut more = |used: usize, rest: &[usize], most: usize| (used + random.pick(rest)).min(most);
    let mut sizes = ROOMY;
    for (k, kind) in state.kinds.iter().enumerate() {
        let known = kind.live.len() + kind.deleted.len();
        sizes.ids[k] = more(known, &[0, 1, 2, 40], 4_096).max(1);
        let rest = [0, 44, 45, 48, 49, 60, 30_000];
        sizes.arenas[k] = more(kind.arena.len(), &rest, 1 << 20);
    }
    sizes.strings = more(state.texts.len(), &[0, 1, 40], 4_096);
    sizes.string_bytes = more(state.string_bytes.len(), &[0, 1, 4, 400], 1 << 16);
    sizes
}

/// One direct call at random.
pub(super) fn random_call(both: &mut Both<'_>, random: &mut Random) -> Result<u32, String> {
    let texts = both.rust.texts() as usize;
    let kind = match random.below(60) {
        0 => random.draw() as u8,
        _ => random.below(3) as u8,
    };
    match random.below(40) {
        0..=11 => both.intern(&any_text(random)),
        12 => both.call(&Call::Allow(*random.pick(&SETTINGS))),
        13 if random.once_in(4) => {
            let sizes = other_sizes(both, random);
            both.lend(&sizes);
            Ok(0)
        }
        13..=19 => {
            let id = random.below(9) as i64 - 4;
            both.call(&Call::Delete(kind, id, any_meta(random, texts)))
        }
        _ => {
            let push = any_push(random, texts);
            let (mut kind, mut head, mut parts) = (push.kind as u8, push.head(), push.parts());
            let count = *random.pick(&[1, 2, u32::MAX, 1 << 29, 1 << 30, 1 << 31]);
            match random.below(160) {
                0 => kind = random.draw() as u8,
                1 => parts.truncate(random.below(parts.len() + 1)),
                2 => parts.push(random.draw() as u8),
                3 => head.tags = head.tags.wrapping_add(count),
                4 => head.count = head.count.wrapping_add(count),
                5 if !parts.is_empty() => {
                    let at = random.below(parts.len());
                    parts[at] = random.draw() as u8;
                }
                _ => {}
            }
            both.call(&Call::Push(kind, head, push.meta, parts))
        }
    }
}

fn any_text(random: &mut Random) -> Bytes {
    let texts = ["", "a", "b", "name", "é", "x\ty"];
    match random.below(3) {
        0 => random.pick(&texts).as_bytes().to_vec(),
        1 => format!("t{}", random.below(40)).into_bytes(),
        _ => super::ground::random_text(random),
    }
}

fn any_handle(random: &mut Random, texts: usize) -> u32 {
    match random.below(60) {
        0 => texts as u32,
        1 => u32::MAX,
        _ => random.below(texts) as u32,
    }
}

fn any_meta(random: &mut Random, texts: usize) -> Meta {
    let mut meta = Meta::default();
    if random.once_in(4) {
        return meta;
    }
    meta.flags = if random.once_in(5) { 3 } else { 1 };
    if !random.once_in(3) {
        meta.flags |= 8;
        meta.version = match random.below(20) {
            0 => i32::MIN,
            1 => i32::MAX,
            _ => random.below(8) as i32 - 1,
        };
    }
    if random.once_in(3) {
        meta.flags |= 4;
        meta.user = any_handle(random, texts);
    }
    if random.once_in(2) {
        (meta.timestamp, meta.changeset) = (random.id(), random.id());
        meta.uid = random.id() as i32;
    }
    if random.once_in(25) {
        // Flags and fields that do not go together.
        meta.flags &= *random.pick(&[!1, !8, !4]);
        meta.flags |= *random.pick(&[0, 2, 16, 128]);
    }
    meta
}

fn any_push(random: &mut Random, texts: usize) -> Push {
    let kind = *random.pick(&KINDS);
    let many = random.once_in(150);
    let near = random.below(9) as i64 - 4;
    let id = if random.once_in(10) { random.id() } else { near };
    let mut push = Push::plain(kind, id, any_meta(random, texts));
    let count = match many {
        true => 1_999 + random.below(4),
        false => random.below(5),
    };
    match kind {
        Kind::Node => {
            let mut coordinate = |most: i32| match random.below(30) {
                0 => most + 1,
                1 => -most - 1,
                2 => i32::MIN,
                3 => most,
                4 => -most,
                _ => random.below(1_000) as i32 - 500,
            };
            push.place = (coordinate(900_000_000), coordinate(1_800_000_000));
        }
        Kind::Way => push.refs = (0..count).map(|_| random.id()).collect(),
        Kind::Relation => {
            for _ in 0..count {
                let byte = if random.once_in(2_000) { 3 } else { random.below(3) as u8 };
                push.members.push((random.id(), byte, random.below(texts) as u32));
            }
        }
    }
    let tags = match many && random.once_in(2) {
        true => 255 + random.below(4),
        false => random.below(4),
    };
    for _ in 0..tags {
        let values = ["", "yes", "no", "7.5", "a\tb\\c\r\n", "Straße", "🚚"];
        let value = match random.below(40) {
            0 => super::ground::random_text(random),
            1 if many => vec![b'v'; 16_380 + random.below(8)],
            _ => random.pick(&values).as_bytes().to_vec(),
        };
        let held = random.below(texts) as u32;
        let key = if tags > 10 { held } else { any_handle(random, texts) };
        push.tags.push((key, value));
    }
    push
}

/// A push changed in one way.
type Change = fn(&mut Push);

/// 17 in metadata, where handles 0 and 1 are held, and legal metadata that comes close to it.
const METAS: [Change; 13] = [
    |_| {},
    |p| p.meta.flags |= 16,
    |p| p.meta.flags = 2,
    |p| p.meta.flags = 8,
    |p| p.meta.flags &= !8,
    |p| (p.meta.flags, p.meta.version, p.meta.timestamp) = (0, 0, 1),
    |p| (p.meta.flags, p.meta.version, p.meta.changeset) = (0, 0, -1),
    |p| (p.meta.flags, p.meta.version, p.meta.uid) = (0, 0, i32::MIN),
    |p| p.meta.user = 1,
    |p| (p.meta.flags, p.meta.user) = (13, 2),
    |p| (p.meta.flags, p.meta.user) = (13, u32::MAX),
    |p| (p.meta.flags, p.meta.user) = (15, 1),
    |p| (p.meta.timestamp, p.meta.changeset, p.meta.uid) = (-1, i64::MIN, -1),
];

/// 17 in metadata, members and tags; 10 at the limits and past them.
const PARTS: [Change; 11] = [
    |_| {},
    |p| p.meta.flags |= 16,
    |p| p.tags.iter_mut().for_each(|tag| tag.0 = 2),
    |p| p.tags.iter_mut().for_each(|tag| tag.0 = u32::MAX),
    |p| p.members.iter_mut().for_each(|member| member.1 = 3),
    |p| p.members.iter_mut().for_each(|member| member.2 = 2),
    |p| p.members.iter_mut().for_each(|member| member.2 = 1),
    |p| p.place = (900_000_000, -1_800_000_000),
    |p| p.place = (900_000_001, 0),
    |p| p.place = (0, -1_800_000_001),
    |p| p.place = (i32::MIN, i32::MIN),
];

/// 3 in a tag value.
const TEXTS: [Change; 3] = [
    |_| {},
    |p| p.tags.iter_mut().for_each(|tag| tag.1.push(0xff)),
    |p| p.tags.iter_mut().for_each(|tag| tag.1.extend("\u{ffff}".as_bytes())),
];

/// 16, at the limits and past them.
const MANY: [Change; 8] = [
    |p| p.tags = vec![(1, b"v".to_vec())],
    |p| p.tags = vec![(1, Vec::new()); MOST_TAGS],
    |p| p.tags = vec![(1, Vec::new()); MOST_TAGS + 1],
    |p| with_parts(p, MOST_REFS),
    |p| with_parts(p, MOST_MEMBERS + 1),
    |p| p.tags = vec![(0, vec![b'v'; MOST_VALUE_BYTES])],
    |p| p.tags = vec![(0, vec![b'v'; 8_192]), (1, vec![b'w'; 8_193])],
    |_| {},
];

/// So many refs or members.
fn with_parts(push: &mut Push, count: usize) {
    match push.kind {
        Kind::Node => {}
        Kind::Way => push.refs = vec![-3; count],
        Kind::Relation => push.members = vec![(4, 2, 0); count],
    }
}

/// The order of the checks: pushes that meet any choice of 17, 3, 10 and 16, of an id that is known at
/// a higher version or new, where ids are full or not, in an arena that is exactly long enough or one
/// byte short; deletes and texts likewise.
pub fn orders(port: &dyn Port) -> Compared {
    let mut both = Both::new(port);
    for text in [&b""[..], b"k", b"kk", b"new", b"\x01", b"k\xff", "\u{fffe}".as_bytes()] {
        for strings in [2, 3, 4] {
            for string_bytes in 1..6 {
                both.set_up(&sizes_of([1, 1, 1, 9, 9, 9, strings, string_bytes]), 0)?;
                for text in [b"k", text, b"z", text] {
                    both.intern(text)?;
                }
            }
        }
    }
    for kind in KINDS {
        for change in METAS {
            let mut push = Push::plain(kind, 1, claiming(Some(4)));
            change(&mut push);
            in_full_storage(&mut both, &push, |id| Call::Delete(kind as u8, id, push.meta))?;
        }
        let metas = METAS.into_iter().map(|change| vec![MANY[0], change]);
        let crossed = MANY.into_iter().flat_map(|many| {
            let texts = move |text| PARTS.map(|change| vec![many, change, text]);
            TEXTS.into_iter().flat_map(texts)
        });
        for changes in metas.chain(crossed) {
            let mut push = Push::plain(kind, 1, claiming(Some(4)));
            with_parts(&mut push, 1);
            for change in changes {
                change(&mut push);
            }
            let call = |id| Push { id, ..push.clone() }.call();
            in_full_storage(&mut both, &push, call)?;
        }
    }
    both.tally.done()
}

/// A call on an overlay that holds text 1, and id 1 at version 5, where a push fits or not.
fn in_full_storage(both: &mut Both<'_>, push: &Push, call: impl Fn(i64) -> Call) -> Result<(), String> {
    let kind = push.kind as usize;
    let end = 2 * JUDGE_HEADS[kind] + push.parts().len();
    for (id, setting) in [(1, 0), (1, 1), (2, 0)] {
        for ids in [1, 2] {
            for arena in [end, end - 1] {
                let mut sizes = sizes_of([3, 3, 3, 9, 9, 9, 2, 1]);
                (sizes.ids[kind], sizes.arenas[kind]) = (ids, arena);
                both.set_up(&sizes, setting)?;
                both.intern(b"k")?;
                both.push(&Push::plain(push.kind, 1, claiming(Some(5))))?;
                both.call(&call(id))?;
            }
        }
    }
    Ok(())
}

/// Parts cut short at every length, longer than counted, damaged at each byte; counts that are not the
/// parts', near 2^32 too; every number of a kind.
pub fn parts_not_as_counted(port: &dyn Port) -> Compared {
    let mut both = Both::new(port);
    for kind in KINDS {
        let mut push = Push::plain(kind, 9, Meta::default());
        with_parts(&mut push, 2);
        push.tags = vec![(1, b"yes".to_vec()), (0, "Straße".as_bytes().to_vec())];
        let (number, head, whole) = (kind as u8, push.head(), push.parts());
        let mut given: Vec<(u8, Head, Bytes)> = (0..=255).map(|n| (n, head, whole.clone())).collect();
        for len in 0..whole.len() {
            given.push((number, head, whole[..len].to_vec()));
            for byte in [0, 1, 2, 3, 0x7f, 0x80, 0xff] {
                let mut damaged = whole.clone();
                damaged[len] = byte;
                given.push((number, head, damaged));
            }
        }
        for more in [1, 4, 8, 12, 13, 24] {
            for byte in [0, 1, 0xff] {
                given.push((number, head, [&whole[..], &vec![byte; more]].concat()));
            }
        }
        for count in counts(2) {
            let tags = count;
            given.push((number, Head { count, ..head }, whole.clone()));
            given.push((number, Head { tags, ..head }, whole.clone()));
            given.push((number, Head { count, tags: 0, ..head }, Vec::new()));
            given.push((number, Head { tags, count: 0, ..head }, Vec::new()));
        }
        for (kind, head, parts) in given {
            both.set_up(&sizes_of([2, 3, 4, 210, 220, 230, 2, 1]), 0)?;
            both.intern(b"k")?;
            both.call(&Call::Push(kind, head, push.meta, parts))?;
            both.call(&Call::Delete(kind, head.id, push.meta))?;
        }
    }
    both.tally.done()
}

/// Counts around `n`, those that become it at 2^32 after 8 or 13 bytes each, and the largest.
fn counts(n: u32) -> Vec<u32> {
    let mut counts: Vec<u32> = (0..n + 3).collect();
    for high in [1 << 29, 1 << 30, 1 << 31, 3 << 30, 330_382_099, 330_382_100] {
        counts.extend([high - 1, high, high + 1, high + n]);
    }
    counts.extend((0..14).map(|less| u32::MAX - less));
    counts
}
