//! Damaged storage: each byte, word, counter and size of small overlays and readers changed in turn, sizes
//! at and past their ends, sizes and blocks that do not fit each other, records at and past their limits,
//! and storages at random. Each answer, and all that is lent after it, is compared with document 01's words.

use super::call::{Call, DELETED, Given, Head, Lines, NO_FLOOR, Port, Push, Storage, claiming};
use super::words::{Words, is_sound, rank, record_bytes};
use super::{Compared, Tally};
use crate::answer::{KINDS, Kind, Meta};
use crate::lines::LINE_MAX;
use crate::random::Random;

/// Which values a byte is changed to.
#[derive(Clone, Copy, Debug, PartialEq, Eq)]
pub enum Values {
    /// One bit of it, another one at the next byte.
    One,
    /// Each bit of it, its neighbours, 0 and 255.
    Few,
    /// An eighth of all values: eight numbers on end give all.
    Eighth(u64),
}

impl Values {
    /// In a long run the seeds take all values of a byte by turns.
    pub fn of_run(seed: u64, rounds: u64) -> Self {
        if rounds == 1 { Self::Few } else { Self::Eighth(seed) }
    }

    /// The values that the n-th byte is changed to.
    fn of(self, n: usize, byte: u8) -> Vec<u8> {
        let mut values = match self {
            Self::One => vec![byte ^ (1 << (n % 8))],
            Self::Few => {
                let bits = (0..8).map(|bit| byte ^ (1 << bit));
                let near = [byte.wrapping_add(1), byte.wrapping_sub(1), 0, 255];
                bits.chain(near).collect()
            }
            Self::Eighth(part) => (0..=255).filter(|v| u64::from(v % 8) == part % 8).collect(),
        };
        values.sort_unstable();
        values.dedup();
        values.retain(|&value| value != byte);
        values
    }
}

/// Document 01's words and a port, given the same storages and calls.
struct Both<'a> {
    port: &'a dyn Port,
    /// One group for each entry, and for a push and a delete one for each kind.
    groups: Vec<Vec<Call>>,
    /// Whether set-up is one of the calls.
    sets_up: bool,
    storages: usize,
    tally: Tally,
}

impl<'a> Both<'a> {
    fn new(port: &'a dyn Port, groups: Vec<Vec<Call>>) -> Self {
        Self { port, groups, sets_up: true, storages: 0, tally: Tally::new() }
    }

    /// Each call on both sides, which are given the storage as it was.
    fn calls(&mut self, what: impl Fn() -> String, lent: &Storage, told: bool, calls: &[Call]) -> Result<(), String> {
        let words = Words { told: Some(told) };
        let mut sides = (lent.clone(), lent.clone());
        for call in calls {
            let what = || format!("{}, {}", call.shown(), what());
            let answer = words.call(&mut sides.0, call);
            let port = self.port.call(&mut sides.1, call);
            self.tally.same(what, answer, port)?;
            let none: Vec<String> = Vec::new();
            self.tally.same(what, none, sides.0.changes(&sides.1))?;
            if sides.0 != *lent {
                sides = (lent.clone(), lent.clone());
            }
        }
        Ok(())
    }

    /// Every call on a sound storage; on an unsound one a call of each group, by turns.
    fn storage(&mut self, what: impl Fn() -> String, lent: &Storage) -> Result<(), String> {
        self.storages += 1;
        let (sound, turn) = (is_sound(lent), self.storages);
        let of_group = |group: &Vec<Call>| match sound {
            true => group.clone(),
            false => group[turn % group.len()..][..1].to_vec(),
        };
        let mut calls: Vec<Call> = self.groups.iter().flat_map(of_group).collect();
        if self.sets_up {
            calls.extend(of_group(&set_ups(lent)));
        }
        self.calls(what, lent, sound, &calls)
    }

    /// A storage that was made from another by a change.
    fn changed(&mut self, base: &Storage, lent: &Storage) -> Result<(), String> {
        let (sizes, setting) = (base.given(), base.counters[8]);
        let changes = || base.changes(lent).join("; ");
        let what = || format!("in sizes {sizes:?}, setting {setting}: {}", changes());
        self.storage(what, lent)
    }

    /// Every word that is changed to every value given for it.
    fn each_word(&mut self, base: &Storage, values: impl Fn(usize, u64) -> Vec<u64>) -> Result<(), String> {
        let mut lent = base.clone();
        let all: Vec<u64> = lent.all_words().map(|word| *word).collect();
        for (n, &old) in all.iter().enumerate() {
            for value in values(n, old) {
                if value != old {
                    *lent.all_words().nth(n).expect("a word") = value;
                    self.changed(base, &lent)?;
                }
            }
            *lent.all_words().nth(n).expect("a word") = old;
        }
        Ok(())
    }

    /// Every byte that is lent, those of words and counters too; of the unused parts of an element a few.
    fn each_byte(&mut self, base: &Storage, values: Values) -> Result<(), String> {
        self.changed(base, base)?;
        let mut lent = base.clone();
        let all: Vec<u8> = lent.all_bytes().map(|byte| *byte).collect();
        for (n, &old) in all.iter().enumerate().filter(|(n, _)| *n < 3_000 || n % 997 == 0) {
            for value in values.of(n, old) {
                *lent.all_bytes().nth(n).expect("a byte") = value;
                self.changed(base, &lent)?;
            }
            *lent.all_bytes().nth(n).expect("a byte") = old;
        }
        self.each_word(base, |n, old| {
            let bytes = old.to_le_bytes();
            let at = |place: usize| {
                let of = move |value| {
                    let mut bytes = bytes;
                    bytes[place] = value;
                    u64::from_le_bytes(bytes)
                };
                values.of(n + place, bytes[place]).into_iter().map(of)
            };
            (0..8).flat_map(at).collect()
        })
    }

    /// Every word as a whole: to the first numbers, to the ends of widths, to the limits of sizes and to the other words; places and the used
    /// bytes of arenas to every number up to one past the arena; sizes to what makes their sums come round.
    fn each_whole_word(&mut self, base: &Storage) -> Result<(), String> {
        let mut places = Vec::new();
        let mut table = 0;
        for kind in KINDS {
            places.extend([1, 4, 7].map(|place| table + place));
            table += base.table(kind).len();
        }
        let counters = base.words.len();
        let longest = KINDS.map(|kind| base.arena(kind).len()).into_iter().max().unwrap_or(0) as u64;
        let mut edges = vec![255, 256, u64::MAX - 1, u64::MAX];
        for edge in [4_096, 1 << 16, 1 << 20, 1 << 31, NO_FLOOR, 1 << 62, DELETED] {
            edges.extend([edge - 1, edge, edge + 1]);
        }
        edges.extend(base.clone().all_words().map(|word| *word));
        edges.sort_unstable();
        edges.dedup();
        self.each_word(base, |n, old| {
            let is_used = (counters + 3..counters + 6).contains(&n);
            let most = if places.contains(&n) || is_used { longest } else { 32 };
            let of_size = match (counters + 9..counters + 17).contains(&n) {
                true => [1, 2, 3, 1 << 62, 1 << 63, u64::MAX / 3, u64::MAX / 3 + 1].to_vec(),
                false => Vec::new(),
            };
            let of_size = of_size.into_iter().flat_map(|more| [old.wrapping_add(more), old.wrapping_sub(more)]);
            (0..=most + 1).chain(edges.iter().copied()).chain(of_size).collect()
        })
    }

    fn done(self) -> Compared {
        self.tally.done()
    }
}

/// Every byte of small overlays, used or not; in the other setting to one value.
pub fn bytes(port: &dyn Port, values: Values) -> Compared {
    let mut both = Both::new(port, groups());
    for (n, base) in small_overlays().iter().enumerate() {
        both.each_byte(base, if n < 2 { values } else { Values::One })?;
    }
    both.done()
}

/// Every word of small overlays as a whole.
pub fn whole_words(port: &dyn Port) -> Compared {
    let mut both = Both::new(port, groups());
    for base in small_overlays() {
        both.each_whole_word(&base)?;
    }
    both.done()
}

/// Every word of readers and every staged byte; then every byte of the overlay that one reads into.
pub fn readers(port: &dyn Port, values: Values) -> Compared {
    let mut both = Both::new(port, reader_calls());
    both.sets_up = false;
    let bases = small_readers();
    for base in &bases {
        one_reader(&mut both, base, values)?;
    }
    both.each_byte(&bases[3], Values::One)?;
    both.done()
}

fn one_reader(both: &mut Both<'_>, base: &Storage, values: Values) -> Result<(), String> {
    both.changed(base, base)?;
    let Lines { words, parts } = &base.readers[0];
    let mut lent = base.clone();
    for n in 0..19 {
        for value in reader_values(words, n).into_iter().step_by(if values == Values::One { 9 } else { 1 }) {
            lent.readers[0].words[n] = value;
            both.changed(base, &lent)?;
        }
        lent.readers[0].words[n] = words[n];
    }
    let past = words[14] as usize + 9;
    for n in (0..past).chain((past..parts.len()).step_by(4_999)) {
        for value in values.of(n, parts[n]) {
            lent.readers[0].parts[n] = value;
            both.changed(base, &lent)?;
        }
        lent.readers[0].parts[n] = parts[n];
    }
    Ok(())
}

/// The first numbers, the ends of widths, the other words, each bit of the word.
fn reader_values(all: &[u64; 19], n: usize) -> Vec<u64> {
    let mut values: Vec<u64> = (0..=33).collect();
    for edge in [1 << 8, 1 << 31, NO_FLOOR, DELETED, 44_432, 900_000_000, 1_800_000_000] {
        values.extend([edge - 1, edge, edge + 1]);
    }
    values.extend([u64::MAX, u64::MAX - 1]);
    values.extend((0..64).map(|bit| all[n] ^ (1 << bit)));
    values.extend(all);
    values.sort_unstable();
    values.dedup();
    values.retain(|value| *value != all[n]);
    values
}

/// Sizes at and past their ends, with nothing in use and with small overlays: none, too few for what is in use, the most, one more; in
/// blocks of these sizes, in the blocks as they were, and with the sizes as they were in the blocks of the others. Then sizes that do not
/// fit the blocks, and such that do and cut them at other places.
pub fn sizes(port: &dyn Port) -> Compared {
    let mut both = Both::new(port, groups());
    sized(&mut both, &[4_096, 1 << 20, 4_096, 65_536])?;
    both.done()
}

/// The sizes given, and one more: ids, arena, strings, string bytes.
fn sized(both: &mut Both<'_>, [ids, arena, strings, bytes]: &[u64; 4]) -> Result<(), String> {
    for base in [lend(&[1, 1, 1, 0, 0, 0, 1, 0]), lend(&[3, 2, 4, 60, 50, 70, 5, 9]), small(false, 0), small(true, 0)] {
        for n in 0..8 {
            let ends: &[u64] = match n {
                0..3 => &[0, 1, 2, 3, 4, *ids, ids + 1],
                3..6 => &[0, 1, 7, *arena, arena + 1],
                6 => &[0, 1, 2, 3, 4, 5, 6, *strings, strings + 1],
                _ => &[0, 1, 7, *bytes, bytes + 1],
            };
            for end in ends {
                let mut sizes = base.given();
                sizes[n] = *end;
                one_fit(both, &base, &sizes)?;
            }
        }
        for lent in not_fitting(&base) {
            both.changed(&base, &lent)?;
        }
    }
    Ok(())
}

/// Other sizes in blocks of theirs, in the blocks as they were, and blocks of theirs with the sizes as they were.
fn one_fit(both: &mut Both<'_>, base: &Storage, sizes: &Given) -> Result<(), String> {
    let fitting = base.resized(sizes);
    let (mut sizes_alone, mut blocks_alone) = (base.clone(), fitting.clone());
    sizes_alone.give(sizes);
    blocks_alone.give(&base.given());
    for lent in [fitting, sizes_alone, blocks_alone] {
        both.changed(base, &lent)?;
    }
    Ok(())
}

/// Blocks that are longer or shorter by little, or empty. Of two sizes one more and the other less, both past the half of all numbers, and
/// the two exchanged: where both are of one block, it is cut at another place, or the sum comes round.
fn not_fitting(base: &Storage) -> Vec<Storage> {
    let mut lents = Vec::new();
    let mut change = |change: &dyn Fn(&mut Storage)| {
        let mut lent = base.clone();
        change(&mut lent);
        lents.push(lent);
    };
    let (words, bytes) = (base.words.len(), base.bytes.len());
    for more in [1, 2, 3, 6, 400] {
        change(&|lent| lent.words.resize(words + more, 7));
        change(&|lent| lent.words.truncate(words.saturating_sub(more)));
        change(&|lent| lent.bytes.resize(bytes + more, 7));
        change(&|lent| lent.bytes.truncate(bytes.saturating_sub(more)));
    }
    change(&|lent| (lent.words.push(7), lent.bytes.push(7)).0);
    change(&|lent| lent.words.clear());
    change(&|lent| lent.bytes.clear());
    for (n, other) in (0..64).map(|pair| (9 + pair / 8, 9 + pair % 8)).filter(|(n, other)| n != other) {
        change(&|lent| lent.counters.swap(n, other));
        for (more, less) in [(1, 1), (2, 3), (3, 2), (1 << 62, 1 << 62), (1 << 63, 1 << 63)] {
            change(&|lent| {
                lent.counters[n] = lent.counters[n].wrapping_add(more);
                lent.counters[other] = lent.counters[other].wrapping_sub(less);
            });
        }
    }
    change(&|lent| lent.counters[9..].fill(0));
    change(&|lent| lent.counters[9..].fill(u64::MAX));
    change(&|lent| lent.counters[9..].rotate_left(1));
    lents
}

/// Records at and past the limits of an element, pushed and stored; the most ids and strings in use.
pub fn limits(port: &dyn Port) -> Compared {
    let mut both = Both::new(port, groups());
    let long = ["é".repeat(4_096), "a".repeat(8_192), "a".repeat(8_193)];
    let whole = ["a".repeat(16_384), "a".repeat(16_385)];
    for (kind, count, tags) in [
        (Kind::Node, 0, vec![(0, ""); 256]),
        (Kind::Node, 0, vec![(0, ""); 257]),
        (Kind::Way, 2_000, vec![]),
        (Kind::Way, 2_001, vec![(1, "v")]),
        (Kind::Relation, 2_000, vec![]),
        (Kind::Relation, 2_001, vec![(1, "v")]),
        (Kind::Node, 0, vec![(1, &whole[0])]),
        (Kind::Node, 0, vec![(1, &whole[1])]),
        (Kind::Way, 1, vec![(1, &long[0]), (0, &long[1])]),
        (Kind::Way, 1, vec![(1, &long[0]), (0, &long[2])]),
    ] {
        let push = push(kind, IDS[kind as usize][0], count, &tags, claiming(Some(1)));
        one_limit(&mut both, &push)?;
    }
    most_in_use(&mut both)?;
    both.done()
}

/// A record pushed into an arena of exactly its length, and of one byte less; then stored.
fn one_limit(both: &mut Both<'_>, push: &Push) -> Result<(), String> {
    let (kind, call) = (push.kind as usize, [push.call()]);
    let record = record_bytes(push.kind, &push.head(), &push.meta, &push.parts());
    let len = record.len() as u64;
    let mut lent = lend(&[2, 2, 2, len, len, len, 2, 1]);
    Words::default().call(&mut lent, &Call::Intern(b"k".to_vec()));
    let what = || format!("{:?} in {len} bytes", push.head());
    both.calls(what, &lent, true, &call)?;
    let mut sizes = lent.given();
    sizes[3 + kind] -= 1;
    both.calls(what, &lent.resized(&sizes), true, &call)?;
    lent.arena_mut(push.kind).copy_from_slice(&record);
    lent.counters[3 + kind] = len;
    lent.table_mut(push.kind)[..3].copy_from_slice(&[rank(push.id), 0, NO_FLOOR]);
    lent.counters[kind] = 1;
    both.storage(what, &lent)
}

/// The text of a handle where the most are in use: 65,536 bytes in all.
fn text_of(handle: usize) -> String {
    match handle {
        0 => String::new(),
        4_095 => format!("{handle:032}"),
        _ => format!("{handle:016}"),
    }
}

/// As many ids and strings in use as document 01 allows (4,096 live nodes, 4,096 deleted ways, 4,096
/// strings), then the last of each damaged.
fn most_in_use(both: &mut Both<'_>) -> Result<(), String> {
    let record = |id| {
        let push = push(Kind::Node, id, 0, &[], Meta::default());
        record_bytes(Kind::Node, &push.head(), &push.meta, &[])
    };
    let table = |place: fn(u64) -> u64| -> Vec<u64> {
        let row = |n| [rank(n as i64 + 1), place(n), NO_FLOOR];
        (0..4_096).flat_map(row).collect()
    };
    let span = |handle: usize| {
        let start = 16 * handle.saturating_sub(1);
        [start as u64, text_of(handle).len() as u64]
    };
    let tables = [table(|n| 49 * n), table(|_| DELETED), vec![0; 3]].concat();
    let (arena, texts) = ((1..=4_096).flat_map(record), (0..4_096).map(text_of).collect::<String>());
    let [used, room] = [[4_096, 4_096, 0], [4_096, 4_096, 1]];
    let counters = [&used[..], &[49 * 4_096, 0, 0, 4_096, 65_536, 0], &room, &[49 * 4_096, 0, 0, 4_096, 65_536]];
    let base = Storage {
        words: tables.into_iter().chain((0..4_096).flat_map(span)).collect(),
        bytes: arena.chain(texts.into_bytes()).collect(),
        counters: counters.concat().try_into().expect("17"),
        readers: Vec::new(),
    };
    let last = 4_095;
    let mut lents = vec![base.clone()];
    let mut change = |change: &dyn Fn(&mut Storage)| {
        let mut lent = base.clone();
        change(&mut lent);
        lents.push(lent);
    };
    change(&|lent| lent.spans_mut().copy_within(2..4, 2 * last));
    change(&|lent| lent.spans_mut()[2 * last + 1] += 1);
    change(&|lent| lent.string_bytes_mut()[65_535] = 0);
    change(&|lent| lent.table_mut(Kind::Node)[3 * last] -= 1);
    change(&|lent| lent.table_mut(Kind::Way)[3 * last] -= 1);
    change(&|lent| lent.table_mut(Kind::Node)[3 * last + 1] -= 49);
    change(&|lent| *lent.arena_mut(Kind::Node).last_mut().expect("a byte") = 1);
    change(&|lent| lent.counters[9..12].rotate_left(1));
    let calls = [
        Call::IsSound,
        Call::Intern(b"new".to_vec()),
        Call::Intern(text_of(last).into_bytes()),
        push(Kind::Node, 9_999, 0, &[], claiming(Some(1))).call(),
        Call::Delete(1, 9_999, claiming(Some(1))),
        Call::Delete(1, 4_096, claiming(Some(1))),
        Call::LiveId(0, 4_095),
        Call::Record(0, 4_095),
        Call::Text(4_095),
    ];
    for lent in lents {
        let what = || format!("the most in use: {:?}", base.changes(&lent));
        both.calls(what, &lent, is_sound(&lent), &calls)?;
    }
    Ok(())
}

/// Storages at random: small ones of any elements, and overlays of some calls with several changes.
pub fn random(port: &dyn Port, seed: u64, rounds: u64) -> Compared {
    let mut both = Both::new(port, groups());
    at_random(&mut both, seed, 12_000 * rounds)?;
    both.done()
}

fn at_random(both: &mut Both<'_>, seed: u64, times: u64) -> Result<(), String> {
    let mut random = Random::new(seed);
    let bases = small_overlays();
    for n in 0..times {
        let lent = any_storage(&mut random);
        both.storage(|| format!("{lent:?}"), &lent)?;
        let mut base = bases[n as usize % 4].clone();
        for call in both.groups.concat().into_iter().chain(set_ups(&base)) {
            if random.once_in(40) {
                Words { told: Some(true) }.call(&mut base, &call);
            }
        }
        let mut lent = base.clone();
        for _ in 0..random.below(4) {
            change_any(&mut random, &mut lent);
        }
        both.changed(&base, &lent)?;
    }
    Ok(())
}

/// A short form of all of these, for a run under a slow tool.
pub fn short(port: &dyn Port) -> Compared {
    let mut both = Both::new(port, groups());
    for base in &small_overlays()[..2] {
        both.each_byte(base, Values::One)?;
    }
    sized(&mut both, &[4, 400, 6, 40])?;
    at_random(&mut both, 1, 300)?;
    (both.groups, both.sets_up) = (reader_calls(), false);
    for base in &small_readers()[1..6] {
        one_reader(&mut both, base, Values::One)?;
    }
    both.done()
}

// ---- the calls

/// Of each kind an id that is live, one that is deleted, one that was pushed twice, one that is new.
const IDS: [[i64; 4]; 3] = [[5, -4, 0, -3], [-1, 1, i64::MIN, 0], [i64::MAX, 2, -3, 1]];

/// A push of so many refs or members, and of tags; a node at the ends of its range.
fn push(kind: Kind, id: i64, count: usize, tags: &[(u32, &str)], meta: Meta) -> Push {
    let mut push = Push::plain(kind, id, meta);
    push.tags = tags.iter().map(|&(key, text)| (key, text.into())).collect();
    match kind {
        Kind::Node => push.place = (900_000_000, -1_800_000_000),
        Kind::Way => push.refs.extend(0..count as i64),
        Kind::Relation => {
            let member = |n: usize| (n as i64 - 1, (n % 3) as u8, (n % 2) as u32);
            push.members.extend((0..count).map(member));
        }
    }
    push
}

/// Good pushes and deletes of a kind: of a new id and of known ones, with several versions and without.
fn good_acts(kind: Kind) -> [Vec<Call>; 2] {
    let [live, deleted, twice, new] = IDS[kind as usize];
    let (none, at) = (Meta::default(), |version| claiming(Some(version)));
    let pushes = [
        push(kind, new, 1, &[(1, "é")], at(1)),
        push(kind, live, 0, &[], at(4)),
        push(kind, live, 2, &[(0, "")], at(2)),
        push(kind, live, 0, &[], none),
        push(kind, deleted, 0, &[(2, "a"), (1, "b")], none),
        push(kind, deleted, 1, &[], at(1)),
        push(kind, twice, 0, &[], at(2)),
        push(kind, twice, 0, &[], none),
    ];
    let deletes = [
        (new, at(1)),
        (live, none),
        (live, at(2)),
        (live, at(7)),
        (deleted, at(1)),
        (deleted, none),
        (twice, at(-1)),
        (twice, none),
    ];
    let delete = |(id, meta)| Call::Delete(kind as u8, id, meta);
    [pushes.iter().map(Push::call).collect(), deletes.map(delete).into()]
}

/// Pushes and deletes that are refused 17, 3, 10 or 16 where the storage is sound.
fn bad_acts() -> [Vec<Call>; 2] {
    let changes: [(Kind, fn(&mut Push)); 17] = [
        (Kind::Node, |p| p.meta.flags = 16),
        (Kind::Node, |p| p.meta.flags = 8),
        (Kind::Node, |p| p.meta.flags = 1),
        (Kind::Node, |p| p.meta.user = 1),
        (Kind::Way, |p| (p.meta.flags, p.meta.version, p.meta.uid) = (0, 0, 1)),
        (Kind::Way, |p| (p.meta.flags, p.meta.user) = (13, 99)),
        (Kind::Way, |p| p.tags[0].0 = 99),
        (Kind::Way, |p| p.tags[0].1 = b"\xff".to_vec()),
        (Kind::Node, |p| p.place.0 = 900_000_001),
        (Kind::Node, |p| p.place.1 = i32::MIN),
        (Kind::Node, |p| p.tags = vec![(0, b"w".to_vec()); 257]),
        // Of several the first in the table's order.
        (Kind::Way, |p| p.tags = vec![(1, b"\xff".to_vec()), (99, b"\xff".to_vec())]),
        (Kind::Node, |p| (p.place.0, p.tags[0].1) = (i32::MAX, b"\xff".to_vec())),
        (Kind::Node, |p| (p.place.1, p.tags) = (i32::MAX, vec![(0, b"w".to_vec()); 257])),
        (Kind::Node, |p| (p.id, p.meta.version, p.tags) = (5, 0, vec![(0, b"w".to_vec()); 257])),
        (Kind::Relation, |p| p.members[0].1 = 3),
        (Kind::Relation, |p| p.members[0].2 = 99),
    ];
    let mut pushes: Vec<Call> = changes
        .iter()
        .map(|(kind, change)| {
            let mut push = push(*kind, 1, 1, &[(1, "v")], claiming(Some(9)));
            change(&mut push);
            push.call()
        })
        .collect();
    let way = push(Kind::Way, 1, 1, &[(1, "v")], claiming(Some(9)));
    let (head, parts, meta) = (way.head(), way.parts(), way.meta);
    let most = u32::MAX;
    pushes.extend([
        Call::Push(3, head, meta, parts.clone()),
        Call::Push(255, head, meta, parts.clone()),
        Call::Push(1, head, meta, parts[1..].to_vec()),
        Call::Push(1, head, meta, [&parts[..], &[0]].concat()),
        Call::Push(1, Head { count: most, ..head }, meta, parts.clone()),
        Call::Push(1, Head { tags: most, ..head }, meta, parts),
    ]);
    let flags = |flags, user| Meta { flags, user, ..claiming(Some(0)) };
    let deletes = vec![
        Call::Delete(3, 5, claiming(Some(9))),
        Call::Delete(0, 5, flags(16, 0)),
        Call::Delete(1, 5, flags(8, 0)),
        Call::Delete(2, 5, flags(5, 99)),
    ];
    [pushes, deletes]
}

/// The calls in groups: one for each entry, and for a push and a delete one for each kind.
fn groups() -> Vec<Vec<Call>> {
    let texts = ["ka", "new", "", "Straße"].map(|text| text.as_bytes().to_vec());
    let not_texts = [b"\xff".to_vec(), b"a\0".to_vec(), b"\xed\xa0\x80".to_vec(), vec![b'x'; 40]];
    let by_number = |call: fn(u8, u64) -> Call| -> Vec<Call> {
        let numbers = |kind| [0, 1, 2, 3, u64::MAX].map(|n| call(kind, n));
        (0..=3).flat_map(numbers).collect()
    };
    let by_id = |call: fn(u8, i64) -> Call| -> Vec<Call> {
        let known = (0..3u8).flat_map(|kind| IDS[kind as usize].map(|id| call(kind, id)));
        known.chain([call(3, 5)]).collect()
    };
    let handles = [0, 1, 2, 4, 5, 6, 1 << 32, u64::MAX];
    let mut groups = vec![
        vec![Call::IsSound],
        vec![Call::Allow(0), Call::Allow(1 << 32)],
        texts.into_iter().chain(not_texts).map(Call::Intern).collect(),
        (0..=3).map(Call::LiveCount).collect(),
        (0..=3).map(Call::DeletedCount).collect(),
        vec![Call::IsEmpty],
        by_number(Call::LiveId),
        by_number(Call::DeletedId),
        by_number(Call::Record),
        by_id(Call::Get),
        by_id(Call::Has),
        by_id(Call::IsDeleted),
        by_id(Call::KnownVersion),
        handles.map(Call::Text).into(),
        (0..=3).flat_map(|kind| [Call::LiveIds(kind, 9), Call::DeletedIds(kind, 2)]).collect(),
    ];
    groups.extend(bad_acts());
    groups.extend(KINDS.into_iter().flat_map(good_acts));
    groups.push([0, 300, 700, 100_000].map(Call::Listing).into());
    groups.push(vec![Call::ListingLength]);
    groups
}

/// Set-ups in lent blocks: of the sizes behind the counters, of others that are all of the blocks, of these with one more.
fn set_ups(lent: &Storage) -> Vec<Call> {
    let (words, bytes) = (lent.words.len() as u64, lent.bytes.len() as u64);
    // Of one, two and three strings one leaves whole rows.
    let strings = (1..=3).find(|strings| words.saturating_sub(2 * strings) % 3 == 0).unwrap_or(1);
    let rows = words.saturating_sub(2 * strings) / 3;
    let string_bytes = (bytes / 4).min(65_536);
    let (ids, arena) = (rows / 3, (bytes - string_bytes) / 3);
    let (last_ids, last_arena) = (rows - 2 * ids, bytes - string_bytes - 2 * arena);
    let others = [ids, ids, last_ids, arena, arena, last_arena, strings, string_bytes];
    let mut one_off = others;
    one_off[(words + bytes) as usize % 8] += 1;
    vec![Call::SetUp(lent.given(), 0), Call::SetUp(others, 7), Call::SetUp(one_off, 0)]
}

/// What a reader is asked: an event of each kind, and its end.
fn reader_calls() -> Vec<Vec<Call>> {
    let lines = [
        "close\n",
        "other\n",
        "close",
        "bad\n",
        "empty\ttag\tk=new\tv=yes\n",
        "open\ttag\tk=ka\tv=\n",
        "empty\tnd\tref=-5\n",
        "empty\tmember\ttype=way\tref=5\trole=ka\n",
        "empty\tnode\tid=5\tversion=9\tlat7=1\tlon7=2\tuser=u\n",
        "open\tway\tid=-1\tversion=2\n",
        "open\tosmChange\n",
        "open\tdelete\n",
    ];
    let event = |line: &str| vec![Call::Event(0, line.as_bytes().to_vec())];
    let mut calls: Vec<Vec<Call>> = lines.into_iter().map(event).collect();
    let long = format!("other\n{}", "x".repeat(LINE_MAX + 1));
    let runs = ["", "close", "close\nother\nclose", "other\nbad\nclose\n", &long[..], &long[6..]];
    calls.push(runs.map(|run| Call::Events(0, run.into())).into());
    calls.push(vec![Call::End(0)]);
    calls
}

// ---- the storages

/// An empty overlay of these sizes; what it is lent is drawn.
fn lend(sizes: &Given) -> Storage {
    let mut random = Random::new(1);
    let [a, b, c, d, e, f, strings, bytes] = *sizes;
    let mut lent = Storage {
        words: (0..3 * (a + b + c) + 2 * strings).map(|_| random.draw()).collect(),
        bytes: (0..d + e + f + bytes).map(|_| random.draw() as u8).collect(),
        counters: [0; 17],
        readers: Vec::new(),
    };
    taken(&mut lent, &[Call::SetUp(*sizes, 0)]);
    lent
}

/// Calls that are taken.
fn taken(lent: &mut Storage, calls: &[Call]) {
    for call in calls {
        let answer = Words::default().call(lent, call);
        assert_eq!(answer.number(), 0, "{}", call.shown());
    }
}

/// A small overlay of three ids a kind, one of them deleted, one pushed twice, and of five texts. All
/// that is lent is in use, or there is room: for an id or more, for some pushes, for two texts.
fn small(room: bool, setting: u64) -> Storage {
    let mut lent = lend(&[5, 4, 6, 400, 400, 400, 7, 30]);
    let mut calls = vec![Call::Allow(setting)];
    // One text begins with another.
    calls.extend(["", "k", "Straße", "€🚚", "ka"].map(|text| Call::Intern(text.into())));
    let user = Meta { flags: 13, version: 3, timestamp: 1_704_063_600, changeset: -9, uid: 258, user: 3 };
    let hidden = Meta { flags: 3, ..Meta::default() };
    for kind in KINDS {
        let [live, deleted, twice, _] = IDS[kind as usize];
        calls.extend([
            push(kind, live, 2, &[(1, "é")], user).call(),
            push(kind, deleted, 0, &[], Meta::default()).call(),
            push(kind, twice, 1, &[(4, "")], claiming(Some(1))).call(),
            push(kind, twice, 0, &[(2, "yes"), (1, "a\tb")], hidden).call(),
            Call::Delete(kind as u8, deleted, claiming(Some(2))),
        ]);
    }
    taken(&mut lent, &calls);
    let [a, b, c, d, e, f, strings, bytes, ..] = lent.counters;
    let sizes = match room {
        true => [5, 4, 6, d + 60, e + 50, f + 70, 7, 30],
        false => [a, b, c, d, e, f, strings, bytes],
    };
    lent.resized(&sizes)
}

/// Small overlays: full, with room, and both in the other setting.
fn small_overlays() -> [Storage; 4] {
    let settings = [(false, 0), (true, 1 << 32), (false, 1), (true, 0)];
    settings.map(|(room, setting)| small(room, setting))
}

/// Small overlays with a reader: fresh, in elements of each kind with parts, in a leaf, in a delete
/// section, between elements, at the end, stopped with 12 and with 5.
fn small_readers() -> Vec<Storage> {
    let way = "open\tway\tid=-1\tversion=4\tuser=ka\nempty\tnd\tref=7\nempty\ttag\tk=k\tv=é\nempty\tnd\tref=-8\n";
    let lists = [
        String::new(),
        "open\tosmChange\nopen\tcreate\nopen\tnode\tid=9\tlat7=5\tlon7=-6\nempty\ttag\tk=ka\tv=yes\n".into(),
        format!("open\tosmChange\nopen\tmodify\n{way}"),
        format!("open\tosmChange\nopen\tcreate\n{way}open\ttag\tk=ka\tv=\n"),
        "open\tosmChange\nopen\tcreate\nopen\trelation\tid=3\nempty\tmember\ttype=way\tref=7\trole=k\nempty\ttag\tk=k\tv=b\n".into(),
        "open\tosmChange\nopen\tdelete\nopen\tway\tid=-1\tversion=4\n".into(),
        format!("open\tosmChange\nopen\tcreate\n{way}close\n"),
        "open\tosmChange\nclose\n".into(),
        "open\tosmChange\nopen\tmodify\nempty\tway\tid=1\tversion=1\n".into(),
        "open\tosmChange\nopen\tosmChange\n".into(),
    ];
    let make = |(n, lines): (usize, String)| {
        let mut lent = small(n % 2 == 1, 0);
        // Room for what the events bring.
        let mut sizes = lent.given();
        sizes[3..6].iter_mut().for_each(|bytes| *bytes += 150);
        lent = lent.resized(&sizes);
        lent.readers = vec![Lines::fresh(&mut Random::new(5))];
        for line in lines.split_inclusive('\n') {
            let event = Call::Event(0, line.into());
            let number = Words::default().call(&mut lent, &event).number();
            assert!(number == 0 || [(8, 12), (9, 5)].contains(&(n, number)), "{n} {number} {line}");
        }
        lent
    };
    lists.into_iter().enumerate().map(make).collect()
}

/// A small number, an end of a width, or any.
fn any_word(random: &mut Random) -> u64 {
    match random.below(4) {
        0 => random.draw(),
        1 => *random.pick(&[NO_FLOOR - 1, NO_FLOOR, DELETED - 1, DELETED, u64::MAX]),
        _ => random.below(8) as u64,
    }
}

/// A small storage of any elements, its counters mostly small, its sizes mostly those of the blocks.
fn any_storage(random: &mut Random) -> Storage {
    let mut size = |most: usize| random.below(most) as u64;
    let [a, b, c, d, e, f] = [5, 5, 5, 120, 120, 120].map(&mut size);
    let (strings, bytes) = (size(7), size(12));
    let mut counters = [0; 17].map(|_: u64| match random.below(8) {
        0 => any_word(random),
        _ => random.below(3) as u64,
    });
    if random.once_in(2) {
        counters[3..6].fill(0);
    }
    let mut lent = Storage {
        words: (0..3 * (a + b + c) + 2 * strings).map(|_| any_word(random)).collect(),
        bytes: (0..d + e + f + bytes).map(|_| any_word(random) as u8).collect(),
        counters,
        readers: Vec::new(),
    };
    lent.give(&[a, b, c, d, e, f, strings, bytes]);
    if random.once_in(6) {
        change_sizes(random, &mut lent);
    }
    lent
}

/// A size changed, two of them exchanged or one more and the other less, a block longer or shorter.
fn change_sizes(random: &mut Random, lent: &mut Storage) {
    let (one, other) = (9 + random.below(8), 9 + random.below(8));
    let more = *random.pick(&[1, 2, 3, 1 << 63]);
    match random.below(5) {
        0 => lent.counters[one] = any_word(random),
        1 => lent.counters.swap(one, other),
        2 => {
            lent.counters[one] = lent.counters[one].wrapping_add(more);
            lent.counters[other] = lent.counters[other].wrapping_sub(more);
        }
        3 => lent.words.resize((lent.words.len() + random.below(7)).saturating_sub(3), 7),
        _ => lent.bytes.resize((lent.bytes.len() + random.below(7)).saturating_sub(3), 7),
    }
}

/// A word, a counter or a byte changed, a word of another place, two rows exchanged, or sizes and blocks.
fn change_any(random: &mut Random, lent: &mut Storage) {
    let (len, any) = (lent.all_words().count(), any_word(random));
    let (from, to) = (random.below(len), random.below(len));
    let other = *lent.all_words().nth(from).expect("a word");
    match random.below(6) {
        0 => *lent.all_words().nth(to).expect("a word") = other,
        1 => *lent.all_words().nth(to).expect("a word") = any,
        2 => lent.counters[random.below(17)] = any,
        3 => {
            let (kind, row) = (*random.pick(&KINDS), 3 * random.below(2));
            if let Some(rows) = lent.table_mut(kind).get_mut(row..row + 6) {
                rows.rotate_left(3);
            }
        }
        4 => change_sizes(random, lent),
        _ => {
            let len = lent.all_bytes().count();
            let byte = lent.all_bytes().nth(random.below(len.max(1)));
            if let Some(byte) = byte {
                *byte = *random.pick(&[0, 1, 255, byte.wrapping_add(1), byte.wrapping_sub(1)]);
            }
        }
    }
}
