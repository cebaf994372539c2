//! The calls on lent storage, as a C caller makes them, and what is lent to them.

use std::ops::Range;

use super::ground::{Ground, Judge, version, word};
use crate::answer::{KINDS, Kind, KindState, Meta, Sizes, State};
use crate::lines::LINE_MAX;
use crate::produce::Bytes;
use crate::random::Random;

/// Sizes as set-up is given them and the last eight counters hold them: ids of nodes, ways and relations, arena bytes of the same, strings,
/// string bytes. They need not be sizes of anything.
pub type Given = [u64; 8];

/// What is lent to the library, as its caller holds it: two blocks and the counters, which say how the blocks are cut into parts.
#[derive(Clone, Debug, PartialEq, Eq)]
pub struct Storage {
    /// The id tables of nodes, ways and relations, three words a row: rank, place or 2^63 and above for deleted, floor or 2^32 and above for
    /// none. Then the spans, two words a string: start, length.
    pub words: Vec<u64>,
    /// The arenas of nodes, ways and relations, then the string bytes.
    pub bytes: Vec<u8>,
    /// Used ids of the three kinds, used arena bytes of the same, held strings, used string bytes, the
    /// regression setting (0 refuses); then the sizes.
    pub counters: [u64; 17],
    pub readers: Vec<Lines>,
}

/// What is lent for a reader of event lines.
#[derive(Clone, Debug, PartialEq, Eq)]
pub struct Lines {
    /// Level, section, kind; the head, the metadata and the used bytes of the element that is put
    /// together; the accepted lines; the stop mark's number, line and version held. Fresh: zeros.
    pub words: [u64; 19],
    /// The parts of that element.
    pub parts: Vec<u8>,
}

/// How many bytes are lent for the parts of an element.
pub const STAGED: usize = 44_432;

/// A place from here on is that of a deleted id.
pub const DELETED: u64 = 1 << 63;

/// A floor from here on means none.
pub const NO_FLOOR: u64 = 1 << 32;

/// Writes over the front, as far as it goes.
pub(super) fn write_front<T: Copy>(all: &mut [T], front: &[T]) {
    let len = front.len().min(all.len());
    all[..len].copy_from_slice(&front[..len]);
}

fn drawn_bytes(random: &mut Random, len: usize) -> Vec<u8> {
    let mut bytes = Vec::with_capacity(len + 8);
    while bytes.len() < len {
        bytes.extend((random.draw() & random.draw()).to_le_bytes());
    }
    bytes.truncate(len);
    bytes
}

impl Lines {
    /// Fresh, in bytes that hold anything.
    pub fn fresh(random: &mut Random) -> Self {
        Self { words: [0; 19], parts: drawn_bytes(random, STAGED) }
    }
}

/// Where three parts lie in a block, one behind the other, and what is behind them. What the block does not have is missing at its end.
fn ranges(sizes: [u64; 3], each: u64, block: usize) -> [Range<usize>; 4] {
    let mut from = 0;
    let mut next = |size: usize| {
        let part = from..block.min(size.saturating_add(from));
        from = part.end;
        part
    };
    let [nodes, ways, relations] = sizes.map(|size| next(size.saturating_mul(each).try_into().unwrap_or(usize::MAX)));
    [nodes, ways, relations, next(usize::MAX)]
}

/// A part as long as it is to be: cut off at its end, or with sevens behind it.
fn resized<T: Copy + From<u8>>(part: &[T], len: u64) -> Vec<T> {
    let mut part = part.to_vec();
    part.resize(usize::try_from(len).expect("a length"), T::from(7));
    part
}

impl Storage {
    /// Blocks of these sizes that hold any words and bytes, and any counters.
    pub fn drawn(random: &mut Random, sizes: &Sizes) -> Self {
        let words = |random: &mut Random, len: usize| -> Vec<u64> {
            let word = |r: &mut Random| match r.below(4) {
                0 => r.below(200) as u64,
                1 => DELETED + r.below(9) as u64,
                2 => 1 << r.below(64),
                _ => r.draw(),
            };
            (0..len).map(|_| word(random)).collect()
        };
        let counters = words(random, 17);
        Self {
            words: words(random, 3 * sizes.ids.iter().sum::<usize>() + 2 * sizes.strings),
            bytes: drawn_bytes(random, sizes.arenas.iter().sum::<usize>() + sizes.string_bytes),
            counters: std::array::from_fn(|n| counters[n]),
            readers: Vec::new(),
        }
    }

    /// The sizes behind the counters.
    pub fn given(&self) -> Given {
        let [.., a, b, c, d, e, f, g, h] = self.counters;
        [a, b, c, d, e, f, g, h]
    }

    /// The same, of an overlay that is sound.
    pub fn sizes(&self) -> Sizes {
        let [a, b, c, d, e, f, strings, string_bytes] = self.given().map(|size| size as usize);
        Sizes { ids: [a, b, c], arenas: [d, e, f], strings, string_bytes, output: 0 }
    }

    /// Writes sizes behind the counters; the blocks stay.
    pub fn give(&mut self, sizes: &Given) {
        self.counters[9..].copy_from_slice(sizes);
    }

    fn word_ranges(&self) -> [Range<usize>; 4] {
        let [a, b, c, ..] = self.given();
        ranges([a, b, c], 3, self.words.len())
    }

    fn byte_ranges(&self) -> [Range<usize>; 4] {
        let [_, _, _, a, b, c, ..] = self.given();
        ranges([a, b, c], 1, self.bytes.len())
    }

    /// A kind's id table, as the sizes behind the counters cut it.
    pub fn table(&self, kind: Kind) -> &[u64] {
        &self.words[self.word_ranges()[kind as usize].clone()]
    }

    pub fn table_mut(&mut self, kind: Kind) -> &mut [u64] {
        let at = self.word_ranges()[kind as usize].clone();
        &mut self.words[at]
    }

    /// Its arena.
    pub fn arena(&self, kind: Kind) -> &[u8] {
        &self.bytes[self.byte_ranges()[kind as usize].clone()]
    }

    pub fn arena_mut(&mut self, kind: Kind) -> &mut [u8] {
        let at = self.byte_ranges()[kind as usize].clone();
        &mut self.bytes[at]
    }

    pub fn spans(&self) -> &[u64] {
        &self.words[self.word_ranges()[3].clone()]
    }

    pub fn spans_mut(&mut self) -> &mut [u64] {
        let at = self.word_ranges()[3].clone();
        &mut self.words[at]
    }

    pub fn string_bytes(&self) -> &[u8] {
        &self.bytes[self.byte_ranges()[3].clone()]
    }

    pub fn string_bytes_mut(&mut self) -> &mut [u8] {
        let at = self.byte_ranges()[3].clone();
        &mut self.bytes[at]
    }

    /// The same parts in blocks of other sizes, which stand behind the counters then.
    pub fn resized(&self, sizes: &Given) -> Self {
        let [a, b, c, d, e, f, strings, string_bytes] = *sizes;
        let tables = KINDS.into_iter().zip([a, b, c]).flat_map(|(kind, ids)| resized(self.table(kind), 3 * ids));
        let arenas = KINDS.into_iter().zip([d, e, f]).flat_map(|(kind, bytes)| resized(self.arena(kind), bytes));
        let mut lent = Self {
            words: tables.chain(resized(self.spans(), 2 * strings)).collect(),
            bytes: arenas.chain(resized(self.string_bytes(), string_bytes)).collect(),
            ..self.clone()
        };
        lent.give(sizes);
        lent
    }

    /// Writes a state over the used parts and their counters; everything else stays.
    pub fn hold(&mut self, state: &State) {
        for (kind, held) in KINDS.into_iter().zip(&state.kinds) {
            let rows = rows_of(held);
            self.counters[kind as usize] = rows.len() as u64;
            self.counters[3 + kind as usize] = held.arena.len() as u64;
            write_front(self.table_mut(kind), rows.as_flattened());
            write_front(self.arena_mut(kind), &held.arena);
        }
        let spans = state.spans.iter();
        let spans: Vec<u64> = spans.flat_map(|s| [s.0.into(), s.1.into()]).collect();
        write_front(self.spans_mut(), &spans);
        write_front(self.string_bytes_mut(), &state.string_bytes);
        self.counters[6] = state.spans.len() as u64;
        self.counters[7] = state.string_bytes.len() as u64;
    }

    /// The words that are lent: the block's, the counters, readers'.
    pub fn all_words(&mut self) -> impl Iterator<Item = &mut u64> {
        let readers = self.readers.iter_mut().flat_map(|r| &mut r.words);
        self.words.iter_mut().chain(&mut self.counters).chain(readers)
    }

    /// The bytes that are lent: the block's, the parts of elements.
    pub fn all_bytes(&mut self) -> impl Iterator<Item = &mut u8> {
        let readers = self.readers.iter_mut().flat_map(|r| &mut r.parts);
        self.bytes.iter_mut().chain(readers)
    }

    /// What is lent by name, as numbers.
    fn named(&self) -> Vec<(String, Vec<u64>)> {
        let numbers = |bytes: &[u8]| bytes.iter().copied().map(u64::from).collect();
        let mut lent = vec![
            ("counters".into(), self.counters.into()),
            ("words".into(), self.words.clone()),
            ("bytes".into(), numbers(&self.bytes)),
        ];
        for (n, reader) in self.readers.iter().enumerate() {
            lent.push((format!("words of reader {n}"), reader.words.into()));
            lent.push((format!("parts of reader {n}"), numbers(&reader.parts)));
        }
        lent
    }

    /// Where another storage differs from this one, and how.
    pub fn changes(&self, to: &Self) -> Vec<String> {
        let mut changes = Vec::new();
        if self == to {
            return changes;
        }
        for ((name, from), (_, to)) in self.named().into_iter().zip(to.named()) {
            if from.len() != to.len() {
                changes.push(format!("{name}: {} long for {}", to.len(), from.len()));
            }
            for (n, (from, to)) in from.iter().zip(&to).enumerate() {
                if from != to {
                    changes.push(format!("{name} [{n}]: {to} for {from}"));
                }
            }
        }
        changes.truncate(9);
        changes
    }
}

/// The rows of a kind: rank, place, floor, by rising rank.
fn rows_of(kind: &KindState) -> Vec<[u64; 3]> {
    let live = kind.live.iter().map(|&(id, place)| (id, place as u64));
    let deleted = kind.deleted.iter().map(|&id| (id, DELETED));
    let floors: std::collections::HashMap<i64, i32> = kind.floors.iter().copied().collect();
    let row = |(id, place)| [Judge.osm_id_rank(id), place, word(floors.get(&id).copied())];
    let mut rows: Vec<[u64; 3]> = live.chain(deleted).map(row).collect();
    rows.sort_unstable();
    rows
}

/// A record's head as a direct push gives it.
#[derive(Clone, Copy, Debug, Default, PartialEq, Eq)]
pub struct Head {
    pub id: i64,
    pub lat: i32,
    pub lon: i32,
    pub count: u32,
    pub tags: u32,
}

/// A direct push by its parts. Tag values are bytes: they need not be text.
#[derive(Clone, Debug, PartialEq, Eq)]
pub struct Push {
    pub kind: Kind,
    pub id: i64,
    /// Of a node.
    pub place: (i32, i32),
    /// Of a way.
    pub refs: Vec<i64>,
    /// Of a relation: ref, type byte, role handle.
    pub members: Vec<(i64, u8, u32)>,
    /// Key handle, value.
    pub tags: Vec<(u32, Bytes)>,
    pub meta: Meta,
}

impl Push {
    /// A push of nothing but an id and metadata.
    pub fn plain(kind: Kind, id: i64, meta: Meta) -> Self {
        Self { kind, id, place: (0, 0), refs: Vec::new(), members: Vec::new(), tags: Vec::new(), meta }
    }

    /// The head that counts exactly these parts.
    pub fn head(&self) -> Head {
        Head {
            id: self.id,
            lat: self.place.0,
            lon: self.place.1,
            count: (self.refs.len() + self.members.len()) as u32,
            tags: self.tags.len() as u32,
        }
    }

    /// Refs or members, then tags, as document 01 lays them out.
    pub fn parts(&self) -> Bytes {
        let mut out = Vec::new();
        for id in &self.refs {
            out.extend(id.to_le_bytes());
        }
        for (id, byte, role) in &self.members {
            out.extend(id.to_le_bytes());
            out.push(*byte);
            out.extend(role.to_le_bytes());
        }
        for (key, value) in &self.tags {
            out.extend(key.to_le_bytes());
            out.extend((value.len() as u32).to_le_bytes());
            out.extend(value);
        }
        out
    }

    pub fn call(&self) -> Call {
        Call::Push(self.kind as u8, self.head(), self.meta, self.parts())
    }
}

/// Metadata that claims a version, or claims none.
pub fn claiming(version: Option<i32>) -> Meta {
    Meta { flags: if version.is_some() { 9 } else { 0 }, version: version.unwrap_or(0), ..Meta::default() }
}

/// A call with its arguments; of a push the parts are laid out as in a record.
#[derive(Clone, Debug)]
pub enum Call {
    /// In these sizes, with this regression setting.
    SetUp(Given, u64),
    IsSound,
    Allow(u64),
    Intern(Bytes),
    Push(u8, Head, Meta, Bytes),
    Delete(u8, i64, Meta),
    LiveCount(u8),
    DeletedCount(u8),
    IsEmpty,
    LiveId(u8, u64),
    DeletedId(u8, u64),
    Record(u8, u64),
    Get(u8, i64),
    Has(u8, i64),
    IsDeleted(u8, i64),
    KnownVersion(u8, i64),
    Text(u64),
    /// The live ids of a kind, or the deleted ones, into two lists of so many words.
    LiveIds(u8, usize),
    DeletedIds(u8, usize),
    /// One line with its line feed, or a tail without one, to a reader by its number.
    Event(usize, Bytes),
    /// The whole lines of a run, one after the other, and what is left of it where that is too long for a line.
    Events(usize, Bytes),
    End(usize),
    /// Into so many bytes.
    Listing(usize),
    ListingLength,
}

impl Call {
    /// Whether it changes the overlay where it is accepted.
    pub fn is_change(&self) -> bool {
        use Call::{Allow, Delete, Event, Events, Intern, Push, SetUp};
        matches!(self, SetUp(..) | Allow(_) | Intern(_) | Push(..) | Delete(..) | Event(..) | Events(..))
    }

    /// For a report.
    pub fn shown(&self) -> String {
        let shown = match self {
            Self::Event(reader, line) | Self::Events(reader, line) => {
                let line = String::from_utf8_lossy(&line[..line.len().min(300)]);
                format!("reader {reader}: {line:?}")
            }
            call => format!("{call:02x?}"),
        };
        shown.chars().take(1_200).collect()
    }
}

/// What a call answers: the number first, 0 or a refusal with zeros.
#[derive(Clone, Debug, PartialEq, Eq)]
pub enum Answer {
    /// Of 12 the known version.
    Reply {
        number: u32,
        held: i32,
    },
    /// A handle, a count, a length, the bits of an id, a version or 2^32 for none, 1 or 0.
    Number {
        number: u32,
        value: u64,
    },
    /// Found 1 with where something lies, or found 0.
    Part {
        number: u32,
        found: u32,
        start: usize,
        len: usize,
    },
    Event {
        number: u32,
        held: i32,
        line: u64,
    },
    /// An event's answer for a run, and how many bytes were taken.
    Events {
        number: u32,
        held: i32,
        line: u64,
        taken: usize,
    },
    /// How many ids there are, and all of both lists.
    Lists {
        number: u32,
        value: u64,
        ids: Vec<u64>,
        versions: Vec<u64>,
    },
    /// How long the listing is, and all of the output.
    Listing {
        number: u32,
        len: usize,
        output: Bytes,
    },
}

/// What an output holds before a listing.
pub const UNWRITTEN: u8 = 0xa5;
pub const UNWRITTEN_WORD: u64 = 0xa5a5_a5a5_a5a5_a5a5;

impl Answer {
    pub fn number(&self) -> u32 {
        match *self {
            Self::Reply { number, .. }
            | Self::Number { number, .. }
            | Self::Part { number, .. }
            | Self::Event { number, .. }
            | Self::Events { number, .. }
            | Self::Lists { number, .. }
            | Self::Listing { number, .. } => number,
        }
    }

    pub fn reply(answer: Result<(), (u32, i32)>) -> Self {
        let (number, held) = answer.err().unwrap_or((0, 0));
        Self::Reply { number, held }
    }

    pub fn value(answer: Result<u64, u32>) -> Self {
        let (number, value) = answer.map_or_else(|number| (number, 0), |value| (0, value));
        Self::Number { number, value }
    }

    pub fn part(answer: Result<Option<(u64, u64)>, u32>) -> Self {
        let (number, found) = answer.map_or_else(|number| (number, None), |found| (0, found));
        let (start, len) = found.unwrap_or((0, 0));
        Self::Part { number, found: u32::from(found.is_some()), start: start as usize, len: len as usize }
    }

    /// Ids with their known versions or the refusal, in lists of so many words: 19 where they are too few.
    pub fn lists(size: usize, rows: Result<Vec<(i64, Option<i32>)>, u32>) -> Self {
        let (mut ids, mut versions) = (vec![UNWRITTEN_WORD; size], vec![UNWRITTEN_WORD; size]);
        let rows = rows.and_then(|rows| if rows.len() > size { Err(19) } else { Ok(rows) });
        let (number, value) = rows.as_ref().map_or_else(|number| (*number, 0), |rows| (0, rows.len() as u64));
        for (n, (id, known)) in rows.into_iter().flatten().enumerate() {
            (ids[n], versions[n]) = (id.cast_unsigned(), word(known));
        }
        Self::Lists { number, value, ids, versions }
    }

    /// A listing or its refusal, in so many bytes: 19 where they are too few.
    pub fn listing(size: usize, listing: Result<Bytes, u32>) -> Self {
        let mut output = vec![UNWRITTEN; size];
        let listing = listing.and_then(|l| if l.len() > size { Err(19) } else { Ok(l) });
        let (number, len) = match listing {
            Ok(listing) => {
                write_front(&mut output, &listing);
                (0, listing.len())
            }
            Err(number) => (number, 0),
        };
        Self::Listing { number, len, output }
    }
}

/// A run: what is answered before its first line, 22 or a stop mark, whatever it holds; then its whole lines as events, up to the first that is refused, and what is left of it where that is
/// already too long for a line.
pub(super) fn in_turn(run: &[u8], first: Answer, mut event: impl FnMut(&[u8]) -> Answer) -> Answer {
    let (mut answer, mut taken) = (first, 0);
    let is_event = |line: &&[u8]| line.ends_with(b"\n") || line.len() > LINE_MAX;
    let mut lines = run.split_inclusive(|byte| *byte == b'\n').filter(is_event);
    while answer.number() == 0
        && let Some(line) = lines.next()
    {
        answer = event(line);
        if answer.number() == 0 {
            taken += line.len();
        }
    }
    match answer {
        Answer::Event { number, held, line } => Answer::Events { number, held, line, taken },
        answer => panic!("{answer:?}"),
    }
}

/// The library's calls.
pub trait Port {
    fn call(&self, lent: &mut Storage, call: &Call) -> Answer;
}

/// A floor's word as a version.
pub fn floor_of(word: u64) -> Option<i32> {
    version(word)
}

/// A kind by its number; one above 2 is 17.
pub fn kind_of(number: u8) -> Result<Kind, u32> {
    KINDS.get(usize::from(number)).copied().ok_or(17)
}
