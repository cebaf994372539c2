//! The calls on lent storage by document 01's words alone.

use std::collections::BTreeSet;

use super::call::{Answer, Call, DELETED, Given, Head, NO_FLOOR, Port, Storage, floor_of, kind_of};
use super::words_reader;
use crate::answer::{self, KINDS, Kind, MOST_MEMBERS, MOST_REFS, MOST_TAGS, MOST_VALUE_BYTES, Meta};
use crate::ground::is_text;
use crate::produce::Bytes;

/// A known id as its table holds it.
#[derive(Clone, Copy, Debug, PartialEq, Eq)]
pub struct Row {
    pub rank: u64,
    pub place: u64,
    pub floor: u64,
}

impl Row {
    fn is_live(&self) -> bool {
        self.place < DELETED
    }
}

/// A record, stored or pushed, cut out of bytes.
#[derive(Clone, Debug, PartialEq, Eq)]
pub struct Record<'a> {
    pub head: Head,
    pub meta: Meta,
    pub refs: Vec<i64>,
    /// Ref, type byte and role handle of each member.
    pub members: Vec<(i64, u8, u32)>,
    pub tags: Vec<(u32, &'a [u8])>,
}

/// The largest magnitude of a negative id, which is the last rank before the positive ids.
const NEGATIVES: u64 = 1 << 63;

/// "0, then negatives by growing magnitude, then positives": an id's place among all ids.
pub fn rank(id: i64) -> u64 {
    let before = if id > 0 { NEGATIVES } else { 0 };
    before + id.unsigned_abs()
}

/// The id of a place in OSM order.
pub fn id_of(rank: u64) -> i64 {
    match rank.checked_sub(NEGATIVES) {
        None | Some(0) => 0i64.checked_sub_unsigned(rank).expect("at most 2^63"),
        Some(positive) => positive.cast_signed(),
    }
}

/// The first so many elements, or all where there are fewer.
fn first<T>(all: &[T], count: u64) -> &[T] {
    let count = usize::try_from(count).unwrap_or(usize::MAX);
    &all[..count.min(all.len())]
}

/// The counted rows of a kind, as far as the words go.
pub fn rows(lent: &Storage, kind: Kind) -> Vec<Row> {
    let (rows, _) = lent.table(kind).as_chunks::<3>();
    first(rows, lent.counters[kind as usize]).iter().map(|&[rank, place, floor]| Row { rank, place, floor }).collect()
}

/// The used bytes of a kind's arena.
fn used(lent: &Storage, kind: Kind) -> &[u8] {
    first(lent.arena(kind), lent.counters[3 + kind as usize])
}

/// The held texts by handle, "string spans within the used bytes".
fn texts(lent: &Storage) -> Option<Vec<&[u8]>> {
    let bytes = first(lent.string_bytes(), lent.counters[7]);
    let text = |&[start, len]: &[u64; 2]| {
        let start = usize::try_from(start).ok()?;
        let end = start.checked_add(usize::try_from(len).ok()?)?;
        bytes.get(start..end)
    };
    let (spans, _) = lent.spans().as_chunks::<2>();
    first(spans, lent.counters[6]).iter().map(text).collect()
}

/// While it is 0, regression is refused.
fn refuses_regression(lent: &Storage) -> bool {
    lent.counters[8] == 0
}

/// Bytes from whose front the parts of a record are cut; none where they are cut short.
pub struct Cut<'a>(pub &'a [u8]);

impl<'a> Cut<'a> {
    fn bytes(&mut self, n: usize) -> Option<&'a [u8]> {
        let (part, rest) = self.0.split_at_checked(n)?;
        self.0 = rest;
        Some(part)
    }

    fn number<const N: usize>(&mut self) -> Option<[u8; N]> {
        self.bytes(N)?.try_into().ok()
    }

    pub fn i64(&mut self) -> Option<i64> {
        self.number().map(i64::from_le_bytes)
    }

    fn i32(&mut self) -> Option<i32> {
        self.number().map(i32::from_le_bytes)
    }

    fn u32(&mut self) -> Option<u32> {
        self.number().map(u32::from_le_bytes)
    }

    fn u8(&mut self) -> Option<u8> {
        self.number().map(u8::from_le_bytes)
    }

    /// "node id i64, lat i32, lon i32, tag count u32; way id, ref count, tag count; relation id,
    /// member count, tag count (counts u32)".
    pub fn head(&mut self, kind: Kind) -> Option<Head> {
        let id = self.i64()?;
        let (lat, lon, count) = match kind {
            Kind::Node => (self.i32()?, self.i32()?, 0),
            Kind::Way | Kind::Relation => (0, 0, self.u32()?),
        };
        let tags = self.u32()?;
        Some(Head { id, lat, lon, count, tags })
    }

    /// "flags u8, version i32, timestamp i64, changeset i64, uid i32, user handle u32".
    pub fn meta(&mut self) -> Option<Meta> {
        Some(Meta {
            flags: self.u8()?,
            version: self.i32()?,
            timestamp: self.i64()?,
            changeset: self.i64()?,
            uid: self.i32()?,
            user: self.u32()?,
        })
    }

    /// "ref i64, type u8 .., role handle u32".
    pub fn member(&mut self) -> Option<(i64, u8, u32)> {
        Some((self.i64()?, self.u8()?, self.u32()?))
    }

    /// "key handle u32, length u32, bytes".
    pub fn tag(&mut self) -> Option<(u32, &'a [u8])> {
        let (key, len) = (self.u32()?, self.u32()?);
        Some((key, self.bytes(len as usize)?))
    }

    /// "Then refs (i64), or members of 13 bytes .., then tags", as many as the head counts.
    fn parts(&mut self, kind: Kind, head: &Head, meta: Meta) -> Option<Record<'a>> {
        let mut record = Record { head: *head, meta, refs: Vec::new(), members: Vec::new(), tags: Vec::new() };
        let count = if kind == Kind::Node { 0 } else { head.count };
        for _ in 0..count {
            match kind {
                Kind::Relation => record.members.push(self.member()?),
                _ => record.refs.push(self.i64()?),
            }
        }
        for _ in 0..head.tags {
            record.tags.push(self.tag()?);
        }
        Some(record)
    }

    fn record(&mut self, kind: Kind) -> Option<Record<'a>> {
        let head = self.head(kind)?;
        let meta = self.meta()?;
        self.parts(kind, &head, meta)
    }
}

/// A direct push's record: none where its parts "are cut short, or not as many as it counts".
pub fn pushed<'a>(kind: Kind, head: &Head, meta: &Meta, parts: &'a [u8]) -> Option<Record<'a>> {
    let mut rest = Cut(parts);
    let record = rest.parts(kind, head, *meta)?;
    rest.0.is_empty().then_some(record)
}

/// The record that starts at a place of a kind's used bytes, and its length.
fn record_at(lent: &Storage, kind: Kind, place: u64) -> Option<(Record<'_>, usize)> {
    let from = used(lent, kind).get(usize::try_from(place).ok()?..)?;
    let mut rest = Cut(from);
    let record = rest.record(kind)?;
    Some((record, from.len() - rest.0.len()))
}

/// "ids 1 to 4,096 a kind, arena 0 to 1,048,576 bytes a kind, strings 1 to 4,096, string bytes 0 to
/// 65,536".
fn in_range(sizes: &Given) -> bool {
    let least = [1, 1, 1, 0, 0, 0, 1, 0];
    let most = [4_096, 4_096, 4_096, 1_048_576, 1_048_576, 1_048_576, 4_096, 65_536];
    sizes.iter().zip(least).zip(most).all(|((size, least), most)| (least..=most).contains(size))
}

/// The parts are all of the blocks: three words an id, two a string.
fn tile(sizes: &Given, words: usize, bytes: usize) -> bool {
    let [a, b, c, d, e, f, strings, string_bytes] = sizes.map(u128::from);
    3 * (a + b + c) + 2 * strings == words as u128 && d + e + f + string_bytes == bytes as u128
}

/// What set-up takes; a later call with other sizes behind the counters, or in other blocks, is unsound.
pub fn sizes_fit(sizes: &Given, words: usize, bytes: usize) -> bool {
    in_range(sizes) && tile(sizes, words, bytes)
}

/// "counts within lent sizes".
fn counts_fit(lent: &Storage) -> bool {
    lent.counters.iter().zip(lent.given()).all(|(&count, size)| count <= size)
}

/// 17 of metadata: "1 present, 2 hidden, 4 has user, 8 has version; the last three need 1", "a field
/// not given is 0", "every handle held".
pub fn meta_is_legal(meta: &Meta, strings: u64) -> bool {
    let flag = |bit: u8| meta.flags & bit != 0;
    let others = meta.timestamp == 0 && meta.changeset == 0 && meta.uid == 0;
    (meta.flags == 0 || (meta.flags <= 15 && flag(1)))
        && (flag(8) || meta.version == 0)
        && (flag(1) || others)
        && (flag(4) || meta.user == 0)
        && u64::from(meta.user) < strings
}

/// "17 flags, handle or type byte not as above, or an unflagged field not 0; then 3, 10, 16".
pub fn first_fault(kind: Kind, record: &Record, strings: u64) -> Result<(), u32> {
    let held = |handle: u32| u64::from(handle) < strings;
    let (mut members, mut tags) = (record.members.iter(), record.tags.iter());
    let legal =
        meta_is_legal(&record.meta, strings) && members.all(|m| m.1 <= 2 && held(m.2)) && tags.all(|tag| held(tag.0));
    let (lat, lon) = (record.head.lat.unsigned_abs(), record.head.lon.unsigned_abs());
    let value_bytes: usize = record.tags.iter().map(|tag| tag.1.len()).sum();
    if !legal {
        Err(17)
    } else if !record.tags.iter().all(|tag| is_text(tag.1)) {
        Err(3)
    } else if kind == Kind::Node && (lat > 900_000_000 || lon > 1_800_000_000) {
        Err(10)
    } else if record.tags.len() > MOST_TAGS
        || record.refs.len() > MOST_REFS
        || record.members.len() > MOST_MEMBERS
        || value_bytes > MOST_VALUE_BYTES
    {
        Err(16)
    } else {
        Ok(())
    }
}

/// Start and id of each record of a kind: "each arena's used bytes whole records that pass 3, 10, 16,
/// 17, end to end".
fn whole_records(lent: &Storage, kind: Kind) -> Option<BTreeSet<(u64, i64)>> {
    let used = used(lent, kind);
    let mut rest = Cut(used);
    let mut records = BTreeSet::new();
    while !rest.0.is_empty() {
        let start = (used.len() - rest.0.len()) as u64;
        let record = rest.record(kind)?;
        first_fault(kind, &record, lent.counters[6]).ok()?;
        records.insert((start, record.head.id));
    }
    Some(records)
}

/// "legal text, no two texts equal, handle 0 empty".
fn strings_are_sound(lent: &Storage) -> bool {
    texts(lent).is_some_and(|texts| {
        texts.iter().all(|text| is_text(text))
            && texts.iter().collect::<BTreeSet<_>>().len() == texts.len()
            && texts.first().is_some_and(|text| text.is_empty())
    })
}

/// "known ids strictly in OSM order, each live with an offset where a record of that id starts, or
/// deleted".
fn kind_is_sound(lent: &Storage, kind: Kind) -> bool {
    let rows = rows(lent, kind);
    let starts =
        |row: &Row, records: &BTreeSet<(u64, i64)>| !row.is_live() || records.contains(&(row.place, id_of(row.rank)));
    whole_records(lent, kind).is_some_and(|records| {
        rows.windows(2).all(|pair| pair[0].rank < pair[1].rank) && rows.iter().all(|row| starts(row, &records))
    })
}

/// Document 01's list, of the overlay.
pub fn is_sound(lent: &Storage) -> bool {
    sizes_fit(&lent.given(), lent.words.len(), lent.bytes.len())
        && counts_fit(lent)
        && strings_are_sound(lent)
        && KINDS.iter().all(|&kind| kind_is_sound(lent, kind))
}

fn row_of(lent: &Storage, kind: Kind, id: i64) -> Option<Row> {
    let mut rows = rows(lent, kind).into_iter();
    rows.find(|row| row.rank == rank(id))
}

/// The version that metadata claims.
pub fn claim(meta: &Meta) -> Option<i32> {
    (meta.flags & 8 != 0).then_some(meta.version)
}

/// "the larger of the live record's version and the floor, or the one that exists".
fn known(lent: &Storage, kind: Kind, id: i64) -> Option<i32> {
    let row = row_of(lent, kind, id)?;
    let live = row.is_live().then(|| record_at(lent, kind, row.place));
    let version = live.flatten().and_then(|(record, _)| claim(&record.meta));
    version.max(floor_of(row.floor))
}

/// 12: a claim strictly below the known version, while regression is refused.
pub fn admitted(lent: &Storage, kind: Kind, id: i64, claim: Option<i32>) -> Result<(), (u32, i32)> {
    match (claim, known(lent, kind, id)) {
        (Some(claim), Some(held)) if claim < held && refuses_regression(lent) => Err((12, held)),
        _ => Ok(()),
    }
}

/// 14: "new id, ids full".
fn has_room(lent: &Storage, kind: Kind, id: i64) -> Result<(), (u32, i32)> {
    let full = rows(lent, kind).len() == lent.table(kind).len() / 3;
    if full && row_of(lent, kind, id).is_none() {
        return Err((14, 0));
    }
    Ok(())
}

/// A row over that of its rank, or as a new one in its place; the words past the rows stay.
fn set_row(lent: &mut Storage, kind: Kind, row: Row) {
    let rows = rows(lent, kind);
    let place = rows.iter().filter(|r| r.rank < row.rank).count();
    let is_new = rows.iter().all(|r| r.rank != row.rank);
    let table = lent.table_mut(kind);
    if is_new {
        table.copy_within(3 * place..3 * rows.len(), 3 * place + 3);
    }
    table[3 * place..3 * place + 3].copy_from_slice(&[row.rank, row.place, row.floor]);
    lent.counters[kind as usize] += u64::from(is_new);
}

/// A record as it is stored: head, metadata, parts.
pub fn record_bytes(kind: Kind, head: &Head, meta: &Meta, parts: &[u8]) -> Bytes {
    let mut bytes = head.id.to_le_bytes().to_vec();
    match kind {
        Kind::Node => {
            bytes.extend(head.lat.to_le_bytes());
            bytes.extend(head.lon.to_le_bytes());
        }
        Kind::Way | Kind::Relation => bytes.extend(head.count.to_le_bytes()),
    }
    bytes.extend(head.tags.to_le_bytes());
    bytes.push(meta.flags);
    bytes.extend(meta.version.to_le_bytes());
    bytes.extend(meta.timestamp.to_le_bytes());
    bytes.extend(meta.changeset.to_le_bytes());
    bytes.extend(meta.uid.to_le_bytes());
    bytes.extend(meta.user.to_le_bytes());
    bytes.extend(parts);
    bytes
}

/// A version as a floor's word.
fn word(version: Option<i32>) -> u64 {
    version.map_or(NO_FLOOR, |version| u64::from(version.cast_unsigned()))
}

/// 12, 14, 15; then the record joined to the used bytes and its id live. "A push without one carries
/// the known version into the floor, only while regression is refused."
pub fn store_push(lent: &mut Storage, kind: Kind, head: &Head, meta: &Meta, parts: &[u8]) -> Result<(), (u32, i32)> {
    admitted(lent, kind, head.id, claim(meta))?;
    has_room(lent, kind, head.id)?;
    let carries = claim(meta).is_none() && refuses_regression(lent);
    let floor = if carries {
        word(known(lent, kind, head.id))
    } else {
        row_of(lent, kind, head.id).map_or(NO_FLOOR, |row| row.floor)
    };
    let record = record_bytes(kind, head, meta, parts);
    let place = used(lent, kind).len();
    let rest = &mut lent.arena_mut(kind)[place..];
    let to = rest.get_mut(..record.len()).ok_or((15, 0))?;
    to.copy_from_slice(&record);
    lent.counters[3 + kind as usize] = (place + record.len()) as u64;
    let (rank, place) = (rank(head.id), place as u64);
    set_row(lent, kind, Row { rank, place, floor });
    Ok(())
}

/// 12, 14; then the id deleted, its floor "the larger of the known version and its own, or the one
/// that exists".
pub fn store_delete(lent: &mut Storage, kind: Kind, id: i64, meta: &Meta) -> Result<(), (u32, i32)> {
    admitted(lent, kind, id, claim(meta))?;
    has_room(lent, kind, id)?;
    let row = Row { rank: rank(id), place: DELETED, floor: word(known(lent, kind, id).max(claim(meta))) };
    set_row(lent, kind, row);
    Ok(())
}

/// The handle of an equal text already held, else the next one with the text behind the used bytes;
/// or 13.
pub fn store_text(lent: &mut Storage, text: &[u8]) -> Result<u32, u32> {
    let texts = texts(lent).ok_or(22u32)?;
    if let Some(handle) = texts.iter().position(|held| *held == text) {
        return Ok(handle as u32);
    }
    let (handle, start) = (texts.len(), lent.counters[7] as usize);
    if handle == lent.spans().len() / 2 || text.len() > lent.string_bytes().len() - start {
        return Err(13);
    }
    lent.spans_mut()[2 * handle..][..2].copy_from_slice(&[start as u64, text.len() as u64]);
    lent.string_bytes_mut()[start..][..text.len()].copy_from_slice(text);
    lent.counters[6] = handle as u64 + 1;
    lent.counters[7] = (start + text.len()) as u64;
    Ok(handle as u32)
}

/// "21 number not below its list's count": of the live rows of a kind, or of the deleted ones.
fn nth(lent: &Storage, kind: Kind, live: bool, n: u64) -> Result<Row, u32> {
    let mut listed = rows(lent, kind).into_iter();
    let n = usize::try_from(n).unwrap_or(usize::MAX);
    let mut listed = listed.by_ref().filter(|row| row.is_live() == live);
    listed.nth(n).ok_or(21)
}

/// "from its offset to that record's end".
fn view(lent: &Storage, kind: Kind, row: &Row) -> Option<(u64, u64)> {
    let (_, len) = record_at(lent, kind, row.place)?;
    Some((row.place, len as u64))
}

/// The lines of the listing.
fn listing(lent: &Storage) -> Bytes {
    let texts = texts(lent).expect("sound");
    let text = |bytes: &[u8]| std::str::from_utf8(bytes).expect("sound").to_owned();
    let held = |handle: u32| text(texts[handle as usize]);
    let mut out = String::new();
    for kind in KINDS {
        for row in rows(lent, kind) {
            let id = id_of(row.rank);
            let stored = row.is_live().then(|| record_at(lent, kind, row.place));
            let record = stored.flatten().map(|(r, len)| answer::Record {
                id,
                flags: r.meta.flags,
                version: r.meta.version,
                timestamp: r.meta.timestamp,
                changeset: r.meta.changeset,
                uid: r.meta.uid,
                user: held(r.meta.user),
                visible: r.meta.flags & 2 == 0,
                place: (kind == Kind::Node).then_some((r.head.lat, r.head.lon)),
                refs: r.refs,
                members: r.members.iter().map(|m| (m.1, m.0, held(m.2))).collect(),
                tags: r.tags.iter().map(|t| (held(t.0), text(t.1))).collect(),
                view: Vec::new(),
                len,
            });
            answer::list_one(&mut out, kind, id, known(lent, kind, id), record.as_ref());
        }
    }
    out.into_bytes()
}

/// Document 01's words.
#[derive(Clone, Copy, Debug, Default)]
pub struct Words {
    /// Whether the overlay is sound, where it is known already.
    pub told: Option<bool>,
}

impl Words {
    /// 22 first.
    pub(super) fn checked(&self, lent: &Storage) -> Result<(), u32> {
        let sound = self.told.unwrap_or_else(|| is_sound(lent));
        if sound { Ok(()) } else { Err(22) }
    }

    /// 22 first, then 17 for a number that means no kind.
    fn asked(&self, lent: &Storage, kind: u8) -> Result<Kind, u32> {
        self.checked(lent)?;
        kind_of(kind)
    }

    /// 1, or no id, no record and the empty text alone; and the sizes behind the counters.
    fn set_up(lent: &mut Storage, sizes: &Given, setting: u64) -> Result<(), (u32, i32)> {
        if !sizes_fit(sizes, lent.words.len(), lent.bytes.len()) {
            return Err((1, 0));
        }
        lent.counters[..9].copy_from_slice(&[0, 0, 0, 0, 0, 0, 1, 0, setting]);
        lent.give(sizes);
        lent.spans_mut()[..2].fill(0);
        Ok(())
    }

    /// 22; 17, 3, 10, 16; 12, 14, 15.
    fn push(&self, lent: &mut Storage, kind: u8, head: &Head, meta: &Meta, parts: &[u8]) -> Result<(), (u32, i32)> {
        let plain = |number: u32| (number, 0);
        let kind = self.asked(lent, kind).map_err(plain)?;
        let record = pushed(kind, head, meta, parts).ok_or((17, 0))?;
        first_fault(kind, &record, lent.counters[6]).map_err(plain)?;
        store_push(lent, kind, head, meta, parts)
    }

    /// 22; 17; 12, 14.
    fn delete(&self, lent: &mut Storage, kind: u8, id: i64, meta: &Meta) -> Result<(), (u32, i32)> {
        let kind = self.asked(lent, kind).map_err(|number| (number, 0))?;
        if !meta_is_legal(meta, lent.counters[6]) {
            return Err((17, 0));
        }
        store_delete(lent, kind, id, meta)
    }

    /// 22, 3, 13.
    fn intern(&self, lent: &mut Storage, text: &[u8]) -> Result<u64, u32> {
        self.checked(lent)?;
        if !is_text(text) {
            return Err(3);
        }
        store_text(lent, text).map(u64::from)
    }

    /// What is read of a row, or of an id without one.
    fn of_id(&self, lent: &Storage, kind: u8, id: i64, read: impl FnOnce(Option<Row>) -> bool) -> Answer {
        let kind = self.asked(lent, kind);
        Answer::value(kind.map(|kind| u64::from(read(row_of(lent, kind, id)))))
    }

    fn count(&self, lent: &Storage, kind: u8, live: bool) -> Answer {
        let counted = |kind| rows(lent, kind).iter().filter(|r| r.is_live() == live).count();
        Answer::value(self.asked(lent, kind).map(|kind| counted(kind) as u64))
    }

    fn nth_id(&self, lent: &Storage, kind: u8, live: bool, n: u64) -> Answer {
        let kind = self.asked(lent, kind);
        let row = kind.and_then(|kind| nth(lent, kind, live, n));
        Answer::value(row.map(|row| id_of(row.rank).cast_unsigned()))
    }

    /// The live ids of a kind or the deleted ones, each with its known version.
    fn known_ids(&self, lent: &Storage, kind: u8, live: bool) -> Result<Vec<(i64, Option<i32>)>, u32> {
        let kind = self.asked(lent, kind)?;
        let ids = rows(lent, kind).into_iter().filter(|row| row.is_live() == live).map(|row| id_of(row.rank));
        Ok(ids.map(|id| (id, known(lent, kind, id))).collect())
    }

    /// "contains no data at all": no id of any kind, live or deleted.
    fn is_empty(&self, lent: &Storage) -> Result<u64, u32> {
        self.checked(lent)?;
        Ok(u64::from(KINDS.iter().all(|&kind| rows(lent, kind).is_empty())))
    }

    fn record(&self, lent: &Storage, kind: u8, n: u64) -> Result<Option<(u64, u64)>, u32> {
        let kind = self.asked(lent, kind)?;
        Ok(view(lent, kind, &nth(lent, kind, true, n)?))
    }

    fn get(&self, lent: &Storage, kind: u8, id: i64) -> Result<Option<(u64, u64)>, u32> {
        let kind = self.asked(lent, kind)?;
        let row = row_of(lent, kind, id).filter(Row::is_live);
        Ok(row.and_then(|row| view(lent, kind, &row)))
    }

    fn text(&self, lent: &Storage, handle: u64) -> Result<Option<(u64, u64)>, u32> {
        self.checked(lent)?;
        let (spans, _) = lent.spans().as_chunks::<2>();
        let handle = usize::try_from(handle).unwrap_or(usize::MAX);
        let span = first(spans, lent.counters[6]).get(handle).ok_or(21u32)?;
        Ok(Some((span[0], span[1])))
    }
}

impl Port for Words {
    fn call(&self, lent: &mut Storage, call: &Call) -> Answer {
        let plain = |answer: Result<(), u32>| Answer::reply(answer.map_err(|n| (n, 0)));
        match call {
            Call::SetUp(sizes, setting) => Answer::reply(Self::set_up(lent, sizes, *setting)),
            Call::IsSound => plain(self.checked(lent)),
            Call::Allow(setting) => {
                let sound = self.checked(lent);
                if sound.is_ok() {
                    lent.counters[8] = *setting;
                }
                plain(sound)
            }
            Call::Intern(text) => Answer::value(self.intern(lent, text)),
            Call::Push(kind, head, meta, parts) => Answer::reply(self.push(lent, *kind, head, meta, parts)),
            Call::Delete(kind, id, meta) => Answer::reply(self.delete(lent, *kind, *id, meta)),
            Call::LiveCount(kind) => self.count(lent, *kind, true),
            Call::DeletedCount(kind) => self.count(lent, *kind, false),
            Call::IsEmpty => Answer::value(self.is_empty(lent)),
            Call::LiveId(kind, n) => self.nth_id(lent, *kind, true, *n),
            Call::DeletedId(kind, n) => self.nth_id(lent, *kind, false, *n),
            Call::Record(kind, n) => Answer::part(self.record(lent, *kind, *n)),
            Call::Get(kind, id) => Answer::part(self.get(lent, *kind, *id)),
            Call::Has(kind, id) => self.of_id(lent, *kind, *id, |r| r.is_some_and(|r| r.is_live())),
            Call::IsDeleted(kind, id) => self.of_id(lent, *kind, *id, |r| r.is_some_and(|r| !r.is_live())),
            Call::KnownVersion(kind, id) => {
                let kind = self.asked(lent, *kind);
                Answer::value(kind.map(|kind| word(known(lent, kind, *id))))
            }
            Call::Text(handle) => Answer::part(self.text(lent, *handle)),
            Call::LiveIds(kind, size) => Answer::lists(*size, self.known_ids(lent, *kind, true)),
            Call::DeletedIds(kind, size) => Answer::lists(*size, self.known_ids(lent, *kind, false)),
            Call::Event(reader, line) => words_reader::event(self, lent, *reader, line),
            Call::Events(reader, run) => words_reader::events(self, lent, *reader, run),
            Call::End(reader) => words_reader::end(self, lent, *reader),
            Call::Listing(size) => Answer::listing(*size, self.checked(lent).map(|()| listing(lent))),
            Call::ListingLength => Answer::value(self.checked(lent).map(|()| listing(lent).len() as u64)),
        }
    }
}
