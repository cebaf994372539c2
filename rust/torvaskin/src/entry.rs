//! The C entries, one safe function each: numbers and borrowed slices in, the entry's own reply out. All of the crate's unsafe code is here.
//!
//! What a caller owes at the C boundary is seen to by the types: a slice's pointer is valid for its length, aligned and never null, that of an
//! empty slice too; counters, a reader's words and its staged bytes are arrays of their lengths; what may be written is borrowed for that
//! alone, so it lies apart from all else that is handed over, and nothing else touches it while the call runs.

#![allow(unsafe_code)]

use crate::blocks::{Blocks, Lent, Shared};
use crate::ffi;
pub use crate::ffi::{
    ArenaMeta, Cursor, EventReply, EventsReply, HeadReply, KindSize, ListingReply, MemberReply, MetaReply, Number,
    OsmIdKey, Part, Places, PushHead, RefReply, Reply, Sizes, TagReply, Text, TextsReply,
};
use crate::file::{FILE_BYTES, FILE_WORDS};
use crate::reader::STAGED;

fn read<T>(part: &[T]) -> (*const T, usize) {
    (part.as_ptr(), part.len())
}

fn write<T>(part: &mut [T]) -> (*mut T, usize) {
    let len = part.len();
    (part.as_mut_ptr(), len)
}

/// Calls an entry with the lent blocks, then its own arguments.
macro_rules! entry {
    ($name:ident, $lend:ident, $blocks:expr $(, $own:expr)*) => {{
        let Blocks { words, bytes, counters } = $blocks;
        let ((words, words_len), (bytes, bytes_len)) = ($lend(words), $lend(bytes));
        // SAFETY: the blocks are borrowed, to be written where the entry may write, so they are valid and apart; so are its own arguments.
        unsafe { ffi::$name(words, words_len, bytes, bytes_len, counters $(, $own)*) }
    }};
}

pub fn set_up(blocks: Lent<'_>, sizes: Sizes, setting: u64) -> Reply {
    entry!(tvk_set_up, write, blocks, sizes, setting)
}

pub fn is_sound(blocks: Shared<'_>) -> Reply {
    entry!(tvk_is_sound, read, blocks)
}

pub fn allow_version_regression(blocks: Lent<'_>, setting: u64) -> Reply {
    entry!(tvk_allow_version_regression, write, blocks, setting)
}

pub fn intern(blocks: Lent<'_>, text: &[u8]) -> Text {
    entry!(tvk_intern, write, blocks, text.as_ptr(), text.len())
}

pub fn intern_texts(blocks: Lent<'_>, texts: &[u8], lengths: &[usize], handles: &mut [u64]) -> TextsReply {
    let ((texts, texts_len), (lengths, lengths_len)) = (read(texts), read(lengths));
    let (handles, handles_len) = write(handles);
    entry!(tvk_intern_texts, write, blocks, texts, texts_len, lengths, lengths_len, handles, handles_len)
}

pub fn push(blocks: Lent<'_>, kind: u8, head: PushHead, meta: ArenaMeta, own: &[u8]) -> Reply {
    entry!(tvk_push, write, blocks, kind, head, meta, own.as_ptr(), own.len())
}

pub fn delete(blocks: Lent<'_>, kind: u8, id: i64, meta: ArenaMeta) -> Reply {
    entry!(tvk_delete, write, blocks, kind, id, meta)
}

pub fn live_count(blocks: Shared<'_>, kind: u8) -> Number {
    entry!(tvk_live_count, read, blocks, kind)
}

pub fn deleted_count(blocks: Shared<'_>, kind: u8) -> Number {
    entry!(tvk_deleted_count, read, blocks, kind)
}

pub fn is_empty(blocks: Shared<'_>) -> Number {
    entry!(tvk_is_empty, read, blocks)
}

pub fn live_id(blocks: Shared<'_>, kind: u8, n: u64) -> Number {
    entry!(tvk_live_id, read, blocks, kind, n)
}

pub fn deleted_id(blocks: Shared<'_>, kind: u8, n: u64) -> Number {
    entry!(tvk_deleted_id, read, blocks, kind, n)
}

pub fn live_ids(blocks: Shared<'_>, kind: u8, ids: &mut [u64], versions: &mut [u64]) -> Number {
    let ((ids, ids_len), (versions, versions_len)) = (write(ids), write(versions));
    entry!(tvk_live_ids, read, blocks, kind, ids, ids_len, versions, versions_len)
}

pub fn deleted_ids(blocks: Shared<'_>, kind: u8, ids: &mut [u64], versions: &mut [u64]) -> Number {
    let ((ids, ids_len), (versions, versions_len)) = (write(ids), write(versions));
    entry!(tvk_deleted_ids, read, blocks, kind, ids, ids_len, versions, versions_len)
}

pub fn record(blocks: Shared<'_>, kind: u8, n: u64) -> Part {
    entry!(tvk_record, read, blocks, kind, n)
}

pub fn get(blocks: Shared<'_>, kind: u8, id: i64) -> Part {
    entry!(tvk_get, read, blocks, kind, id)
}

pub fn has(blocks: Shared<'_>, kind: u8, id: i64) -> Number {
    entry!(tvk_has, read, blocks, kind, id)
}

pub fn is_deleted(blocks: Shared<'_>, kind: u8, id: i64) -> Number {
    entry!(tvk_is_deleted, read, blocks, kind, id)
}

pub fn known_version(blocks: Shared<'_>, kind: u8, id: i64) -> Number {
    entry!(tvk_known_version, read, blocks, kind, id)
}

pub fn text(blocks: Shared<'_>, handle: u64) -> Part {
    entry!(tvk_text, read, blocks, handle)
}

pub fn listing(blocks: Shared<'_>, out: &mut [u8]) -> ListingReply {
    let (out, out_len) = write(out);
    entry!(tvk_listing, read, blocks, out, out_len)
}

pub fn listing_length(blocks: Shared<'_>) -> ListingReply {
    entry!(tvk_listing_length, read, blocks)
}

pub fn event(blocks: Lent<'_>, reader: &mut [u64; 19], staged: &mut [u8; STAGED], line: &[u8]) -> EventReply {
    entry!(tvk_event, write, blocks, reader, staged, line.as_ptr(), line.len())
}

pub fn events(blocks: Lent<'_>, reader: &mut [u64; 19], staged: &mut [u8; STAGED], run: &[u8]) -> EventsReply {
    entry!(tvk_events, write, blocks, reader, staged, run.as_ptr(), run.len())
}

pub fn end(blocks: Shared<'_>, reader: &[u64; 19], staged: &[u8; STAGED]) -> EventReply {
    entry!(tvk_end, read, blocks, reader, staged)
}

/// What a reader of files lends beside its overlay: a reader's words and staged bytes, its own words and its own bytes.
pub struct FileParts<'a> {
    pub reader: &'a mut [u64; 19],
    pub staged: &'a mut [u8; STAGED],
    pub words: &'a mut [u64; FILE_WORDS],
    pub bytes: &'a mut [u8; FILE_BYTES],
}

pub fn file_piece(blocks: Lent<'_>, file: FileParts<'_>, piece: &[u8]) -> EventReply {
    entry!(tvk_file_piece, write, blocks, file.reader, file.staged, file.words, file.bytes, piece.as_ptr(), piece.len())
}

pub fn file_end(
    blocks: Shared<'_>,
    reader: &[u64; 19],
    staged: &[u8; STAGED],
    words: &[u64; FILE_WORDS],
    bytes: &[u8; FILE_BYTES],
) -> EventReply {
    entry!(tvk_file_end, read, blocks, reader, staged, words, bytes)
}

/// Calls an entry on numbers and slices that it only reads.
macro_rules! plain {
    ($name:ident($($own:expr),*)) => {
        // SAFETY: numbers, and slices that are borrowed.
        unsafe { ffi::$name($($own),*) }
    };
}

pub fn record_head(kind: u8, record: &[u8]) -> HeadReply {
    plain!(tvk_record_head(kind, record.as_ptr(), record.len()))
}

pub fn record_meta(kind: u8, record: &[u8]) -> MetaReply {
    plain!(tvk_record_meta(kind, record.as_ptr(), record.len()))
}

pub fn record_ref(record: &[u8], offset: usize, remaining: u32) -> RefReply {
    plain!(tvk_record_ref(record.as_ptr(), record.len(), offset, remaining))
}

pub fn record_member(record: &[u8], offset: usize, remaining: u32) -> MemberReply {
    plain!(tvk_record_member(record.as_ptr(), record.len(), offset, remaining))
}

pub fn record_tag(record: &[u8], offset: usize, remaining: u32) -> TagReply {
    plain!(tvk_record_tag(record.as_ptr(), record.len(), offset, remaining))
}

pub fn range_overlaps(live: &[i64], deleted: &[i64], min: i64, max: i64) -> Number {
    plain!(tvk_range_overlaps(live.as_ptr().cast(), live.len(), deleted.as_ptr().cast(), deleted.len(), min, max))
}

pub fn upsert_range(ids: &[i64], first: i64, last: i64) -> Places {
    plain!(tvk_upsert_range(ids.as_ptr().cast(), ids.len(), first, last))
}

pub fn seek_find(ids: &[i64], place: usize, id: i64) -> Cursor {
    plain!(tvk_seek_find(ids.as_ptr().cast(), ids.len(), place, id))
}

pub fn osm_id_key(id: i64) -> OsmIdKey {
    plain!(tvk_osm_id_key(id))
}

pub fn osm_id_cmp(a: i64, b: i64) -> u8 {
    plain!(tvk_osm_id_cmp(a, b))
}

pub fn blob_osm_first_key(min: i64, max: i64) -> OsmIdKey {
    plain!(tvk_blob_osm_first_key(min, max))
}

pub fn blob_osm_last_key(min: i64, max: i64) -> OsmIdKey {
    plain!(tvk_blob_osm_last_key(min, max))
}

pub fn osm_id_rank(id: i64) -> u64 {
    plain!(tvk_osm_id_rank(id))
}

pub fn version_admit(floor: u64, claim: u64) -> Reply {
    plain!(tvk_version_admit(floor, claim))
}

pub fn version_raise(floor: u64, claim: u64) -> u64 {
    plain!(tvk_version_raise(floor, claim))
}

pub fn read_i64(s: &[u8]) -> Number {
    plain!(tvk_read_i64(s.as_ptr(), s.len()))
}

pub fn read_i32(s: &[u8]) -> Number {
    plain!(tvk_read_i32(s.as_ptr(), s.len()))
}

pub fn parse_rfc3339_utc(s: &[u8]) -> Number {
    plain!(tvk_parse_rfc3339_utc(s.as_ptr(), s.len()))
}

pub fn is_text(s: &[u8]) -> u8 {
    plain!(tvk_is_text(s.as_ptr(), s.len()))
}
