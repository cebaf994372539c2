//! The library's C entries and their types, as the sources export them, one declaration a line. A slice is its pointer, then its length.
//! Signed numbers in heads and metadata cross as their bits.

/// The canonical-order key of an id: class 0 for zero, 1 for a negative id, 2 for a positive one; and the magnitude.
#[repr(C)]
#[derive(Clone, Copy, Debug, PartialEq, Eq, PartialOrd, Ord)]
pub struct OsmIdKey {
    /// 0, 1 or 2.
    pub class: u8,
    /// The id without its sign.
    pub magnitude: u64,
}

/// 0, or a refusal's number, with the known version for 12.
#[repr(C)]
#[derive(Clone, Copy, Debug, PartialEq, Eq)]
pub struct Reply {
    pub number: u32,
    pub held: i32,
}

/// 0 with the bits of a value at its width, or a refusal's number with 0.
#[repr(C)]
#[derive(Clone, Copy, Debug, PartialEq, Eq)]
pub struct Number {
    pub number: u32,
    pub value: u64,
}

/// 0 with the first place and one past the last, or 20 with 0 and 0.
#[repr(C)]
#[derive(Clone, Copy, Debug, PartialEq, Eq)]
pub struct Places {
    pub number: u32,
    pub from: usize,
    pub to: usize,
}

/// 0 or 20; where an id was found and where the cursor stands. A word from 2^63 on is no place.
#[repr(C)]
#[derive(Clone, Copy, Debug, PartialEq, Eq)]
pub struct Cursor {
    pub number: u32,
    pub found: usize,
    pub place: usize,
}

/// 0 with a handle, or a refusal's number with 0.
#[repr(C)]
#[derive(Clone, Copy, Debug, PartialEq, Eq)]
pub struct Text {
    pub number: u32,
    pub handle: u64,
}

/// 0 or a refusal's number; and how many texts were taken in.
#[repr(C)]
#[derive(Clone, Copy, Debug, PartialEq, Eq)]
pub struct TextsReply {
    pub number: u32,
    pub taken: usize,
}

/// 0 and found 1 with where something lies, 0 and found 0 for nothing, or a refusal's number.
#[repr(C)]
#[derive(Clone, Copy, Debug, PartialEq, Eq)]
pub struct Part {
    pub number: u32,
    pub found: u32,
    pub start: usize,
    pub len: usize,
}

/// The head of a push, in bits.
#[repr(C)]
#[derive(Clone, Copy, Debug, Default, PartialEq, Eq)]
pub struct PushHead {
    pub id: u64,
    pub lat: u32,
    pub lon: u32,
    pub count: u32,
    pub tags: u32,
}

/// Metadata, in bits.
#[repr(C)]
#[derive(Clone, Copy, Debug, Default, PartialEq, Eq)]
pub struct ArenaMeta {
    pub flags: u8,
    pub version: u32,
    pub timestamp: u64,
    pub changeset: u64,
    pub uid: u32,
    pub user: u32,
}

/// 0 with a record's head, where its refs or members begin and where its tags do; or a refusal's number with zeros.
#[repr(C)]
#[derive(Clone, Copy, Debug, PartialEq, Eq)]
pub struct HeadReply {
    pub number: u32,
    pub head: PushHead,
    pub parts_at: usize,
    pub tags_at: usize,
}

/// 0 with its metadata, or a refusal's number with zeros.
#[repr(C)]
#[derive(Clone, Copy, Debug, PartialEq, Eq)]
pub struct MetaReply {
    pub number: u32,
    pub meta: ArenaMeta,
}

/// 0 and found 1 with a ref and the offset of the next, 0 and found 0 where none remains, or a refusal's number.
#[repr(C)]
#[derive(Clone, Copy, Debug, PartialEq, Eq)]
pub struct RefReply {
    pub number: u32,
    pub found: u32,
    pub value: u64,
    pub next: usize,
}

/// The same with a member.
#[repr(C)]
#[derive(Clone, Copy, Debug, PartialEq, Eq)]
pub struct MemberReply {
    pub number: u32,
    pub found: u32,
    pub reference: u64,
    pub kind: u8,
    pub role: u32,
    pub next: usize,
}

/// The same with a tag, whose value ends where the next one stands.
#[repr(C)]
#[derive(Clone, Copy, Debug, PartialEq, Eq)]
pub struct TagReply {
    pub number: u32,
    pub found: u32,
    pub key: u32,
    pub start: usize,
    pub len: usize,
}

/// The lent sizes of a kind: rows of its id table, bytes of its arena.
#[repr(C)]
#[derive(Clone, Copy, Debug, PartialEq, Eq)]
pub struct KindSize {
    pub ids: u64,
    pub bytes: u64,
}

/// The lent sizes.
#[repr(C)]
#[derive(Clone, Copy, Debug, PartialEq, Eq)]
pub struct Sizes {
    pub nodes: KindSize,
    pub ways: KindSize,
    pub relations: KindSize,
    pub strings: u64,
    pub string_bytes: u64,
}

/// 0 with the listing's length, or a refusal's number with 0.
#[repr(C)]
#[derive(Clone, Copy, Debug, PartialEq, Eq)]
pub struct ListingReply {
    pub number: u32,
    pub length: usize,
}

/// 0 with zeros, or a refusal's number with the known version for 12 and the event's line.
#[repr(C)]
#[derive(Clone, Copy, Debug, PartialEq, Eq)]
pub struct EventReply {
    pub number: u32,
    pub held: i32,
    pub line: u64,
}

/// The same for a run of lines, with how many of its bytes were taken.
#[repr(C)]
#[derive(Clone, Copy, Debug, PartialEq, Eq)]
pub struct EventsReply {
    pub number: u32,
    pub held: i32,
    pub line: u64,
    pub taken: usize,
}

#[rustfmt::skip]
unsafe extern "C" {
    pub fn tvk_osm_id_key(id: i64) -> OsmIdKey;
    pub fn tvk_osm_id_cmp(a: i64, b: i64) -> u8;
    pub fn tvk_blob_osm_first_key(min_id: i64, max_id: i64) -> OsmIdKey;
    pub fn tvk_blob_osm_last_key(min_id: i64, max_id: i64) -> OsmIdKey;
    pub fn tvk_osm_id_rank(id: i64) -> u64;
    pub fn tvk_version_admit(floor: u64, claim: u64) -> Reply;
    pub fn tvk_version_raise(floor: u64, claim: u64) -> u64;
    pub fn tvk_read_i64(s: *const u8, s_len: usize) -> Number;
    pub fn tvk_read_i32(s: *const u8, s_len: usize) -> Number;
    pub fn tvk_parse_rfc3339_utc(s: *const u8, s_len: usize) -> Number;
    pub fn tvk_is_text(s: *const u8, s_len: usize) -> u8;
    pub fn tvk_range_overlaps(live: *const u64, live_len: usize, deleted: *const u64, deleted_len: usize, min: i64, max: i64) -> Number;
    pub fn tvk_upsert_range(ids: *const u64, ids_len: usize, first: i64, last: i64) -> Places;
    pub fn tvk_seek_find(ids: *const u64, ids_len: usize, place: usize, id: i64) -> Cursor;
    pub fn tvk_set_up(words: *mut u64, words_len: usize, bytes: *const u8, bytes_len: usize, counters: *mut [u64; 17], sizes: Sizes, setting: u64) -> Reply;
    pub fn tvk_is_sound(words: *const u64, words_len: usize, bytes: *const u8, bytes_len: usize, counters: *const [u64; 17]) -> Reply;
    pub fn tvk_allow_version_regression(words: *const u64, words_len: usize, bytes: *const u8, bytes_len: usize, counters: *mut [u64; 17], setting: u64) -> Reply;
    pub fn tvk_intern(words: *mut u64, words_len: usize, bytes: *mut u8, bytes_len: usize, counters: *mut [u64; 17], text: *const u8, text_len: usize) -> Text;
    pub fn tvk_intern_texts(words: *mut u64, words_len: usize, bytes: *mut u8, bytes_len: usize, counters: *mut [u64; 17], texts: *const u8, texts_len: usize, lengths: *const usize, lengths_len: usize, handles: *mut u64, handles_len: usize) -> TextsReply;
    pub fn tvk_push(words: *mut u64, words_len: usize, bytes: *mut u8, bytes_len: usize, counters: *mut [u64; 17], kind: u8, head: PushHead, meta: ArenaMeta, parts: *const u8, parts_len: usize) -> Reply;
    pub fn tvk_delete(words: *mut u64, words_len: usize, bytes: *const u8, bytes_len: usize, counters: *mut [u64; 17], kind: u8, id: i64, meta: ArenaMeta) -> Reply;
    pub fn tvk_live_count(words: *const u64, words_len: usize, bytes: *const u8, bytes_len: usize, counters: *const [u64; 17], kind: u8) -> Number;
    pub fn tvk_deleted_count(words: *const u64, words_len: usize, bytes: *const u8, bytes_len: usize, counters: *const [u64; 17], kind: u8) -> Number;
    pub fn tvk_is_empty(words: *const u64, words_len: usize, bytes: *const u8, bytes_len: usize, counters: *const [u64; 17]) -> Number;
    pub fn tvk_live_id(words: *const u64, words_len: usize, bytes: *const u8, bytes_len: usize, counters: *const [u64; 17], kind: u8, n: u64) -> Number;
    pub fn tvk_deleted_id(words: *const u64, words_len: usize, bytes: *const u8, bytes_len: usize, counters: *const [u64; 17], kind: u8, n: u64) -> Number;
    pub fn tvk_record(words: *const u64, words_len: usize, bytes: *const u8, bytes_len: usize, counters: *const [u64; 17], kind: u8, n: u64) -> Part;
    pub fn tvk_get(words: *const u64, words_len: usize, bytes: *const u8, bytes_len: usize, counters: *const [u64; 17], kind: u8, id: i64) -> Part;
    pub fn tvk_has(words: *const u64, words_len: usize, bytes: *const u8, bytes_len: usize, counters: *const [u64; 17], kind: u8, id: i64) -> Number;
    pub fn tvk_is_deleted(words: *const u64, words_len: usize, bytes: *const u8, bytes_len: usize, counters: *const [u64; 17], kind: u8, id: i64) -> Number;
    pub fn tvk_known_version(words: *const u64, words_len: usize, bytes: *const u8, bytes_len: usize, counters: *const [u64; 17], kind: u8, id: i64) -> Number;
    pub fn tvk_text(words: *const u64, words_len: usize, bytes: *const u8, bytes_len: usize, counters: *const [u64; 17], handle: u64) -> Part;
    pub fn tvk_live_ids(words: *const u64, words_len: usize, bytes: *const u8, bytes_len: usize, counters: *const [u64; 17], kind: u8, ids: *mut u64, ids_len: usize, versions: *mut u64, versions_len: usize) -> Number;
    pub fn tvk_deleted_ids(words: *const u64, words_len: usize, bytes: *const u8, bytes_len: usize, counters: *const [u64; 17], kind: u8, ids: *mut u64, ids_len: usize, versions: *mut u64, versions_len: usize) -> Number;
    pub fn tvk_record_head(kind: u8, bytes: *const u8, bytes_len: usize) -> HeadReply;
    pub fn tvk_record_meta(kind: u8, bytes: *const u8, bytes_len: usize) -> MetaReply;
    pub fn tvk_record_ref(bytes: *const u8, bytes_len: usize, offset: usize, remaining: u32) -> RefReply;
    pub fn tvk_record_member(bytes: *const u8, bytes_len: usize, offset: usize, remaining: u32) -> MemberReply;
    pub fn tvk_record_tag(bytes: *const u8, bytes_len: usize, offset: usize, remaining: u32) -> TagReply;
    pub fn tvk_listing(words: *const u64, words_len: usize, bytes: *const u8, bytes_len: usize, counters: *const [u64; 17], out: *mut u8, out_len: usize) -> ListingReply;
    pub fn tvk_listing_length(words: *const u64, words_len: usize, bytes: *const u8, bytes_len: usize, counters: *const [u64; 17]) -> ListingReply;
    pub fn tvk_event(words: *mut u64, words_len: usize, bytes: *mut u8, bytes_len: usize, counters: *mut [u64; 17], reader: *mut [u64; 19], parts: *mut [u8; 44432], line: *const u8, line_len: usize) -> EventReply;
    pub fn tvk_events(words: *mut u64, words_len: usize, bytes: *mut u8, bytes_len: usize, counters: *mut [u64; 17], reader: *mut [u64; 19], parts: *mut [u8; 44432], run: *const u8, run_len: usize) -> EventsReply;
    pub fn tvk_end(words: *const u64, words_len: usize, bytes: *const u8, bytes_len: usize, counters: *const [u64; 17], reader: *const [u64; 19], parts: *const [u8; 44432]) -> EventReply;
    pub fn tvk_file_piece(words: *mut u64, words_len: usize, bytes: *mut u8, bytes_len: usize, counters: *mut [u64; 17], reader: *mut [u64; 19], parts: *mut [u8; 44432], file_words: *mut [u64; 7], file_bytes: *mut [u8; 32771], piece: *const u8, piece_len: usize) -> EventReply;
    pub fn tvk_file_end(words: *const u64, words_len: usize, bytes: *const u8, bytes_len: usize, counters: *const [u64; 17], reader: *const [u64; 19], parts: *const [u8; 44432], file_words: *const [u64; 7], file_bytes: *const [u8; 32771]) -> EventReply;
}
