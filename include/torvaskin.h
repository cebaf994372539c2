/* Torvaskin for C99 and C++11 and later. `./library` writes this file and libtorvaskin.a into one folder; link the archive behind the program's own files.

   It runs on x86-64 Linux with 64-bit pointers, on processors of the level x86-64-v2 (those since about 2009: SSE4.1 is used), and needs memmove and memset of a C library.

   The entries (first half) are what the archive exports; each is proved to do what is said here, on any words and bytes that it is lent. The wrappers (second half)
   are inline C: each hands a struct's fields on to its entry in order, and nothing proves it; c/all.c calls every one. tvk_GROUP_NAME is the wrapper of tvk_NAME.

   What is lent. An overlay lives in two blocks and its counters, which its caller keeps and lends to every call, in this order:

     words      the id tables of nodes, ways and relations, TVK_ID_WORDS words an id; behind them the spans, TVK_STRING_WORDS words a string
     bytes      the arenas of nodes, ways and relations, which hold records end to end; behind them the string bytes
     counters   TVK_COUNTERS words: what is used, the regression setting, and the sizes that set-up was given

   The sizes say where the parts of a block begin and end. The parts are all of the block: TVK_WORDS and TVK_BYTES say how long it must be, and a block of another length is
   refused, with 1 by set-up and with 22 by every later call. So a saved overlay (its words, bytes and counters) says its own sizes: tvk_sizes_in reads them from the counters,
   tvk_sizes_words and tvk_sizes_bytes say how long the blocks are. There is no lending a longer block later: a new overlay is set up and filled again.

   A reader lives in two arrays more: TVK_READER_WORDS words, all 0 for a fresh reader, and TVK_STAGED_BYTES bytes for the element that it is in. In word 16 stands what
   stopped it, 2 to 16 or 23 to 26, or 0: words with another number there are no reader's. A reader of files has TVK_FILE_WORDS words and TVK_FILE_BYTES bytes beside those, its
   words all 0 before the first byte of a file.

   What a caller owes at every call, since no proof sees it:

     - Each pointer is valid for its length and aligned for its type; an entry's pointer is never NULL, that of an empty slice neither. A wrapper takes NULL for
       "empty".
     - What a call may write (what is not const here) lies apart from everything else that the call is handed.
     - Nothing else writes what is lent while the call runs. An entry keeps no state of its own: calls on different overlays may run at once.
     - TVK_STACK_BYTES bytes of stack are free.

   What is lent may hold any words and bytes: damaged storage is refused 22, and nothing is changed. A refusal changes nothing that is lent, but for the stop mark of a
   reader whose event is refused.

   Replies begin with `number`: 0, or the refusal. Conditions are tested in the order in which an entry's comment names them, and the first that holds is replied.
   Signed numbers cross as they are. Where a reply or an argument is an unsigned word that stands for a signed number, it holds its bits at its own width: tvk_i64_of
   and tvk_i32_of read them. A version word below 2^32 is the bits of an int32_t; from 2^32 on it is no version. */
#ifndef TORVASKIN_H
#define TORVASKIN_H

#if !defined(__x86_64__) || !defined(__linux__) || !defined(__LP64__)
#error "Torvaskin is built for x86-64 Linux with 64-bit pointers alone."
#endif

#include <stddef.h>
#include <stdint.h>
#include <string.h>

#ifdef __cplusplus
extern "C" {
#endif

/* ---- version */

/* Of this header and its library. CHANGELOG.md says what each version changed. */
#define TVK_VERSION "0.6.1"

/* What the words, bytes and counters of an overlay and the words and staged bytes of a reader mean. It changes when they do: who saves them writes it beside them. */
#define TVK_STORED_FORM 1

/* ---- kinds, flags, sizes, limits */

#define TVK_NODE 0
#define TVK_WAY 1
#define TVK_RELATION 2

/* Flags of metadata. The last three need the first. A field that its flag does not cover is 0: user by HAS_USER, version by HAS_VERSION, the others by PRESENT. */
#define TVK_PRESENT 1
#define TVK_HIDDEN 2
#define TVK_HAS_USER 4
#define TVK_HAS_VERSION 8

#define TVK_ID_WORDS 3
#define TVK_STRING_WORDS 2
#define TVK_COUNTERS 17
#define TVK_READER_WORDS 19
#define TVK_STAGED_BYTES 44432
#define TVK_FILE_WORDS 7
#define TVK_FILE_BYTES 32771

/* What may be lent: 1 to MAX_IDS ids and 0 to MAX_ARENA bytes a kind, 1 to MAX_STRINGS strings (the empty text is one), 0 to MAX_STRING_BYTES bytes. */
#define TVK_MAX_IDS 4096
#define TVK_MAX_ARENA 1048576
#define TVK_MAX_STRINGS 4096
#define TVK_MAX_STRING_BYTES 65536

/* How long a block is: words for so many ids of nodes, ways, relations and so many strings; bytes for so many arena bytes of the same and so many string bytes. */
#define TVK_WORDS(nodes, ways, relations, strings) (TVK_ID_WORDS * ((nodes) + (ways) + (relations)) + TVK_STRING_WORDS * (strings))
#define TVK_BYTES(nodes, ways, relations, strings) ((nodes) + (ways) + (relations) + (strings))

/* Places among the counters. Where there is one a kind, the place is that of nodes, and a kind's is its number further: counters[TVK_USED_IDS + TVK_WAY]. */
#define TVK_USED_IDS 0           /* a kind's known ids, live and deleted */
#define TVK_USED_ARENA 3         /* used bytes of a kind's arena */
#define TVK_USED_STRINGS 6       /* held strings, the empty text among them */
#define TVK_USED_STRING_BYTES 7  /* used string bytes */
#define TVK_SETTING 8            /* the regression setting: 0 refuses regression */
#define TVK_LENT_IDS 9           /* from here on the sizes: a kind's ids */
#define TVK_LENT_ARENA 12        /* bytes of a kind's arena */
#define TVK_LENT_STRINGS 15      /* strings */
#define TVK_LENT_STRING_BYTES 16 /* string bytes */

/* Of a line, without its line feed; and of one element. A push's parts within these limits are at most TVK_STAGED_BYTES long. */
#define TVK_MAX_LINE 16384
#define TVK_MAX_TAGS 256
#define TVK_MAX_REFS 2000
#define TVK_MAX_MEMBERS 2000
#define TVK_MAX_TAG_VALUE_BYTES 16384

/* Coordinates are held in 1e-7 degree, at most this far from 0; an event gives them so, as lat7 and lon7, or in degrees, as lat and lon. */
#define TVK_MAX_LAT7 900000000
#define TVK_MAX_LON7 1800000000

/* a version word from here on is no version; a place from here on is no place */
#define TVK_NO_VERSION UINT64_C(4294967296)
#define TVK_NO_PLACE ((size_t)UINT64_C(9223372036854775808))

#define TVK_STACK_BYTES 131072

/* ---- refusals */

#define TVK_ACCEPTED 0
#define TVK_SIZE 1              /* a size outside what may be lent, or blocks that are not as long as the sizes say */
#define TVK_LONG_LINE 2         /* a line over TVK_MAX_LINE bytes */
#define TVK_NOT_TEXT 3          /* not well-formed UTF-8 of XML 1.0 characters, or a carriage return in a line */
#define TVK_NOT_EVENT_LINE 4    /* not an event line with its line feed, or an attribute twice */
#define TVK_MISPLACED 5         /* an element where it does not belong */
#define TVK_OUTSIDE_SECTION 6   /* a node, way or relation outside create, modify and delete */
#define TVK_MISSING 7           /* a field that is needed is missing */
#define TVK_NOT_INTEGER 8       /* not an integer of its width */
#define TVK_NOT_TIMESTAMP 9     /* not a timestamp */
#define TVK_COORDINATE_RANGE 10 /* a coordinate out of its range */
#define TVK_MEMBER_TYPE 11      /* a member that is no node, way or relation */
#define TVK_REGRESSION 12       /* a version below the known one, which `held` is */
#define TVK_STRINGS_FULL 13     /* strings or string bytes full */
#define TVK_IDS_FULL 14         /* a new id, and the ids of its kind are full */
#define TVK_ARENA_FULL 15       /* a record longer than its arena's unused bytes */
#define TVK_TOO_MANY_PARTS 16   /* an element over one of the limits above */
#define TVK_BAD_RECORD 17       /* flags, fields, handles, type bytes, parts or lengths that are not as they must be, or a number that is no kind */
#define TVK_UNFINISHED 18       /* the end of a document that is not done */
#define TVK_SHORT_OUTPUT 19     /* an output shorter than the listing, or a list shorter than what is to stand in it */
#define TVK_NOT_IN_ORDER 20     /* ids not strictly in OSM order */
#define TVK_NO_SUCH_NUMBER 21   /* a number not below its list's count, or a handle that is not held */
#define TVK_UNSOUND 22          /* damaged storage, blocks that are not as long as the sizes say, or words that are no reader's */
#define TVK_NOT_DEGREES 23      /* a lat or lon that is no decimal number of one to three digits and up to twelve decimals */
#define TVK_BOTH_FORMS 24       /* a coordinate in both forms: lat beside lat7, or lon beside lon7 */
#define TVK_NOT_MARKUP 25       /* markup that is not well formed by itself, or not supported; a file that ends inside markup */
#define TVK_UNMATCHED_END_TAG 26 /* an end tag with none open, or whose name is not the open one's */

/* ---- structs */

/* The sizes of an overlay: of a kind its ids and the bytes of its arena; strings; string bytes. */
struct tvk_kind_size {
    uint64_t ids;
    uint64_t bytes;
};

struct tvk_sizes {
    struct tvk_kind_size nodes;
    struct tvk_kind_size ways;
    struct tvk_kind_size relations;
    uint64_t strings;
    uint64_t string_bytes;
};

/* An id's place in OSM order: class 0 for 0, 1 for negative ids, 2 for positive ones; magnitude its distance from 0. */
struct tvk_osm_key {
    uint8_t class_;
    uint64_t magnitude;
};

/* 0, or the refusal; held is the known version for 12, else 0. */
struct tvk_reply {
    uint32_t number;
    int32_t held;
};

/* 0 with a value, or the refusal with 0. */
struct tvk_number {
    uint32_t number;
    uint64_t value;
};

/* 0 with a text's handle, or the refusal with 0. */
struct tvk_handle {
    uint32_t number;
    uint64_t handle;
};

/* 0 and found 1 with where something lies, in bytes; 0 and found 0 where there is nothing; or the refusal. Of a record the start counts in its kind's arena, of a text in the
   string bytes. It holds until the next call that writes the overlay. */
struct tvk_view {
    uint32_t number;
    uint32_t found;
    size_t start;
    size_t len;
};

/* As a reply, with the number of the refused event's line, from 1; 0 where nothing is refused and for 22. */
struct tvk_event_reply {
    uint32_t number;
    int32_t held;
    uint64_t line;
};

/* The same for a run of lines, with how many of its bytes were taken. */
struct tvk_events_reply {
    uint32_t number;
    int32_t held;
    uint64_t line;
    size_t taken;
};

/* 0 with the listing's length, or the refusal with 0. */
struct tvk_listing_reply {
    uint32_t number;
    size_t length;
};

/* 0 with the first place and one past the last, or 20 with 0 and 0. */
struct tvk_places {
    uint32_t number;
    size_t from;
    size_t to;
};

/* 0 or 20; where the id was found, or TVK_NO_PLACE; where the cursor stands. */
struct tvk_cursor {
    uint32_t number;
    size_t found;
    size_t place;
};

/* 0, or the refusal; and how many texts were taken in. */
struct tvk_texts_reply {
    uint32_t number;
    size_t taken;
};

/* The head of a direct push. A node has lat and lon, and its count is not looked at; a way counts its refs, a relation its members; each counts its tags. */
struct tvk_head {
    int64_t id;
    int32_t lat;
    int32_t lon;
    uint32_t count;
    uint32_t tags;
};

/* Metadata; timestamp in seconds since 1970, user a handle. All 0 is none. */
struct tvk_meta {
    uint8_t flags;
    int32_t version;
    int64_t timestamp;
    int64_t changeset;
    int32_t uid;
    uint32_t user;
};

/* What a record's head says, with where its refs or members begin and where its tags do, in bytes from the record's start; or the refusal with zeros. A node has a place and no
   count, a way and a relation a count and no place. */
struct tvk_head_reply {
    uint32_t number;
    struct tvk_head head;
    size_t parts_at;
    size_t tags_at;
};

/* What its metadata say, or the refusal with zeros. */
struct tvk_meta_reply {
    uint32_t number;
    struct tvk_meta meta;
};

/* 0 and found 1 with a ref, which is a node's id, and the offset of the next; 0 and found 0 where none remains; or the refusal. */
struct tvk_ref_reply {
    uint32_t number;
    uint32_t found;
    int64_t value;
    size_t next;
};

/* The same with a member: its ref, its kind, and its role's handle. */
struct tvk_member_reply {
    uint32_t number;
    uint32_t found;
    int64_t reference;
    uint8_t kind;
    uint32_t role;
    size_t next;
};

/* The same with a tag: its key's handle, and where its value lies in the record's bytes. The next tag stands where the value ends. */
struct tvk_tag_reply {
    uint32_t number;
    uint32_t found;
    uint32_t key;
    size_t start;
    size_t len;
};

/* ==== entries: ids, versions, fields, text */

/* The key of an id; keys in lexical order are ids in OSM order: 0, then negatives by growing magnitude, then positives. */
struct tvk_osm_key tvk_osm_id_key(int64_t id);

/* 0 where a comes before b in OSM order, 1 where they are equal, 2 where it comes after. */
uint8_t tvk_osm_id_cmp(int64_t a, int64_t b);

/* The key of the first, and of the last id in OSM order among those from min_id to max_id. */
struct tvk_osm_key tvk_blob_osm_first_key(int64_t min_id, int64_t max_id);
struct tvk_osm_key tvk_blob_osm_last_key(int64_t min_id, int64_t max_id);

/* An id's rank in OSM order, as id tables hold it: 0 for 0, m for -m, 2^63 + p for p. */
uint64_t tvk_osm_id_rank(int64_t id);

/* Version words. 12 with the floor where both are versions and the claim is below the floor, else 0. */
struct tvk_reply tvk_version_admit(uint64_t floor, uint64_t claim);

/* The larger of two version words, or the one that is a version; TVK_NO_VERSION where neither is. */
uint64_t tvk_version_raise(uint64_t floor, uint64_t claim);

/* An integer of 64 or of 32 bits: at most one sign, one or more digits. Its bits, or 8. */
struct tvk_number tvk_read_i64(const uint8_t *s, size_t s_len);
struct tvk_number tvk_read_i32(const uint8_t *s, size_t s_len);

/* A timestamp as 2024-01-31T12:00:00Z: the bits of its seconds since 1970, or 9. */
struct tvk_number tvk_parse_rfc3339_utc(const uint8_t *s, size_t s_len);

/* 1 for well-formed UTF-8 of XML 1.0 characters, else 0. */
uint8_t tvk_is_text(const uint8_t *s, size_t s_len);

/* ==== entries: an overlay */

/* Makes what is lent an empty overlay of these sizes, whatever it held: 1, with nothing written, or 0. Setting 0 refuses regression, any other allows it. */
struct tvk_reply tvk_set_up(uint64_t *words, size_t words_len, const uint8_t *bytes, size_t bytes_len, uint64_t counters[TVK_COUNTERS], struct tvk_sizes sizes,
                            uint64_t setting);

/* 22, or 0. */
struct tvk_reply tvk_is_sound(const uint64_t *words, size_t words_len, const uint8_t *bytes, size_t bytes_len, const uint64_t counters[TVK_COUNTERS]);

/* Changes the regression setting: 22, or 0. */
struct tvk_reply tvk_allow_version_regression(const uint64_t *words, size_t words_len, const uint8_t *bytes, size_t bytes_len, uint64_t counters[TVK_COUNTERS],
                                              uint64_t setting);

/* Takes a text in: 22, 3, 13, or its handle: that of an equal text, else the next. Handle 0 is the empty text. */
struct tvk_handle tvk_intern(uint64_t *words, size_t words_len, uint8_t *bytes, size_t bytes_len, uint64_t counters[TVK_COUNTERS], const uint8_t *text, size_t text_len);

/* Takes many texts in, with one test for 22. They lie end to end in texts, and lengths has the length of each. 22; 17 where the lengths do not add up to the bytes; 19 where
   handles is shorter than the texts are many. Then each text as tvk_intern takes it in, one after another up to the first that is refused 3 or 13: those before it stay taken in,
   and their handles stand at the start of handles. What lies past them is left as it is. */
struct tvk_texts_reply tvk_intern_texts(uint64_t *words, size_t words_len, uint8_t *bytes, size_t bytes_len, uint64_t counters[TVK_COUNTERS], const uint8_t *texts,
                                        size_t texts_len, const size_t *lengths, size_t lengths_len, uint64_t *handles, size_t handles_len);

/* A direct push: 22, 17, 3, 10, 16, 12, 14, 15, or 0. parts: a way's refs (8 bytes each) or a relation's members (13 bytes: ref, type byte, role's handle in 4), then the
   tags (key's handle in 4 bytes, value's length in 4, the value's bytes); numbers little-endian. tvk_parts_ref, tvk_parts_member and tvk_parts_tag lay them out. */
struct tvk_reply tvk_push(uint64_t *words, size_t words_len, uint8_t *bytes, size_t bytes_len, uint64_t counters[TVK_COUNTERS], uint8_t kind, struct tvk_head head,
                          struct tvk_meta meta, const uint8_t *parts, size_t parts_len);

/* A direct delete: 22, 17, 12, 14, or 0. */
struct tvk_reply tvk_delete(uint64_t *words, size_t words_len, const uint8_t *bytes, size_t bytes_len, uint64_t counters[TVK_COUNTERS], uint8_t kind, int64_t id,
                            struct tvk_meta meta);

/* ==== entries: a reader */

/* One event by its line, line feed included: 22; what stopped the reader; 2, 3, 4; 5, 6; 7 to 11, 23, 24; 12 to 16; or 0. A refusal but 22 stops the reader, and its later events and
   its end repeat number, held and line. */
struct tvk_event_reply tvk_event(uint64_t *words, size_t words_len, uint8_t *bytes, size_t bytes_len, uint64_t counters[TVK_COUNTERS], uint64_t reader[TVK_READER_WORDS],
                                 uint8_t parts[TVK_STAGED_BYTES], const uint8_t *line, size_t line_len);

/* A run of lines. 22, or what stopped the reader, whatever the run holds. Then its whole lines as events one after another, up to the first that is refused: what tvk_event would
   leave and reply, with one test for 22; a run that is refused has taken in the lines before. What follows the bytes taken is the refused line, or where nothing is refused the
   unfinished one: hand it over again with what comes after it. An unfinished line of more than TVK_MAX_LINE bytes is refused 2 at once. */
struct tvk_events_reply tvk_events(uint64_t *words, size_t words_len, uint8_t *bytes, size_t bytes_len, uint64_t counters[TVK_COUNTERS], uint64_t reader[TVK_READER_WORDS],
                                   uint8_t parts[TVK_STAGED_BYTES], const uint8_t *run, size_t run_len);

/* The end of a document: 22; what stopped the reader; 18; or 0. It changes nothing. */
struct tvk_event_reply tvk_end(const uint64_t *words, size_t words_len, const uint8_t *bytes, size_t bytes_len, const uint64_t counters[TVK_COUNTERS],
                               const uint64_t reader[TVK_READER_WORDS], const uint8_t parts[TVK_STAGED_BYTES]);

/* ==== entries: a reader of files, in XML 1.0 (docs/FILES.md) */

/* A piece of a file, which may end anywhere: 22, or what stopped the reader, whatever the piece holds. Then its markups one after another, up to the first that is refused: 25 at the first
   byte with which no legal markup goes on; 26; then its event as tvk_event has it, 2 for its line, and 25 where an attribute stands twice. line is that of the markup's first byte. A
   refusal but 22 stops the reader. How a file is cut changes no answer. */
struct tvk_event_reply tvk_file_piece(uint64_t *words, size_t words_len, uint8_t *bytes, size_t bytes_len, uint64_t counters[TVK_COUNTERS], uint64_t reader[TVK_READER_WORDS],
                                      uint8_t parts[TVK_STAGED_BYTES], uint64_t file_words[TVK_FILE_WORDS], uint8_t file_bytes[TVK_FILE_BYTES], const uint8_t *piece,
                                      size_t piece_len);

/* The end of a file: 22; what stopped the reader; 25 inside markup, at that markup's line; 18, at the line feeds plus one; or 0. It changes nothing. */
struct tvk_event_reply tvk_file_end(const uint64_t *words, size_t words_len, const uint8_t *bytes, size_t bytes_len, const uint64_t counters[TVK_COUNTERS],
                                    const uint64_t reader[TVK_READER_WORDS], const uint8_t parts[TVK_STAGED_BYTES], const uint64_t file_words[TVK_FILE_WORDS],
                                    const uint8_t file_bytes[TVK_FILE_BYTES]);

/* ==== entries: readings, which change nothing. Each is 22 first; one that takes a kind is then 17 for a number above 2. */

/* How many ids of a kind are live, and how many deleted. */
struct tvk_number tvk_live_count(const uint64_t *words, size_t words_len, const uint8_t *bytes, size_t bytes_len, const uint64_t counters[TVK_COUNTERS], uint8_t kind);
struct tvk_number tvk_deleted_count(const uint64_t *words, size_t words_len, const uint8_t *bytes, size_t bytes_len, const uint64_t counters[TVK_COUNTERS], uint8_t kind);

/* 1 where no id of any kind is known, else 0. */
struct tvk_number tvk_is_empty(const uint64_t *words, size_t words_len, const uint8_t *bytes, size_t bytes_len, const uint64_t counters[TVK_COUNTERS]);

/* The bits of the n-th live id, and of the n-th deleted id, of a kind in OSM order, from 0; or 21. */
struct tvk_number tvk_live_id(const uint64_t *words, size_t words_len, const uint8_t *bytes, size_t bytes_len, const uint64_t counters[TVK_COUNTERS], uint8_t kind,
                              uint64_t n);
struct tvk_number tvk_deleted_id(const uint64_t *words, size_t words_len, const uint8_t *bytes, size_t bytes_len, const uint64_t counters[TVK_COUNTERS], uint8_t kind,
                                 uint64_t n);

/* Where the record of the n-th live id lies in its kind's arena; or 21. */
struct tvk_view tvk_record(const uint64_t *words, size_t words_len, const uint8_t *bytes, size_t bytes_len, const uint64_t counters[TVK_COUNTERS], uint8_t kind, uint64_t n);

/* Where the record of an id lies in its kind's arena; found 0 where the id is not live. */
struct tvk_view tvk_get(const uint64_t *words, size_t words_len, const uint8_t *bytes, size_t bytes_len, const uint64_t counters[TVK_COUNTERS], uint8_t kind, int64_t id);

/* 1 where an id is live, and where it is deleted; else 0. */
struct tvk_number tvk_has(const uint64_t *words, size_t words_len, const uint8_t *bytes, size_t bytes_len, const uint64_t counters[TVK_COUNTERS], uint8_t kind, int64_t id);
struct tvk_number tvk_is_deleted(const uint64_t *words, size_t words_len, const uint8_t *bytes, size_t bytes_len, const uint64_t counters[TVK_COUNTERS], uint8_t kind,
                                 int64_t id);

/* The known version of an id as a version word: the larger of the live record's version and the floor, or the one that exists. */
struct tvk_number tvk_known_version(const uint64_t *words, size_t words_len, const uint8_t *bytes, size_t bytes_len, const uint64_t counters[TVK_COUNTERS], uint8_t kind,
                                    int64_t id);

/* Where the text of a handle lies in the string bytes; or 21. */
struct tvk_view tvk_text(const uint64_t *words, size_t words_len, const uint8_t *bytes, size_t bytes_len, const uint64_t counters[TVK_COUNTERS], uint64_t handle);

/* The bits of all live ids, and of all deleted ids, of a kind in OSM order, and the known version of each as a version word, at the start of two lists that share no word: 19
   where one of them is shorter, with nothing written; or 0 with how many ids they are. What lies past them is left as it is. */
struct tvk_number tvk_live_ids(const uint64_t *words, size_t words_len, const uint8_t *bytes, size_t bytes_len, const uint64_t counters[TVK_COUNTERS], uint8_t kind,
                               uint64_t *ids, size_t ids_len, uint64_t *versions, size_t versions_len);
struct tvk_number tvk_deleted_ids(const uint64_t *words, size_t words_len, const uint8_t *bytes, size_t bytes_len, const uint64_t counters[TVK_COUNTERS], uint8_t kind,
                                  uint64_t *ids, size_t ids_len, uint64_t *versions, size_t versions_len);

/* ==== entries: a record's bytes, which a view says where they lie. They look at no overlay and test none, so the bytes may be any, and more may follow the record. A walk that
   begins at the places that the head names and hands on each `next` goes forward with every part that is found, and not past the bytes. */

/* The head, and the metadata, of a record of a kind: 17 for a number above 2, 22 where bytes are missing, or 0. */
struct tvk_head_reply tvk_record_head(uint8_t kind, const uint8_t *bytes, size_t bytes_len);
struct tvk_meta_reply tvk_record_meta(uint8_t kind, const uint8_t *bytes, size_t bytes_len);

/* The ref, the member, and the tag at an offset, with so many remaining: found 0 at 0 remaining; else 22 where its bytes are not all there, for a member also where its type
   byte is no kind, for a tag also where its value runs past the bytes or is no text. */
struct tvk_ref_reply tvk_record_ref(const uint8_t *bytes, size_t bytes_len, size_t offset, uint32_t remaining);
struct tvk_member_reply tvk_record_member(const uint8_t *bytes, size_t bytes_len, size_t offset, uint32_t remaining);
struct tvk_tag_reply tvk_record_tag(const uint8_t *bytes, size_t bytes_len, size_t offset, uint32_t remaining);

/* ==== entries: lookups in lists of ids, which are handed over as their bits, strictly in OSM order; else 20 */

/* 1 where an id of either list lies from min to max, else 0; 20. What lies between is counted in OSM order, from the first to the last key of the numbers min to max. */
struct tvk_number tvk_range_overlaps(const uint64_t *live, size_t live_len, const uint64_t *deleted, size_t deleted_len, int64_t min, int64_t max);

/* The places of the ids from first to last in OSM order. */
struct tvk_places tvk_upsert_range(const uint64_t *ids, size_t ids_len, int64_t first, int64_t last);

/* Looks for an id from a place on; TVK_NO_PLACE for a cursor that was not used. The cursor only moves forward: an id behind it is found nowhere. */
struct tvk_cursor tvk_seek_find(const uint64_t *ids, size_t ids_len, size_t place, int64_t id);

/* ==== entries: the listing */

/* Writes the listing at the start of the output: 22, 19, or 0 with its length. What lies past it is left as it is. */
struct tvk_listing_reply tvk_listing(const uint64_t *words, size_t words_len, const uint8_t *bytes, size_t bytes_len, const uint64_t counters[TVK_COUNTERS], uint8_t *out,
                                     size_t out_len);

/* How long the listing is, so that enough can be lent: 22, or 0 with its length. `tvk_listing` writes it into an output of that many bytes or more, and refuses a shorter one 19. It writes
   nothing. 19 where the listing has more than 2^64 - 1 bytes, for which no output is long enough. */
struct tvk_listing_reply tvk_listing_length(const uint64_t *words, size_t words_len, const uint8_t *bytes, size_t bytes_len, const uint64_t counters[TVK_COUNTERS]);

/* ==== wrappers: what is lent, in a struct */

/* An overlay: its two blocks, which lie somewhere else, and its counters. A block whose pointer is NULL counts as empty. */
struct tvk_overlay {
    uint64_t *words;
    size_t words_len;
    uint8_t *bytes;
    size_t bytes_len;
    uint64_t counters[TVK_COUNTERS];
};

/* The two arrays of a reader. Large: let it be static or in memory of its own. */
struct tvk_reader {
    uint64_t words[TVK_READER_WORDS];
    uint8_t staged[TVK_STAGED_BYTES];
};

/* The same with what a reader of files has beside them. */
struct tvk_change_file {
    struct tvk_reader reader;
    uint64_t words[TVK_FILE_WORDS];
    uint8_t bytes[TVK_FILE_BYTES];
};

/* an array as a block: its pointer, and how many */
#define TVK_LEND(array) (array), sizeof(array) / sizeof((array)[0])

/* Static storage for so many ids and arena bytes a kind, strings and string bytes, an overlay of that name over it, and its sizes as NAME_sizes. It is still to be set up:
   tvk_overlay_set_up(&NAME, NAME_sizes, setting). No array of C is empty: where all bytes are 0, one lies there that is not lent. */
#define TVK_STATIC_OVERLAY(name, ids, arena, strings, string_bytes)                                                                \
    static const struct tvk_sizes name##_sizes = {{(ids), (arena)}, {(ids), (arena)}, {(ids), (arena)}, (strings), (string_bytes)}; \
    static uint64_t name##_words[TVK_WORDS(ids, ids, ids, strings)];                                                               \
    static uint8_t name##_bytes[TVK_BYTES(arena, arena, arena, string_bytes) + (TVK_BYTES(arena, arena, arena, string_bytes) == 0)]; \
    static struct tvk_overlay name = {TVK_LEND(name##_words), name##_bytes, TVK_BYTES(arena, arena, arena, string_bytes), {0}}

/* where an empty slice lies: somewhere that is not NULL, which no call reads or writes */
static inline uint64_t *tvk_words_at(uint64_t *words)
{
    static uint64_t none;
    return words != NULL ? words : &none;
}

static inline uint8_t *tvk_bytes_at(uint8_t *bytes)
{
    static uint8_t none;
    return bytes != NULL ? bytes : &none;
}

static inline const uint64_t *tvk_ids_at(const int64_t *ids)
{
    static const uint64_t none = 0;
    return ids != NULL ? (const uint64_t *)(const void *)ids : &none;
}

static inline const uint8_t *tvk_text_at(const void *text)
{
    static const uint8_t none = 0;
    return text != NULL ? (const uint8_t *)text : &none;
}

static inline const size_t *tvk_lengths_at(const size_t *lengths)
{
    static const size_t none = 0;
    return lengths != NULL ? lengths : &none;
}

static inline size_t tvk_len_of(const void *at, size_t len)
{
    return at != NULL ? len : 0;
}

#define TVK_SOME_WORDS(words, len) tvk_words_at(words), tvk_len_of((words), (len))
#define TVK_SOME_BYTES(bytes, len) tvk_bytes_at(bytes), tvk_len_of((bytes), (len))
#define TVK_LENT(o) TVK_SOME_WORDS((o)->words, (o)->words_len), TVK_SOME_BYTES((o)->bytes, (o)->bytes_len), (o)->counters
#define TVK_TEXT(text, len) tvk_text_at(text), tvk_len_of((text), (len))
#define TVK_IDS(ids, len) tvk_ids_at(ids), tvk_len_of((ids), (len))
#define TVK_LENGTHS(lengths, len) tvk_lengths_at(lengths), tvk_len_of((lengths), (len))

/* ---- an overlay */

static inline struct tvk_reply tvk_overlay_set_up(struct tvk_overlay *o, struct tvk_sizes sizes, uint64_t setting)
{
    return tvk_set_up(TVK_LENT(o), sizes, setting);
}

static inline struct tvk_reply tvk_overlay_is_sound(const struct tvk_overlay *o)
{
    return tvk_is_sound(TVK_LENT(o));
}

static inline struct tvk_reply tvk_overlay_allow_version_regression(struct tvk_overlay *o, uint64_t setting)
{
    return tvk_allow_version_regression(TVK_LENT(o), setting);
}

static inline struct tvk_handle tvk_overlay_intern(struct tvk_overlay *o, const void *text, size_t len)
{
    return tvk_intern(TVK_LENT(o), TVK_TEXT(text, len));
}

/* so many texts, end to end in these bytes: their lengths, and room for their handles */
static inline struct tvk_texts_reply tvk_overlay_intern_texts(struct tvk_overlay *o, const void *texts, size_t len, const size_t *lengths, uint64_t *handles, size_t many)
{
    return tvk_intern_texts(TVK_LENT(o), TVK_TEXT(texts, len), TVK_LENGTHS(lengths, many), TVK_SOME_WORDS(handles, many));
}

static inline struct tvk_reply tvk_overlay_push(struct tvk_overlay *o, uint8_t kind, struct tvk_head head, struct tvk_meta meta, const void *parts, size_t len)
{
    return tvk_push(TVK_LENT(o), kind, head, meta, TVK_TEXT(parts, len));
}

static inline struct tvk_reply tvk_overlay_delete(struct tvk_overlay *o, uint8_t kind, int64_t id, struct tvk_meta meta)
{
    return tvk_delete(TVK_LENT(o), kind, id, meta);
}

static inline struct tvk_number tvk_overlay_live_count(const struct tvk_overlay *o, uint8_t kind)
{
    return tvk_live_count(TVK_LENT(o), kind);
}

static inline struct tvk_number tvk_overlay_deleted_count(const struct tvk_overlay *o, uint8_t kind)
{
    return tvk_deleted_count(TVK_LENT(o), kind);
}

static inline struct tvk_number tvk_overlay_is_empty(const struct tvk_overlay *o)
{
    return tvk_is_empty(TVK_LENT(o));
}

static inline struct tvk_number tvk_overlay_live_id(const struct tvk_overlay *o, uint8_t kind, uint64_t n)
{
    return tvk_live_id(TVK_LENT(o), kind, n);
}

static inline struct tvk_number tvk_overlay_deleted_id(const struct tvk_overlay *o, uint8_t kind, uint64_t n)
{
    return tvk_deleted_id(TVK_LENT(o), kind, n);
}

static inline struct tvk_view tvk_overlay_record(const struct tvk_overlay *o, uint8_t kind, uint64_t n)
{
    return tvk_record(TVK_LENT(o), kind, n);
}

static inline struct tvk_view tvk_overlay_get(const struct tvk_overlay *o, uint8_t kind, int64_t id)
{
    return tvk_get(TVK_LENT(o), kind, id);
}

static inline struct tvk_number tvk_overlay_has(const struct tvk_overlay *o, uint8_t kind, int64_t id)
{
    return tvk_has(TVK_LENT(o), kind, id);
}

static inline struct tvk_number tvk_overlay_is_deleted(const struct tvk_overlay *o, uint8_t kind, int64_t id)
{
    return tvk_is_deleted(TVK_LENT(o), kind, id);
}

static inline struct tvk_number tvk_overlay_known_version(const struct tvk_overlay *o, uint8_t kind, int64_t id)
{
    return tvk_known_version(TVK_LENT(o), kind, id);
}

static inline struct tvk_view tvk_overlay_text(const struct tvk_overlay *o, uint64_t handle)
{
    return tvk_text(TVK_LENT(o), handle);
}

/* two lists of the same length */
static inline struct tvk_number tvk_overlay_live_ids(const struct tvk_overlay *o, uint8_t kind, uint64_t *ids, uint64_t *versions, size_t len)
{
    return tvk_live_ids(TVK_LENT(o), kind, TVK_SOME_WORDS(ids, len), TVK_SOME_WORDS(versions, len));
}

static inline struct tvk_number tvk_overlay_deleted_ids(const struct tvk_overlay *o, uint8_t kind, uint64_t *ids, uint64_t *versions, size_t len)
{
    return tvk_deleted_ids(TVK_LENT(o), kind, TVK_SOME_WORDS(ids, len), TVK_SOME_WORDS(versions, len));
}

static inline struct tvk_listing_reply tvk_overlay_listing(const struct tvk_overlay *o, void *out, size_t len)
{
    return tvk_listing(TVK_LENT(o), TVK_SOME_BYTES((uint8_t *)out, len));
}

static inline struct tvk_listing_reply tvk_overlay_listing_length(const struct tvk_overlay *o)
{
    return tvk_listing_length(TVK_LENT(o));
}

/* ---- a reader */

static inline struct tvk_event_reply tvk_reader_event(struct tvk_reader *r, struct tvk_overlay *o, const void *line, size_t len)
{
    return tvk_event(TVK_LENT(o), r->words, r->staged, TVK_TEXT(line, len));
}

static inline struct tvk_events_reply tvk_reader_events(struct tvk_reader *r, struct tvk_overlay *o, const void *run, size_t len)
{
    return tvk_events(TVK_LENT(o), r->words, r->staged, TVK_TEXT(run, len));
}

static inline struct tvk_event_reply tvk_reader_end(const struct tvk_reader *r, const struct tvk_overlay *o)
{
    return tvk_end(TVK_LENT(o), r->words, r->staged);
}

/* ---- a reader of files */

static inline struct tvk_event_reply tvk_change_file_piece(struct tvk_change_file *f, struct tvk_overlay *o, const void *piece, size_t len)
{
    return tvk_file_piece(TVK_LENT(o), f->reader.words, f->reader.staged, f->words, f->bytes, TVK_TEXT(piece, len));
}

static inline struct tvk_event_reply tvk_change_file_end(const struct tvk_change_file *f, const struct tvk_overlay *o)
{
    return tvk_file_end(TVK_LENT(o), f->reader.words, f->reader.staged, f->words, f->bytes);
}

/* ---- fields */

static inline struct tvk_number tvk_field_read_i64(const void *s, size_t len)
{
    return tvk_read_i64(TVK_TEXT(s, len));
}

static inline struct tvk_number tvk_field_read_i32(const void *s, size_t len)
{
    return tvk_read_i32(TVK_TEXT(s, len));
}

static inline struct tvk_number tvk_field_parse_rfc3339_utc(const void *s, size_t len)
{
    return tvk_parse_rfc3339_utc(TVK_TEXT(s, len));
}

static inline uint8_t tvk_field_is_text(const void *s, size_t len)
{
    return tvk_is_text(TVK_TEXT(s, len));
}

/* ---- lists of ids */

static inline struct tvk_number tvk_ids_range_overlaps(const int64_t *live, size_t live_len, const int64_t *deleted, size_t deleted_len, int64_t min, int64_t max)
{
    return tvk_range_overlaps(TVK_IDS(live, live_len), TVK_IDS(deleted, deleted_len), min, max);
}

static inline struct tvk_places tvk_ids_upsert_range(const int64_t *ids, size_t len, int64_t first, int64_t last)
{
    return tvk_upsert_range(TVK_IDS(ids, len), first, last);
}

static inline struct tvk_cursor tvk_ids_seek_find(const int64_t *ids, size_t len, size_t place, int64_t id)
{
    return tvk_seek_find(TVK_IDS(ids, len), place, id);
}

#undef TVK_LENGTHS
#undef TVK_IDS
#undef TVK_TEXT
#undef TVK_LENT
#undef TVK_SOME_BYTES
#undef TVK_SOME_WORDS

/* ==== helpers, which call no entry but those that read a record's bytes and that push parts */

/* a fresh reader, for the next document */
static inline void tvk_reader_clear(struct tvk_reader *r)
{
    memset(r->words, 0, sizeof r->words);
}

/* a fresh reader of files, for the next file */
static inline void tvk_change_file_clear(struct tvk_change_file *f)
{
    tvk_reader_clear(&f->reader);
    memset(f->words, 0, sizeof f->words);
}

/* ---- refusals */

/* What happened, by a reply's number, for the person who reads it: the sentence of docs/REFUSALS.md. */
static inline const char *tvk_refusal_sentence(uint32_t number)
{
    static const char *const sentences[] = {
        "Nothing was refused.",
        "The overlay was set up with too little or too much storage.",
        "A line of the input is longer than 16,384 bytes.",
        "A line, or a text handed in by a program, is not proper text: damaged characters, or a carriage return in a line.",
        "A line is not an event line, names an attribute twice, or the file ends in the middle of a line.",
        "An element stands where it does not belong, as a road inside another road.",
        "A node, way or relation stands outside `create`, `modify` and `delete`.",
        "A field that is needed is missing, as an id or a coordinate.",
        "A field should be a whole number of its size and is not.",
        "A timestamp is not of the form 2024-01-31T12:00:00Z, has a sign in a number, or names a day or hour that does not exist.",
        "A coordinate lies outside the globe.",
        "A member of a relation is neither a node, a way nor a relation.",
        "A change is older than what is held for that element. The version shown is the one held.",
        "There is no room left for names (keys, roles, users).",
        "There is no room left for further ids of that kind.",
        "There is no room left for records of that kind.",
        "One element has more than 256 tags, 2,000 refs, 2,000 members or 16,384 bytes of tag values.",
        "The terminal's program handed in a record that contradicts itself or texts that do not fit their lengths, or asked for a kind that does not exist.",
        "The input ended before its last element was closed, or nothing was handed in.",
        "The listing does not fit its output, or ids or handles do not fit the lists that are to hold them.",
        "A program handed in a list of ids that is not strictly in order.",
        "A program asked for an id or a record by a number that its list does not have, or for a text by a handle that is not held.",
        "What the terminal has stored is damaged, or was handed over cut short.",
        "A coordinate in degrees is not of the form 59.011234: at most one sign, one to three digits, and behind a point one to twelve.",
        "A node gives a coordinate twice, in degrees and in whole numbers: `lat` beside `lat7`, or `lon` beside `lon7`.",
        "The file is not well-formed XML there, or holds what is not supported: a DOCTYPE, CDATA or an encoding other than UTF-8.",
        "An end tag closes nothing, or another element than the one that is open.",
    };
    return number < sizeof sentences / sizeof sentences[0] ? sentences[number] : "This is no refusal's number.";
}

/* ---- sizes, and the parts of the bytes */

/* the sizes behind counters, as set-up wrote them */
static inline struct tvk_sizes tvk_sizes_in(const uint64_t counters[TVK_COUNTERS])
{
    const uint64_t *ids = counters + TVK_LENT_IDS;
    const uint64_t *arena = counters + TVK_LENT_ARENA;
    struct tvk_sizes sizes = {{ids[TVK_NODE], arena[TVK_NODE]}, {ids[TVK_WAY], arena[TVK_WAY]}, {ids[TVK_RELATION], arena[TVK_RELATION]}, 0, 0};
    sizes.strings = counters[TVK_LENT_STRINGS];
    sizes.string_bytes = counters[TVK_LENT_STRING_BYTES];
    return sizes;
}

static inline int tvk_kind_size_fits(struct tvk_kind_size size)
{
    return 1 <= size.ids && size.ids <= TVK_MAX_IDS && size.bytes <= TVK_MAX_ARENA;
}

/* whether each size is one that may be lent */
static inline int tvk_sizes_fit(struct tvk_sizes sizes)
{
    return tvk_kind_size_fits(sizes.nodes) && tvk_kind_size_fits(sizes.ways) && tvk_kind_size_fits(sizes.relations) && 1 <= sizes.strings &&
           sizes.strings <= TVK_MAX_STRINGS && sizes.string_bytes <= TVK_MAX_STRING_BYTES;
}

/* How long the blocks of these sizes are. Where a size is none that may be lent, both are 0; the words of an overlay never are. */
static inline size_t tvk_sizes_words(struct tvk_sizes sizes)
{
    return tvk_sizes_fit(sizes) ? (size_t)TVK_WORDS(sizes.nodes.ids, sizes.ways.ids, sizes.relations.ids, sizes.strings) : 0;
}

static inline size_t tvk_sizes_bytes(struct tvk_sizes sizes)
{
    return tvk_sizes_fit(sizes) ? (size_t)TVK_BYTES(sizes.nodes.bytes, sizes.ways.bytes, sizes.relations.bytes, sizes.string_bytes) : 0;
}

/* bytes of a block: where they lie, and how many */
struct tvk_bytes {
    uint8_t *at;
    size_t len;
};

/* Where the first arenas, so many, end in the bytes. What the block does not have is missing at its end: no counters lead outside it. */
static inline size_t tvk_arenas_end(const struct tvk_overlay *o, size_t arenas)
{
    size_t left = tvk_len_of(o->bytes, o->bytes_len);
    size_t end = 0;
    for (size_t kind = 0; kind < arenas; kind++) {
        uint64_t size = o->counters[TVK_LENT_ARENA + kind];
        size_t part = size < left ? (size_t)size : left;
        end += part;
        left -= part;
    }
    return end;
}

static inline struct tvk_bytes tvk_bytes_between(const struct tvk_overlay *o, size_t from, size_t to)
{
    struct tvk_bytes part = {NULL, 0};
    if (o->bytes != NULL) {
        part.at = o->bytes + from;
        part.len = to - from;
    }
    return part;
}

/* the arena that a view of a kind's record counts in; empty where the number is no kind */
static inline struct tvk_bytes tvk_overlay_arena(const struct tvk_overlay *o, uint8_t kind)
{
    return kind <= TVK_RELATION ? tvk_bytes_between(o, tvk_arenas_end(o, kind), tvk_arenas_end(o, kind + 1u)) : tvk_bytes_between(o, 0, 0);
}

/* the string bytes, in which a view of a text counts */
static inline struct tvk_bytes tvk_overlay_string_bytes(const struct tvk_overlay *o)
{
    return tvk_bytes_between(o, tvk_arenas_end(o, 3), tvk_len_of(o->bytes, o->bytes_len));
}

/* The bytes of a view in the block that it counts in: a kind's arena, or the string bytes. None where it is refused or found nothing, nor where it leads outside the block. */
static inline struct tvk_bytes tvk_view_bytes(struct tvk_bytes block, struct tvk_view view)
{
    struct tvk_bytes none = {NULL, 0};
    if (view.number != 0 || view.found == 0 || block.at == NULL || view.start > block.len || view.len > block.len - view.start)
        return none;
    block.at += view.start;
    block.len = view.len;
    return block;
}

/* ---- a record that is read: its head, its metadata, and a walk over each sort of its parts */

/* The bytes of a record, the offset of the next part, and how many remain. A copy walks again from there. */
struct tvk_walk {
    const uint8_t *bytes;
    size_t len;
    size_t offset;
    uint32_t remaining;
};

/* number is 0, or why the record cannot be read: then each walk is refused 22. A way has refs and a relation members; of other kinds those walks are over none. */
struct tvk_record {
    uint32_t number;
    uint8_t kind;
    struct tvk_head head;
    struct tvk_meta meta;
    struct tvk_walk refs;
    struct tvk_walk members;
    struct tvk_walk tags;
};

/* The next of a walk, whose place goes on behind what is found. The reply's number is to be looked at where nothing more is found: 0 at the walk's end, else 22. */
static inline struct tvk_ref_reply tvk_next_ref(struct tvk_walk *w)
{
    struct tvk_ref_reply ref = tvk_record_ref(tvk_text_at(w->bytes), tvk_len_of(w->bytes, w->len), w->offset, w->remaining);
    w->offset = ref.found ? ref.next : w->offset;
    w->remaining -= ref.found;
    return ref;
}

static inline struct tvk_member_reply tvk_next_member(struct tvk_walk *w)
{
    struct tvk_member_reply member = tvk_record_member(tvk_text_at(w->bytes), tvk_len_of(w->bytes, w->len), w->offset, w->remaining);
    w->offset = member.found ? member.next : w->offset;
    w->remaining -= member.found;
    return member;
}

/* A tag's value lies at bytes + start of its walk. */
static inline struct tvk_tag_reply tvk_next_tag(struct tvk_walk *w)
{
    struct tvk_tag_reply tag = tvk_record_tag(tvk_text_at(w->bytes), tvk_len_of(w->bytes, w->len), w->offset, w->remaining);
    w->offset = tag.found ? tag.start + tag.len : w->offset;
    w->remaining -= tag.found;
    return tag;
}

/* a record of a kind at the start of some bytes: 17, 22, or 0 */
static inline struct tvk_record tvk_record_open(uint8_t kind, const void *bytes, size_t len)
{
    struct tvk_head_reply head = tvk_record_head(kind, tvk_text_at(bytes), tvk_len_of(bytes, len));
    struct tvk_meta_reply meta = tvk_record_meta(kind, tvk_text_at(bytes), tvk_len_of(bytes, len));
    struct tvk_walk none = {NULL, 0, 0, 0}, parts = {NULL, 0, 0, 1}, tags = {NULL, 0, 0, 1};
    struct tvk_record r;
    r.number = head.number != 0 ? head.number : meta.number;
    r.kind = kind;
    r.head = head.head;
    r.meta = meta.meta;
    if (r.number == 0) {
        parts.bytes = tags.bytes = tvk_text_at(bytes);
        parts.len = tags.len = tvk_len_of(bytes, len);
        parts.offset = head.parts_at;
        parts.remaining = head.head.count;
        tags.offset = head.tags_at;
        tags.remaining = head.head.tags;
    }
    r.refs = r.number != 0 || kind == TVK_WAY ? parts : none;
    r.members = r.number != 0 || kind == TVK_RELATION ? parts : none;
    r.tags = tags;
    return r;
}

/* The record of a kind that a view names: refused as the view is, and 22 where the view found nothing. It reads the overlay's bytes, so it holds as long as the view. */
static inline struct tvk_record tvk_overlay_open(const struct tvk_overlay *o, uint8_t kind, struct tvk_view view)
{
    struct tvk_bytes bytes = tvk_view_bytes(tvk_overlay_arena(o, kind), view);
    struct tvk_record r = tvk_record_open(kind, bytes.at, bytes.len);
    if (view.number != 0)
        r.number = view.number;
    return r;
}

/* ---- numbers */

/* the signed number of bits in a word */
static inline int64_t tvk_i64_of(uint64_t bits)
{
    int64_t value;
    memcpy(&value, &bits, sizeof value);
    return value;
}

static inline int32_t tvk_i32_of(uint64_t bits)
{
    uint32_t low = (uint32_t)(bits & UINT64_C(0xffffffff));
    int32_t value;
    memcpy(&value, &low, sizeof value);
    return value;
}

/* a version as a word, and whether a word is a version; tvk_i32_of reads it */
static inline uint64_t tvk_version_word(int32_t version)
{
    return (uint64_t)(uint32_t)version;
}

static inline int tvk_is_version(uint64_t word)
{
    return word < TVK_NO_VERSION;
}

/* metadata that gives nothing */
static inline struct tvk_meta tvk_no_meta(void)
{
    struct tvk_meta meta;
    memset(&meta, 0, sizeof meta);
    return meta;
}

/* ---- the parts of a direct push, laid out in a buffer. Where one does not fit, neither it nor any after it is written, and tvk_overlay_push_parts is refused 17. A buffer
   of TVK_STAGED_BYTES holds all that a push may have. */

struct tvk_parts {
    uint8_t *at;
    size_t size;
    size_t used;
    size_t tags_from;
    uint32_t count;
    uint32_t tags;
    int full;
};

static inline struct tvk_parts tvk_parts_in(void *buffer, size_t size)
{
    struct tvk_parts p;
    memset(&p, 0, sizeof p);
    p.at = (uint8_t *)buffer;
    p.size = buffer != NULL ? size : 0;
    return p;
}

static inline void tvk_put_le(uint8_t *at, size_t n, uint64_t value)
{
    for (size_t i = 0; i < n; i++)
        at[i] = (uint8_t)((value >> (8 * i)) & 0xff);
}

/* Room for a head and a value at a place, what lies behind it moved up; NULL where they do not fit. */
static inline uint8_t *tvk_parts_room(struct tvk_parts *p, size_t from, size_t head, size_t value)
{
    size_t n = head + value;
    if (p->full || value > UINT32_MAX || n > p->size - p->used) {
        p->full = 1;
        return NULL;
    }
    memmove(p->at + from + n, p->at + from, p->used - from);
    p->used += n;
    return p->at + from;
}

/* A way's ref. Refs and members go before the tags, whenever they come. Each answers 1, or 0 where it does not fit. */
static inline int tvk_parts_ref(struct tvk_parts *p, int64_t ref)
{
    uint8_t *at = tvk_parts_room(p, p->tags_from, 8, 0);
    if (at == NULL)
        return 0;
    tvk_put_le(at, 8, (uint64_t)ref);
    p->tags_from += 8;
    p->count++;
    return 1;
}

/* A relation's member: its kind, and its role's handle. */
static inline int tvk_parts_member(struct tvk_parts *p, int64_t ref, uint8_t kind, uint32_t role)
{
    uint8_t *at = tvk_parts_room(p, p->tags_from, 13, 0);
    if (at == NULL)
        return 0;
    tvk_put_le(at, 8, (uint64_t)ref);
    at[8] = kind;
    tvk_put_le(at + 9, 4, role);
    p->tags_from += 13;
    p->count++;
    return 1;
}

/* A tag: its key's handle, and its value. */
static inline int tvk_parts_tag(struct tvk_parts *p, uint32_t key, const void *value, size_t len)
{
    size_t n = tvk_len_of(value, len);
    uint8_t *at = tvk_parts_room(p, p->used, 8, n);
    if (at == NULL)
        return 0;
    tvk_put_le(at, 4, key);
    tvk_put_le(at + 4, 4, n);
    if (n > 0)
        memcpy(at + 8, value, n);
    p->tags++;
    return 1;
}

/* A push of these parts; the head's count and tags are those of the parts. Where one did not fit, more tags are counted than any buffer holds: 17. */
static inline struct tvk_reply tvk_overlay_push_parts(struct tvk_overlay *o, uint8_t kind, struct tvk_head head, struct tvk_meta meta, const struct tvk_parts *p)
{
    head.count = p->count;
    head.tags = p->full ? UINT32_MAX : p->tags;
    return tvk_overlay_push(o, kind, head, meta, p->at, p->used);
}

#ifdef __cplusplus
}
#endif

#endif
