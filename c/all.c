/* Calls every entry and every wrapper and compares what they answer. Each part of the blocks has a size of its own, and each is filled to its end: a part taken for another is
   found. Prints how many answers were as written here; ends with 1 where one was not. */
#include "torvaskin.h"

#include <stdio.h>

static unsigned long right, wrong;

#define SAME(is, must) same((uint64_t)(is), (uint64_t)(must), #is, __LINE__)
static void same(uint64_t is, uint64_t must, const char *what, int line)
{
    if (is == must) {
        right++;
    } else {
        wrong++;
        fprintf(stderr, "line %d: %s is %llu and not %llu\n", line, what, (unsigned long long)is, (unsigned long long)must);
    }
}

#define BYTES(is, len, must) bytes((is), (len), (must), sizeof(must) - 1, __LINE__)
static void bytes(const void *is, size_t len, const char *must, size_t must_len, int line)
{
    if (len == must_len && memcmp(is, must, len) == 0) {
        right++;
    } else {
        wrong++;
        fprintf(stderr, "line %d: these bytes are others (%lu, %lu)\n", line, (unsigned long)len, (unsigned long)must_len);
        fwrite(is, 1, len, stderr);
    }
}

/* 5 nodes, 4 ways, 3 relations, 8 strings; a guard stands before and behind each block */
#define WORDS TVK_WORDS(5, 4, 3, 8)
#define BITS TVK_BYTES(245, 263, 197, 35)
static const struct tvk_sizes sizes = {{5, 245}, {4, 263}, {3, 197}, 8, 35};
static uint64_t words[1 + WORDS + 1];
static uint8_t bits[8 + BITS + 8];
static struct tvk_reader reader, second;
static struct tvk_overlay o = {words + 1, WORDS, bits + 8, BITS, {0}};

/* what is lent, to be compared with what is left */
static uint64_t words_before[1 + WORDS + 1], counters_before[TVK_COUNTERS];
static uint8_t bits_before[8 + BITS + 8];

static void keep(void)
{
    memcpy(words_before, words, sizeof words);
    memcpy(bits_before, bits, sizeof bits);
    memcpy(counters_before, o.counters, sizeof o.counters);
}

static int kept(void)
{
    return memcmp(words_before, words, sizeof words) == 0 && memcmp(bits_before, bits, sizeof bits) == 0 && memcmp(counters_before, o.counters, sizeof o.counters) == 0;
}

/* the eight sizes in the order in which the counters have them */
static uint64_t *size_at(struct tvk_sizes *z, size_t i)
{
    uint64_t *at[] = {&z->nodes.ids, &z->ways.ids, &z->relations.ids, &z->nodes.bytes, &z->ways.bytes, &z->relations.bytes, &z->strings, &z->string_bytes};
    return at[i];
}

static struct tvk_meta version(int32_t v)
{
    struct tvk_meta m = tvk_no_meta();
    m.flags = TVK_PRESENT | TVK_HAS_VERSION;
    m.version = v;
    return m;
}

static struct tvk_head head_of(int64_t id)
{
    struct tvk_head h = {id, 0, 0, 0, 0};
    return h;
}

/* ---- ids, versions, fields, text */

static void numbers(void)
{
    struct tvk_osm_key k = tvk_osm_id_key(-7);
    SAME(k.class_, 1);
    SAME(k.magnitude, 7);
    SAME(tvk_osm_id_cmp(-7, 3), 0);
    SAME(tvk_osm_id_cmp(3, 3), 1);
    SAME(tvk_osm_id_cmp(3, -7), 2);
    k = tvk_blob_osm_first_key(-5, -2);
    SAME(k.class_, 1);
    SAME(k.magnitude, 2);
    k = tvk_blob_osm_last_key(-5, -2);
    SAME(k.class_, 1);
    SAME(k.magnitude, 5);
    SAME(tvk_osm_id_rank(-4), 4);
    SAME(tvk_osm_id_rank(4), UINT64_C(9223372036854775812));

    struct tvk_reply r = tvk_version_admit(tvk_version_word(-3), tvk_version_word(-4));
    SAME(r.number, TVK_REGRESSION);
    SAME(r.held, -3);
    SAME(tvk_version_admit(tvk_version_word(4), tvk_version_word(4)).number, TVK_ACCEPTED);
    SAME(tvk_version_admit(tvk_version_word(4), TVK_NO_VERSION).number, TVK_ACCEPTED);
    SAME(tvk_version_raise(tvk_version_word(-1), tvk_version_word(-2)), UINT64_C(4294967295));
    SAME(tvk_version_raise(TVK_NO_VERSION, TVK_NO_VERSION), TVK_NO_VERSION);
    SAME(tvk_is_version(tvk_version_word(-1)), 1);
    SAME(tvk_is_version(TVK_NO_VERSION), 0);

    struct tvk_number n = tvk_field_read_i64("-12", 3);
    SAME(n.number, 0);
    SAME(tvk_i64_of(n.value), -12);
    SAME(tvk_field_read_i64(NULL, 0).number, TVK_NOT_INTEGER);
    n = tvk_field_read_i32("-1", 2);
    SAME(n.value, UINT64_C(4294967295));
    SAME(tvk_i32_of(n.value), -1);
    SAME(tvk_field_read_i32("2147483648", 10).number, TVK_NOT_INTEGER);
    SAME(tvk_field_read_i32(NULL, 0).number, TVK_NOT_INTEGER);
    n = tvk_field_parse_rfc3339_utc("2000-02-29T00:00:00Z", 20);
    SAME(n.value, 951782400);
    SAME(tvk_field_parse_rfc3339_utc(NULL, 0).number, TVK_NOT_TIMESTAMP);
    SAME(tvk_field_is_text("\xc3\xa4", 2), 1);
    SAME(tvk_field_is_text("\xc3\xa4", 1), 0);
    SAME(tvk_field_is_text(NULL, 0), 1);

    const char *sentence = tvk_refusal_sentence(TVK_COORDINATE_RANGE);
    BYTES(sentence, strlen(sentence), "A coordinate lies outside the globe.");
    sentence = tvk_refusal_sentence(TVK_NOT_DEGREES);
    BYTES(sentence, strlen(sentence), "A coordinate in degrees is not of the form 59.011234: at most one sign, one to three digits, and behind a point one to twelve.");
    sentence = tvk_refusal_sentence(TVK_UNMATCHED_END_TAG);
    BYTES(sentence, strlen(sentence), "An end tag closes nothing, or another element than the one that is open.");
    sentence = tvk_refusal_sentence(TVK_UNMATCHED_END_TAG + 1);
    BYTES(sentence, strlen(sentence), "This is no refusal's number.");
}

static void lists(void)
{
    static const int64_t live[] = {0, -2, -9, 4, 11}, deleted[] = {-3, 6}, not_in_order[] = {4, -2};
    struct tvk_number n = tvk_ids_range_overlaps(live, 5, deleted, 2, 5, 7);
    SAME(n.number, 0);
    SAME(n.value, 1);
    SAME(tvk_ids_range_overlaps(live, 5, deleted, 2, 7, 10).value, 0);
    SAME(tvk_ids_range_overlaps(live, 5, NULL, 0, 5, 7).value, 0);
    SAME(tvk_ids_range_overlaps(NULL, 0, deleted, 2, 5, 7).value, 1);
    SAME(tvk_ids_range_overlaps(live, 5, not_in_order, 2, 5, 7).number, TVK_NOT_IN_ORDER);
    struct tvk_places p = tvk_ids_upsert_range(live, 5, -2, 4);
    SAME(p.number, 0);
    SAME(p.from, 1);
    SAME(p.to, 4);
    SAME(tvk_ids_upsert_range(NULL, 0, -2, 4).to, 0);
    SAME(tvk_ids_upsert_range(not_in_order, 2, 1, 2).number, TVK_NOT_IN_ORDER);
    struct tvk_cursor c = tvk_ids_seek_find(live, 5, TVK_NO_PLACE, -9);
    SAME(c.number, 0);
    SAME(c.found, 2);
    SAME(c.place, 2);
    c = tvk_ids_seek_find(live, 5, c.place, 5);
    SAME(c.found, TVK_NO_PLACE);
    SAME(c.place, 4);
    SAME(tvk_ids_seek_find(live, 5, c.place, -9).found, TVK_NO_PLACE);
    SAME(tvk_ids_seek_find(NULL, 0, 0, 1).found, TVK_NO_PLACE);
    SAME(tvk_ids_seek_find(not_in_order, 2, 0, 4).number, TVK_NOT_IN_ORDER);
}

/* ---- set-up: 1 for sizes that are out of range or are not those of the blocks, with nothing written */

static void refused_set_up(struct tvk_sizes z)
{
    keep();
    SAME(tvk_overlay_set_up(&o, z, 1).number, TVK_SIZE);
    SAME(kept(), 1);
}

static void set_up(void)
{
    static const struct tvk_sizes largest = {{TVK_MAX_IDS, TVK_MAX_ARENA}, {TVK_MAX_IDS, TVK_MAX_ARENA}, {TVK_MAX_IDS, TVK_MAX_ARENA}, TVK_MAX_STRINGS, TVK_MAX_STRING_BYTES};
    const uint64_t half = UINT64_C(1) << 63;
    struct tvk_sizes z;

    SAME(sizeof(struct tvk_kind_size), 16);
    SAME(sizeof(struct tvk_sizes), 64);
    SAME(WORDS, 52);
    SAME(BITS, 740);
    SAME(tvk_sizes_words(sizes), 52);
    SAME(tvk_sizes_bytes(sizes), 740);
    SAME(tvk_sizes_words(largest), 45056);
    SAME(tvk_sizes_bytes(largest), 3211264);
    memset(o.counters, 0x5a, sizeof o.counters);
    SAME(tvk_overlay_is_sound(&o).number, TVK_UNSOUND);
    for (size_t i = 0; i < 8; i++) {
        /* a size too many, and one too few, for the blocks */
        z = sizes;
        ++*size_at(&z, i);
        refused_set_up(z);
        *size_at(&z, i) -= 2;
        refused_set_up(z);
        /* sizes out of range have no blocks */
        z = largest;
        ++*size_at(&z, i);
        SAME(tvk_sizes_words(z), 0);
        SAME(tvk_sizes_bytes(z), 0);
        refused_set_up(z);
    }
    /* sums that come to the blocks' lengths again, past the largest word; no ids and no strings */
    z = sizes;
    z.nodes.bytes += half;
    z.ways.bytes += half;
    refused_set_up(z);
    z = sizes;
    z.ways.ids += half;
    z.relations.ids += half;
    refused_set_up(z);
    z = sizes;
    z.strings += half;
    refused_set_up(z);
    z = sizes;
    z.nodes.ids = 9;
    z.ways.ids = 0;
    refused_set_up(z);
    z = sizes;
    z.strings = 0;
    o.words_len -= 16;
    refused_set_up(z);
    o.words_len += 16;
    /* blocks that are longer and shorter than the sizes say */
    for (size_t i = 0; i < 2; i++) {
        size_t *len = i == 0 ? &o.words_len : &o.bytes_len;
        ++*len;
        refused_set_up(sizes);
        *len -= 2;
        refused_set_up(sizes);
        ++*len;
    }

    /* 0 writes the counters and the span of handle 0 */
    keep();
    SAME(tvk_overlay_set_up(&o, sizes, 6).number, 0);
    words_before[1 + 36] = words_before[1 + 37] = 0;
    memcpy(counters_before, o.counters, sizeof o.counters);
    SAME(kept(), 1);
    for (size_t i = 0; i < TVK_LENT_IDS; i++)
        SAME(o.counters[i], i == TVK_USED_STRINGS ? 1 : i == TVK_SETTING ? 6 : 0);
    for (size_t i = 0; i < 8; i++) {
        z = sizes;
        SAME(o.counters[TVK_LENT_IDS + i], *size_at(&z, i));
        struct tvk_sizes in = tvk_sizes_in(o.counters);
        SAME(*size_at(&in, i), *size_at(&z, i));
    }
}

/* ---- many texts in one call, where all strings are held */

static void many_texts(void)
{
    static const size_t lengths[] = {4, 0, 9, 4}, two[] = {4, 1}, long_ones[] = {SIZE_MAX, 18};
    uint64_t handles[5] = {77, 77, 77, 77, 77};
    struct tvk_texts_reply t = tvk_overlay_intern_texts(&o, "namemaxweightfrom", 17, lengths, handles, 4);

    SAME(t.number, 0);
    SAME(t.taken, 4);
    SAME(handles[0], 1);
    SAME(handles[1], 0);
    SAME(handles[2], 2);
    SAME(handles[3], 3);
    SAME(handles[4], 77);
    /* the second is refused: the first has its handle, and the word of the second stays */
    t = tvk_overlay_intern_texts(&o, "fromy", 5, two, handles, 2);
    SAME(t.number, TVK_STRINGS_FULL);
    SAME(t.taken, 1);
    SAME(handles[0], 3);
    SAME(handles[1], 0);
    t = tvk_overlay_intern_texts(&o, "from\xff", 5, two, handles, 2);
    SAME(t.number, TVK_NOT_TEXT);
    SAME(t.taken, 1);
    /* lengths that do not add up, and sums past a word */
    SAME(tvk_overlay_intern_texts(&o, "from", 4, two, handles, 2).number, TVK_BAD_RECORD);
    SAME(tvk_overlay_intern_texts(&o, "fromfrom", 8, lengths, handles, 1).number, TVK_BAD_RECORD);
    SAME(tvk_overlay_intern_texts(&o, "namemaxweightfrom", 17, long_ones, handles, 2).number, TVK_BAD_RECORD);
    /* no text, of which nothing is read or written; and no room for a handle */
    t = tvk_overlay_intern_texts(&o, NULL, 0, NULL, NULL, 0);
    SAME(t.number, 0);
    SAME(t.taken, 0);
    t = tvk_intern_texts(o.words, o.words_len, o.bytes, o.bytes_len, o.counters, (const uint8_t *)"namemaxweightfrom", 17, lengths, 4, handles, 3);
    SAME(t.number, TVK_SHORT_OUTPUT);
    SAME(t.taken, 0);
    SAME(handles[0], 3);
    SAME(o.counters[TVK_USED_STRINGS], 8);
    SAME(o.counters[TVK_USED_STRING_BYTES], 34);
}

/* ---- an overlay filled by direct calls: every part to its last element */

static void direct(void)
{
    uint8_t buffer[96];
    struct tvk_parts p;
    struct tvk_head h;

    SAME(tvk_overlay_set_up(&o, sizes, 0).number, 0);
    SAME(tvk_overlay_is_sound(&o).number, 0);
    SAME(tvk_overlay_is_empty(&o).value, 1);

    /* 8 strings, the empty one among them, and 35 bytes */
    SAME(tvk_overlay_intern(&o, NULL, 0).handle, 0);
    SAME(tvk_overlay_intern(&o, "name", 4).handle, 1);
    SAME(tvk_overlay_intern(&o, "maxweight", 9).handle, 2);
    SAME(tvk_overlay_intern(&o, "name", 4).handle, 1);
    SAME(tvk_overlay_intern(&o, "from", 4).handle, 3);
    SAME(tvk_overlay_intern(&o, "surveyor", 8).handle, 4);
    SAME(tvk_overlay_intern(&o, "\xff", 1).number, TVK_NOT_TEXT);
    SAME(tvk_overlay_intern(&o, "12345678901", 11).number, TVK_STRINGS_FULL);
    SAME(tvk_overlay_intern(&o, "1234567", 7).handle, 5);
    SAME(tvk_overlay_intern(&o, "8", 1).handle, 6);
    SAME(tvk_overlay_intern(&o, "x", 1).handle, 7);
    SAME(tvk_overlay_intern(&o, "y", 1).number, TVK_STRINGS_FULL);
    SAME(o.counters[TVK_USED_STRINGS], 8);
    SAME(o.counters[TVK_USED_STRING_BYTES], 34);
    many_texts();

    /* nodes of 49 bytes: five fill 245 */
    h = head_of(-7);
    h.lat = -900000000;
    h.lon = 1800000000;
    SAME(tvk_overlay_push(&o, TVK_NODE, h, version(3), NULL, 0).number, 0);
    h.lat--;
    SAME(tvk_overlay_push(&o, TVK_NODE, h, version(3), NULL, 0).number, TVK_COORDINATE_RANGE);
    struct tvk_reply r = tvk_overlay_push(&o, TVK_NODE, head_of(-7), version(2), NULL, 0);
    SAME(r.number, TVK_REGRESSION);
    SAME(r.held, 3);
    SAME(tvk_overlay_push(&o, TVK_NODE, head_of(1), version(1), NULL, 0).number, 0);
    SAME(tvk_overlay_push(&o, TVK_NODE, head_of(2), version(1), NULL, 0).number, 0);
    SAME(tvk_overlay_push(&o, TVK_NODE, head_of(3), version(1), NULL, 0).number, 0);
    SAME(tvk_overlay_push(&o, 3, head_of(4), version(1), NULL, 0).number, TVK_BAD_RECORD);
    SAME(tvk_overlay_push(&o, TVK_NODE, head_of(4), tvk_no_meta(), NULL, 0).number, 0);
    SAME(tvk_overlay_push(&o, TVK_NODE, head_of(5), version(1), NULL, 0).number, TVK_IDS_FULL);
    SAME(tvk_overlay_push(&o, TVK_NODE, head_of(4), version(1), NULL, 0).number, TVK_ARENA_FULL);
    SAME(o.counters[TVK_USED_IDS + TVK_NODE], 5);
    SAME(o.counters[TVK_USED_ARENA + TVK_NODE], 245);

    /* a way with refs after a tag: the refs are laid out first */
    p = tvk_parts_in(buffer, sizeof buffer);
    SAME(tvk_parts_ref(&p, 1), 1);
    SAME(tvk_parts_tag(&p, 1, "Quay Road", 9), 1);
    SAME(tvk_parts_ref(&p, -2), 1);
    SAME(tvk_parts_tag(&p, 2, NULL, 0), 1);
    BYTES(buffer, p.used, "\1\0\0\0\0\0\0\0\xfe\xff\xff\xff\xff\xff\xff\xff\1\0\0\0\11\0\0\0Quay Road\2\0\0\0\0\0\0\0");
    struct tvk_meta all = {15, -5, -6, 77, -8, 4};
    SAME(tvk_overlay_push_parts(&o, TVK_WAY, head_of(10), all, &p).number, 0);
    SAME(o.counters[TVK_USED_ARENA + TVK_WAY], 86);
    BYTES(tvk_overlay_arena(&o, TVK_WAY).at, 86,
          "\12\0\0\0\0\0\0\0\2\0\0\0\2\0\0\0\17\xfb\xff\xff\xff\xfa\xff\xff\xff\xff\xff\xff\xff\115\0\0\0\0\0\0\0\xf8\xff\xff\xff\4\0\0\0"
          "\1\0\0\0\0\0\0\0\xfe\xff\xff\xff\xff\xff\xff\xff\1\0\0\0\11\0\0\0Quay Road\2\0\0\0\0\0\0\0");
    /* what does not fit its buffer is refused, and the buffer's end is kept */
    buffer[7] = 0x5a;
    p = tvk_parts_in(buffer, 7);
    SAME(tvk_parts_ref(&p, 1), 0);
    SAME(tvk_parts_tag(&p, 1, "", 0), 0);
    SAME(tvk_parts_member(&p, 1, TVK_NODE, 0), 0);
    SAME(buffer[7], 0x5a);
    SAME(tvk_overlay_push_parts(&o, TVK_WAY, head_of(11), version(1), &p).number, TVK_BAD_RECORD);
    p = tvk_parts_in(buffer, 10);
    SAME(tvk_parts_tag(&p, 1, "abc", 3), 0);
    SAME(tvk_parts_tag(&p, 1, "ab", 2), 0);
    SAME(p.used, 0);
    p = tvk_parts_in(buffer, 10);
    SAME(tvk_parts_tag(&p, 1, "ab", 2), 1);
    SAME(tvk_parts_ref(&p, 1), 0);
    SAME(tvk_overlay_push_parts(&o, TVK_NODE, head_of(1), version(1), &p).number, TVK_BAD_RECORD);
    p = tvk_parts_in(NULL, 10);
    SAME(tvk_parts_tag(&p, 1, "", 0), 0);
    /* two ways of 53 bytes and one of 71 */
    p = tvk_parts_in(buffer, sizeof buffer);
    SAME(tvk_parts_ref(&p, 1), 1);
    SAME(tvk_overlay_push_parts(&o, TVK_WAY, head_of(-10), version(1), &p).number, 0);
    SAME(tvk_overlay_push_parts(&o, TVK_WAY, head_of(11), version(1), &p).number, 0);
    SAME(tvk_parts_tag(&p, 3, "1234567890", 10), 1);
    SAME(tvk_overlay_push_parts(&o, TVK_WAY, head_of(12), version(1), &p).number, 0);
    SAME(tvk_overlay_push_parts(&o, TVK_WAY, head_of(13), version(1), &p).number, TVK_IDS_FULL);
    SAME(o.counters[TVK_USED_IDS + TVK_WAY], 4);
    SAME(o.counters[TVK_USED_ARENA + TVK_WAY], 263);

    /* relations of 58, 80 and 59 bytes */
    p = tvk_parts_in(buffer, sizeof buffer);
    SAME(tvk_parts_member(&p, -20, TVK_WAY, 3), 1);
    SAME(tvk_overlay_push_parts(&o, TVK_RELATION, head_of(20), version(1), &p).number, 0);
    SAME(tvk_parts_tag(&p, 1, "T", 1), 1);
    SAME(tvk_parts_member(&p, 21, TVK_RELATION, 0), 1);
    BYTES(buffer, p.used, "\xec\xff\xff\xff\xff\xff\xff\xff\1\3\0\0\0\25\0\0\0\0\0\0\0\2\0\0\0\0\1\0\0\0\1\0\0\0T");
    SAME(tvk_overlay_push_parts(&o, TVK_RELATION, head_of(21), version(1), &p).number, 0);
    p = tvk_parts_in(buffer, sizeof buffer);
    SAME(tvk_parts_tag(&p, 1, "1234567", 7), 1);
    SAME(tvk_overlay_push_parts(&o, TVK_RELATION, head_of(22), version(1), &p).number, TVK_ARENA_FULL);
    p = tvk_parts_in(buffer, sizeof buffer);
    SAME(tvk_parts_tag(&p, 1, "123456", 6), 1);
    SAME(tvk_overlay_push_parts(&o, TVK_RELATION, head_of(22), version(1), &p).number, 0);
    SAME(tvk_overlay_push_parts(&o, TVK_RELATION, head_of(23), version(1), &p).number, TVK_IDS_FULL);
    SAME(o.counters[TVK_USED_IDS + TVK_RELATION], 3);
    SAME(o.counters[TVK_USED_ARENA + TVK_RELATION], 197);

    /* deletes; the regression setting */
    r = tvk_overlay_delete(&o, TVK_NODE, -7, version(2));
    SAME(r.number, TVK_REGRESSION);
    SAME(r.held, 3);
    SAME(tvk_overlay_delete(&o, TVK_NODE, -7, version(4)).number, 0);
    SAME(tvk_overlay_delete(&o, TVK_WAY, -10, tvk_no_meta()).number, 0);
    SAME(tvk_overlay_delete(&o, TVK_RELATION, 99, version(1)).number, TVK_IDS_FULL);
    SAME(tvk_overlay_delete(&o, 4, 1, version(1)).number, TVK_BAD_RECORD);
    SAME(tvk_overlay_allow_version_regression(&o, 1).number, 0);
    SAME(o.counters[TVK_SETTING], 1);
    SAME(tvk_overlay_delete(&o, TVK_NODE, 3, version(0)).number, 0);
    SAME(tvk_overlay_allow_version_regression(&o, 0).number, 0);
    SAME(tvk_overlay_is_sound(&o).number, 0);
}

/* ---- the readings of what `direct` left */

static void readings(void)
{
    SAME(tvk_overlay_is_empty(&o).value, 0);
    SAME(tvk_overlay_live_count(&o, TVK_NODE).value, 3);
    SAME(tvk_overlay_live_count(&o, TVK_WAY).value, 3);
    SAME(tvk_overlay_live_count(&o, TVK_RELATION).value, 3);
    SAME(tvk_overlay_live_count(&o, 3).number, TVK_BAD_RECORD);
    SAME(tvk_overlay_deleted_count(&o, TVK_NODE).value, 2);
    SAME(tvk_overlay_deleted_count(&o, TVK_WAY).value, 1);
    SAME(tvk_overlay_deleted_count(&o, TVK_RELATION).value, 0);
    SAME(tvk_i64_of(tvk_overlay_live_id(&o, TVK_WAY, 1).value), 11);
    SAME(tvk_overlay_live_id(&o, TVK_WAY, 3).number, TVK_NO_SUCH_NUMBER);
    SAME(tvk_i64_of(tvk_overlay_deleted_id(&o, TVK_NODE, 0).value), -7);
    SAME(tvk_i64_of(tvk_overlay_deleted_id(&o, TVK_WAY, 0).value), -10);
    SAME(tvk_overlay_deleted_id(&o, TVK_WAY, 1).number, TVK_NO_SUCH_NUMBER);

    struct tvk_view v = tvk_overlay_record(&o, TVK_RELATION, 1);
    SAME(v.found, 1);
    SAME(v.start, 58);
    SAME(v.len, 80);
    SAME(tvk_overlay_arena(&o, TVK_RELATION).at[v.start], 21);
    SAME(tvk_overlay_arena(&o, TVK_NODE).len, 245);
    SAME(tvk_overlay_arena(&o, TVK_WAY).len, 263);
    SAME(tvk_overlay_arena(&o, TVK_RELATION).len, 197);
    SAME(tvk_overlay_arena(&o, 3).len, 0);
    SAME(tvk_overlay_string_bytes(&o).len, 35);
    SAME(tvk_overlay_record(&o, TVK_RELATION, 3).number, TVK_NO_SUCH_NUMBER);
    v = tvk_overlay_get(&o, TVK_WAY, 11);
    SAME(v.found, 1);
    SAME(v.start, 139);
    SAME(v.len, 53);
    v = tvk_overlay_get(&o, TVK_WAY, -10);
    SAME(v.number, 0);
    SAME(v.found, 0);
    SAME(tvk_overlay_has(&o, TVK_NODE, 4).value, 1);
    SAME(tvk_overlay_has(&o, TVK_NODE, -7).value, 0);
    SAME(tvk_overlay_is_deleted(&o, TVK_NODE, -7).value, 1);
    SAME(tvk_overlay_is_deleted(&o, TVK_NODE, 4).value, 0);
    SAME(tvk_i32_of(tvk_overlay_known_version(&o, TVK_WAY, 10).value), -5);
    SAME(tvk_overlay_known_version(&o, TVK_NODE, 4).value, TVK_NO_VERSION);
    v = tvk_overlay_text(&o, 4);
    BYTES(tvk_overlay_string_bytes(&o).at + v.start, v.len, "surveyor");
    SAME(tvk_overlay_text(&o, 0).len, 0);
    SAME(tvk_overlay_text(&o, 8).number, TVK_NO_SUCH_NUMBER);

    uint64_t ids[4] = {9, 9, 9, 9};
    uint64_t versions[4] = {9, 9, 9, 9};
    SAME(tvk_overlay_live_ids(&o, TVK_NODE, ids, versions, 2).number, TVK_SHORT_OUTPUT);
    SAME(tvk_overlay_live_ids(&o, 3, ids, versions, 4).number, TVK_BAD_RECORD);
    SAME(ids[0], 9);
    SAME(versions[0], 9);
    SAME(tvk_overlay_live_ids(&o, TVK_NODE, ids, versions, 4).value, 3);
    SAME(ids[0], 1);
    SAME(ids[1], 2);
    SAME(ids[2], 4);
    SAME(ids[3], 9);
    SAME(versions[0], 1);
    SAME(versions[1], 1);
    SAME(versions[2], TVK_NO_VERSION);
    SAME(versions[3], 9);
    SAME(tvk_overlay_deleted_ids(&o, TVK_NODE, ids, versions, 2).value, 2);
    SAME(tvk_i64_of(ids[0]), -7);
    SAME(ids[1], 3);
    SAME(versions[0], 4);
    SAME(versions[1], 1);
    SAME(ids[2], 4);
    SAME(tvk_overlay_deleted_ids(&o, TVK_RELATION, NULL, NULL, 0).value, 0);

    char page[512];
    static const char listing[] = "n\t-7\t-\t4\nn\t1\t+\t1\t9\t1\t0\t0\t0\t\t0\t0\t0\nn\t2\t+\t1\t9\t1\t0\t0\t0\t\t0\t0\t0\nn\t3\t-\t1\nn\t4\t+\t?\t0\t0\t0\t0\t0\t\t0\t0\t0\n"
                                  "w\t-10\t-\t1\nw\t10\t+\t-5\t15\t-5\t-6\t77\t-8\tsurveyor\t2\t1\t-2\t2\tname\tQuay Road\tmaxweight\t\n"
                                  "w\t11\t+\t1\t9\t1\t0\t0\t0\t\t1\t1\t0\nw\t12\t+\t1\t9\t1\t0\t0\t0\t\t1\t1\t1\tfrom\t1234567890\n"
                                  "r\t20\t+\t1\t9\t1\t0\t0\t0\t\t1\t1\t-20\tfrom\t0\nr\t21\t+\t1\t9\t1\t0\t0\t0\t\t2\t1\t-20\tfrom\t2\t21\t\t1\tname\tT\n"
                                  "r\t22\t+\t1\t9\t1\t0\t0\t0\t\t0\t1\tname\t123456\n";
    memset(page, 'x', sizeof page);
    SAME(tvk_overlay_listing_length(&o).number, 0);
    SAME(tvk_overlay_listing_length(&o).length, sizeof listing - 1);
    SAME(tvk_overlay_listing(&o, page, sizeof listing - 2).number, TVK_SHORT_OUTPUT);
    SAME(page[0], 'x');
    SAME(tvk_overlay_listing(&o, NULL, 512).number, TVK_SHORT_OUTPUT);
    struct tvk_listing_reply l = tvk_overlay_listing(&o, page, sizeof page);
    SAME(l.number, 0);
    BYTES(page, l.length, listing);
    SAME(page[l.length], 'x');
}

/* ---- records read from their bytes: by the walks of the header, and by offsets written here */

/* what was read of a record, word by word, and the refusal */
struct found {
    uint64_t words[32];
    size_t used;
    uint32_t number;
};

static void find(struct found *f, uint64_t word)
{
    if (f->used < sizeof f->words / sizeof f->words[0])
        f->words[f->used++] = word;
}

/* a step goes forward, and not past the bytes */
static void onward(const struct tvk_walk *from, const struct tvk_walk *to, uint32_t found)
{
    SAME(to->remaining, from->remaining - found);
    SAME(found == 0 ? to->offset == from->offset : from->offset < to->offset && to->offset <= to->len, 1);
}

static struct found by_walks(uint8_t kind, const uint8_t *at, size_t len)
{
    struct found f = {{0}, 0, 0};
    struct tvk_record r = tvk_record_open(kind, at, len);
    struct tvk_walk from;
    struct tvk_ref_reply ref;
    struct tvk_member_reply member;
    struct tvk_tag_reply tag;

    f.number = r.number;
    if (r.number != 0) {
        SAME(tvk_next_ref(&r.refs).number, TVK_UNSOUND);
        SAME(tvk_next_member(&r.members).number, TVK_UNSOUND);
        SAME(tvk_next_tag(&r.tags).number, TVK_UNSOUND);
        return f;
    }
    find(&f, (uint64_t)r.head.id);
    find(&f, (uint32_t)r.head.lat);
    find(&f, (uint32_t)r.head.lon);
    find(&f, r.head.count);
    find(&f, r.head.tags);
    find(&f, r.meta.flags);
    find(&f, (uint32_t)r.meta.version);
    find(&f, (uint64_t)r.meta.timestamp);
    find(&f, (uint64_t)r.meta.changeset);
    find(&f, (uint32_t)r.meta.uid);
    find(&f, r.meta.user);
    do {
        from = r.refs;
        ref = tvk_next_ref(&r.refs);
        onward(&from, &r.refs, ref.found);
        if (ref.found)
            find(&f, (uint64_t)ref.value);
    } while (ref.found);
    do {
        from = r.members;
        member = tvk_next_member(&r.members);
        onward(&from, &r.members, member.found);
        if (member.found) {
            find(&f, (uint64_t)member.reference);
            find(&f, member.kind);
            find(&f, member.role);
        }
    } while (member.found);
    f.number = ref.number != 0 ? ref.number : member.number;
    if (f.number != 0)
        return f;
    do {
        from = r.tags;
        tag = tvk_next_tag(&r.tags);
        onward(&from, &r.tags, tag.found);
        if (tag.found) {
            find(&f, tag.key);
            find(&f, tag.start);
            find(&f, tag.len);
        }
    } while (tag.found);
    f.number = tag.number;
    return f;
}

static uint64_t le(const uint8_t *at, size_t n)
{
    uint64_t value = 0;
    while (n-- > 0)
        value = value << 8 | at[n];
    return value;
}

/* docs/STORAGE.md, "Records" */
static struct found by_offsets(uint8_t kind, const uint8_t *at, size_t len)
{
    struct found f = {{0}, 0, TVK_UNSOUND};
    size_t head = kind == TVK_NODE ? 20 : 16, next = head + 29, part = kind == TVK_WAY ? 8 : 13;
    uint64_t count, tags;

    if (len < next)
        return f;
    count = kind == TVK_NODE ? 0 : le(at + 8, 4);
    tags = le(at + head - 4, 4);
    find(&f, le(at, 8));
    find(&f, kind == TVK_NODE ? le(at + 8, 4) : 0);
    find(&f, kind == TVK_NODE ? le(at + 12, 4) : 0);
    find(&f, count);
    find(&f, tags);
    find(&f, at[head]);
    find(&f, le(at + head + 1, 4));
    find(&f, le(at + head + 5, 8));
    find(&f, le(at + head + 13, 8));
    find(&f, le(at + head + 21, 4));
    find(&f, le(at + head + 25, 4));
    for (; count > 0; count--, next += part) {
        if (len - next < part || (kind == TVK_RELATION && at[next + 8] > TVK_RELATION))
            return f;
        find(&f, le(at + next, 8));
        if (kind == TVK_RELATION) {
            find(&f, at[next + 8]);
            find(&f, le(at + next + 9, 4));
        }
    }
    for (; tags > 0; tags--) {
        size_t value;
        if (len - next < 8)
            return f;
        value = (size_t)le(at + next + 4, 4);
        if (len - next - 8 < value || !tvk_field_is_text(at + next + 8, value))
            return f;
        find(&f, le(at + next, 4));
        find(&f, next + 8);
        find(&f, value);
        next += 8 + value;
    }
    f.number = 0;
    return f;
}

static uint32_t read_both_ways(uint8_t kind, const uint8_t *at, size_t len)
{
    struct found is = by_walks(kind, at, len), must = by_offsets(kind, at, len);
    SAME(is.number, must.number);
    SAME(is.used, must.used);
    SAME(memcmp(is.words, must.words, sizeof is.words), 0);
    return is.number;
}

/* whole, cut short anywhere, and with each bit turned; the bytes end where their array does */
static void damaged_record(uint8_t kind, uint64_t n)
{
    static uint8_t copy[96];
    struct tvk_bytes record = tvk_view_bytes(tvk_overlay_arena(&o, kind), tvk_overlay_record(&o, kind, n));

    SAME(record.len <= sizeof copy, 1);
    SAME(read_both_ways(kind, record.at, record.len), 0);
    for (size_t len = 0; len < record.len; len++) {
        uint8_t *at = copy + sizeof copy - len;
        memcpy(at, record.at, len);
        SAME(read_both_ways(kind, at, len), TVK_UNSOUND);
    }
    for (size_t bit = 0; bit < 8 * record.len; bit++) {
        uint8_t *at = copy + sizeof copy - record.len;
        memcpy(at, record.at, record.len);
        at[bit / 8] ^= (uint8_t)(1u << bit % 8);
        read_both_ways(kind, at, record.len);
    }
}

static void records(void)
{
    struct tvk_record r = tvk_overlay_open(&o, TVK_WAY, tvk_overlay_get(&o, TVK_WAY, 10));
    struct tvk_walk again = r.refs;
    struct tvk_tag_reply tag;
    struct tvk_member_reply member;

    SAME(r.number, 0);
    SAME(r.kind, TVK_WAY);
    SAME(r.head.id, 10);
    SAME(r.head.count, 2);
    SAME(r.meta.timestamp, -6);
    SAME(tvk_next_ref(&r.refs).value, 1);
    SAME(tvk_next_ref(&r.refs).value, -2);
    SAME(tvk_next_ref(&r.refs).found, 0);
    SAME(tvk_next_ref(&r.refs).number, 0);
    SAME(tvk_next_ref(&again).value, 1);
    SAME(tvk_next_member(&r.members).found, 0);
    tag = tvk_next_tag(&r.tags);
    SAME(tag.key, 1);
    BYTES(r.tags.bytes + tag.start, tag.len, "Quay Road");
    SAME(tvk_next_tag(&r.tags).key, 2);
    tag = tvk_next_tag(&r.tags);
    SAME(tag.number, 0);
    SAME(tag.found, 0);

    r = tvk_overlay_open(&o, TVK_RELATION, tvk_overlay_record(&o, TVK_RELATION, 1));
    SAME(r.head.id, 21);
    SAME(tvk_next_ref(&r.refs).found, 0);
    member = tvk_next_member(&r.members);
    SAME(member.reference, -20);
    SAME(member.kind, TVK_WAY);
    SAME(member.role, 3);
    SAME(tvk_next_member(&r.members).reference, 21);
    SAME(tvk_next_member(&r.members).found, 0);

    r = tvk_overlay_open(&o, TVK_NODE, tvk_overlay_get(&o, TVK_NODE, 4));
    SAME(r.number, 0);
    SAME(r.meta.flags, 0);
    SAME(tvk_next_ref(&r.refs).found + tvk_next_member(&r.members).found + tvk_next_tag(&r.tags).found, 0);

    /* a view that is refused, or found nothing; bytes that are none; a kind that is none */
    SAME(tvk_overlay_open(&o, TVK_NODE, tvk_overlay_record(&o, TVK_NODE, 9)).number, TVK_NO_SUCH_NUMBER);
    SAME(tvk_overlay_open(&o, TVK_NODE, tvk_overlay_get(&o, TVK_NODE, -7)).number, TVK_UNSOUND);
    SAME(tvk_overlay_open(&o, 3, tvk_overlay_get(&o, 3, 1)).number, TVK_BAD_RECORD);
    SAME(tvk_record_open(TVK_NODE, NULL, 60).number, TVK_UNSOUND);
    SAME(tvk_record_open(3, NULL, 0).number, TVK_BAD_RECORD);
    SAME(tvk_record_head(3, o.bytes, 0).number, TVK_BAD_RECORD);
    SAME(tvk_record_meta(255, o.bytes, 60).number, TVK_BAD_RECORD);
    /* no view leads outside its block */
    struct tvk_view v = {0, 1, 240, 6};
    SAME(tvk_view_bytes(tvk_overlay_arena(&o, TVK_NODE), v).len, 0);
    v.start = SIZE_MAX;
    SAME(tvk_view_bytes(tvk_overlay_arena(&o, TVK_NODE), v).len, 0);
    v.start = 239;
    SAME(tvk_view_bytes(tvk_overlay_arena(&o, TVK_NODE), v).at - o.bytes, 239);

    /* offsets that are none: done at 0 remaining, else 22 */
    static const size_t offsets[] = {49, 50, SIZE_MAX - 12, SIZE_MAX - 7, SIZE_MAX};
    for (size_t i = 0; i < sizeof offsets / sizeof offsets[0]; i++) {
        for (uint32_t remaining = 0; remaining < 2; remaining++) {
            uint32_t number = remaining == 0 ? 0 : TVK_UNSOUND;
            SAME(tvk_record_ref(o.bytes, 49, offsets[i], remaining).number, number);
            SAME(tvk_record_member(o.bytes, 49, offsets[i], remaining).number, number);
            SAME(tvk_record_tag(o.bytes, 49, offsets[i], remaining).number, number);
            SAME(tvk_record_ref(o.bytes, 49, offsets[i], remaining).found, 0);
        }
    }
    for (uint8_t kind = TVK_NODE; kind <= TVK_RELATION; kind++)
        for (uint64_t n = 0; n < tvk_overlay_live_count(&o, kind).value; n++)
            damaged_record(kind, n);
}

/* ---- where the parts lie in the blocks */

static void places(void)
{
    static const size_t tables[] = {0, 15, 27}, arenas[] = {0, 245, 508};
    static const int64_t first[] = {-7, -10, 20};
    static const uint8_t first_byte[] = {0xf9, 10, 20};

    for (uint8_t k = 0; k < 3; k++) {
        /* the first row is of the first id in OSM order, the first record of the first push */
        SAME(o.words[tables[k]], tvk_osm_id_rank(first[k]));
        SAME(tvk_overlay_arena(&o, k).at - o.bytes, arenas[k]);
        SAME(o.bytes[arenas[k]], first_byte[k]);
    }
    SAME(o.words[36] + o.words[37] + o.words[38], 0);
    SAME(o.words[39], 4);
    SAME(o.words[50], 33);
    SAME(o.words[51], 1);
    SAME(tvk_overlay_string_bytes(&o).at - o.bytes, 705);
    BYTES(o.bytes + 705, 13, "namemaxweight");

    /* no counters lead outside the block */
    struct tvk_overlay damaged = o;
    damaged.counters[TVK_LENT_ARENA + TVK_WAY] = UINT64_MAX;
    SAME(tvk_overlay_arena(&damaged, TVK_NODE).len, 245);
    SAME(tvk_overlay_arena(&damaged, TVK_WAY).len, 495);
    SAME(tvk_overlay_arena(&damaged, TVK_RELATION).len, 0);
    SAME(tvk_overlay_arena(&damaged, TVK_RELATION).at - o.bytes, 740);
    SAME(tvk_overlay_string_bytes(&damaged).len, 0);
    damaged.counters[TVK_LENT_ARENA + TVK_NODE] = 741;
    SAME(tvk_overlay_arena(&damaged, TVK_NODE).len, 740);
    SAME(tvk_overlay_arena(&damaged, TVK_WAY).len, 0);
    memset(damaged.counters, 0, sizeof damaged.counters);
    SAME(tvk_overlay_arena(&damaged, TVK_RELATION).len, 0);
    SAME(tvk_overlay_string_bytes(&damaged).len, 740);
}

/* ---- an overlay that was saved: its counters say how long its blocks are */

static void saved(void)
{
    static uint64_t other_words[WORDS];
    static uint8_t other_bytes[BITS];
    static char page[512], other_page[512];
    struct tvk_overlay other;

    memcpy(other.counters, o.counters, sizeof o.counters);
    other.words = other_words;
    other.words_len = tvk_sizes_words(tvk_sizes_in(other.counters));
    other.bytes = other_bytes;
    other.bytes_len = tvk_sizes_bytes(tvk_sizes_in(other.counters));
    SAME(other.words_len, WORDS);
    SAME(other.bytes_len, BITS);
    memcpy(other_words, o.words, sizeof other_words);
    memcpy(other_bytes, o.bytes, sizeof other_bytes);
    SAME(tvk_overlay_is_sound(&other).number, 0);
    struct tvk_listing_reply l = tvk_overlay_listing(&o, page, sizeof page);
    SAME(l.number, 0);
    SAME(tvk_overlay_listing(&other, other_page, sizeof other_page).length, l.length);
    SAME(memcmp(page, other_page, l.length), 0);
}

/* ---- blocks that are not those of the sizes: 22 from every call, with nothing changed */

static const char document[] = "open\tosmChange\nopen\tmodify\nopen\tnode\tid=7\tversion=3\tlat7=10\tlon7=-20\nempty\ttag\tk=name\tv=A\nclose\nclose\nclose\n";

static void refused(void)
{
    static const size_t short_text = 3;
    uint64_t ids[8], versions[8];
    char page[512];

    keep();
    SAME(tvk_overlay_is_sound(&o).number, TVK_UNSOUND);
    SAME(tvk_overlay_allow_version_regression(&o, 1).number, TVK_UNSOUND);
    SAME(tvk_overlay_intern(&o, "name", 4).number, TVK_UNSOUND);
    SAME(tvk_overlay_intern_texts(&o, NULL, 0, NULL, NULL, 0).number, TVK_UNSOUND);
    SAME(tvk_overlay_intern_texts(&o, "name", 4, &short_text, ids, 1).number, TVK_UNSOUND);
    SAME(tvk_overlay_is_empty(&o).number, TVK_UNSOUND);
    SAME(tvk_overlay_text(&o, 0).number, TVK_UNSOUND);
    for (uint8_t k = 0; k < 4; k++) {
        SAME(tvk_overlay_push(&o, k, head_of(1), version(9), NULL, 0).number, TVK_UNSOUND);
        SAME(tvk_overlay_delete(&o, k, 1, version(9)).number, TVK_UNSOUND);
        SAME(tvk_overlay_live_count(&o, k).number, TVK_UNSOUND);
        SAME(tvk_overlay_deleted_count(&o, k).number, TVK_UNSOUND);
        SAME(tvk_overlay_live_id(&o, k, 0).number, TVK_UNSOUND);
        SAME(tvk_overlay_deleted_id(&o, k, 0).number, TVK_UNSOUND);
        SAME(tvk_overlay_record(&o, k, 0).number, TVK_UNSOUND);
        SAME(tvk_overlay_get(&o, k, 1).number, TVK_UNSOUND);
        SAME(tvk_overlay_has(&o, k, 1).number, TVK_UNSOUND);
        SAME(tvk_overlay_is_deleted(&o, k, 1).number, TVK_UNSOUND);
        SAME(tvk_overlay_known_version(&o, k, 1).number, TVK_UNSOUND);
        SAME(tvk_overlay_live_ids(&o, k, ids, versions, 8).number, TVK_UNSOUND);
        SAME(tvk_overlay_deleted_ids(&o, k, ids, versions, 8).number, TVK_UNSOUND);
    }
    SAME(tvk_overlay_listing(&o, page, sizeof page).number, TVK_UNSOUND);
    SAME(tvk_overlay_listing_length(&o).number, TVK_UNSOUND);
    SAME(tvk_overlay_listing_length(&o).length, 0);
    SAME(tvk_reader_event(&second, &o, document, 15).number, TVK_UNSOUND);
    SAME(tvk_reader_events(&second, &o, document, sizeof document - 1).number, TVK_UNSOUND);
    SAME(tvk_reader_events(&second, &o, document, 5).number, TVK_UNSOUND);
    SAME(tvk_reader_events(&second, &o, NULL, 0).number, TVK_UNSOUND);
    SAME(tvk_reader_end(&second, &o).number, TVK_UNSOUND);
    SAME(second.words[0] + second.words[15] + second.words[16], 0);
    SAME(kept(), 1);
}

static void other_blocks(void)
{
    /* sizes whose parts lie beside each other in a block */
    static const size_t beside[][2] = {{TVK_LENT_IDS + TVK_NODE, TVK_LENT_IDS + TVK_WAY},
                                       {TVK_LENT_IDS + TVK_WAY, TVK_LENT_IDS + TVK_RELATION},
                                       {TVK_LENT_ARENA + TVK_NODE, TVK_LENT_ARENA + TVK_WAY},
                                       {TVK_LENT_ARENA + TVK_WAY, TVK_LENT_ARENA + TVK_RELATION},
                                       {TVK_LENT_ARENA + TVK_RELATION, TVK_LENT_STRING_BYTES}};

    for (size_t i = 0; i < 2; i++) {
        size_t *len = i == 0 ? &o.words_len : &o.bytes_len;
        ++*len;
        refused();
        *len -= 2;
        refused();
        ++*len;
    }
    /* a damaged size: the parts do not fill the block */
    for (size_t i = TVK_LENT_IDS; i < TVK_COUNTERS; i++) {
        ++o.counters[i];
        refused();
        o.counters[i] -= 2;
        refused();
        ++o.counters[i];
    }
    /* two: they fill it, but one begins at another place */
    for (size_t i = 0; i < 5; i++) {
        for (size_t k = 0; k < 2; k++) {
            ++o.counters[beside[i][k]];
            --o.counters[beside[i][1 - k]];
            refused();
            --o.counters[beside[i][k]];
            ++o.counters[beside[i][1 - k]];
        }
    }
    SAME(tvk_overlay_is_sound(&o).number, 0);
}

/* ---- readers */

static void readers(void)
{
    static char line[6 + TVK_MAX_LINE + 1];
    const size_t len = sizeof document - 1;
    char page[64];

    SAME(tvk_overlay_set_up(&o, sizes, 0).number, 0);
    SAME(tvk_reader_end(&reader, &o).number, TVK_UNFINISHED);
    SAME(tvk_reader_end(&reader, &o).line, 1);
    SAME(tvk_reader_event(&reader, &o, "open\tosmChange\n", 15).number, 0);
    struct tvk_event_reply e = tvk_reader_event(&reader, &o, "empty\tnode\tid=1\n", 16);
    SAME(e.number, TVK_OUTSIDE_SECTION);
    SAME(e.line, 2);
    SAME(tvk_reader_event(&reader, &o, "close\n", 6).number, TVK_OUTSIDE_SECTION);
    SAME(tvk_reader_end(&reader, &o).line, 2);
    tvk_reader_clear(&reader);
    SAME(tvk_reader_event(&reader, &o, NULL, 0).number, TVK_NOT_EVENT_LINE);

    /* a run in two pieces; the staged bytes lie between them */
    tvk_reader_clear(&reader);
    struct tvk_events_reply run = tvk_reader_events(&reader, &o, document, 80);
    SAME(run.number, 0);
    SAME(run.taken, 69);
    SAME(reader.words[15], 3);
    run = tvk_reader_events(&reader, &o, document + 69, len - 69);
    SAME(run.number, 0);
    SAME(run.taken, len - 69);
    SAME(tvk_reader_end(&reader, &o).number, 0);
    SAME(tvk_reader_events(&reader, &o, NULL, 5).taken, 0);
    struct tvk_listing_reply l = tvk_overlay_listing(&o, page, sizeof page);
    BYTES(page, l.length, "n\t7\t+\t3\t9\t3\t0\t0\t0\t\t10\t-20\t1\tname\tA\n");

    /* a refused line is not taken, and stops the reader; a second reader goes on */
    run = tvk_reader_events(&second, &o, "open\tosmChange\nopen\tdelete\nempty\tnode\tid=7\tversion=2\nclose\n", 61);
    SAME(run.number, TVK_REGRESSION);
    SAME(run.held, 3);
    SAME(run.line, 3);
    SAME(run.taken, 27);
    run = tvk_reader_events(&second, &o, "close\n", 6);
    SAME(run.number, TVK_REGRESSION);
    SAME(run.taken, 0);
    SAME(tvk_reader_events(&second, &o, NULL, 0).number, TVK_REGRESSION);
    SAME(tvk_reader_end(&second, &o).held, 3);
    tvk_reader_clear(&reader);
    SAME(tvk_reader_events(&reader, &o, document, len).taken, len);

    /* an unfinished line, as long as a line may be and longer, behind one that is taken */
    memset(line, 'x', sizeof line);
    memcpy(line, "other\n", 6);
    tvk_reader_clear(&second);
    run = tvk_reader_events(&second, &o, line, sizeof line - 1);
    SAME(run.number, 0);
    SAME(run.taken, 6);
    run = tvk_reader_events(&second, &o, line, sizeof line);
    SAME(run.number, TVK_LONG_LINE);
    SAME(run.line, 3);
    SAME(run.taken, 6);

    /* coordinates in degrees: taken, of another form, in both forms */
    static const char degrees[] = "open\tosmChange\nopen\tmodify\nempty\tnode\tid=7\tlat=0.00000005\tlon=-180\nclose\nclose\n";
    static const struct {
        const char *fields;
        uint32_t number;
    } others[] = {{"\tlat=5.\tlon=0", TVK_NOT_DEGREES}, {"\tlat=5\tlon=0\tlon7=x", TVK_BOTH_FORMS}, {"\tlat=90.000000000001\tlon=0", TVK_COORDINATE_RANGE}};
    tvk_reader_clear(&second);
    SAME(tvk_reader_events(&second, &o, degrees, sizeof degrees - 1).number, 0);
    SAME(tvk_reader_end(&second, &o).number, 0);
    l = tvk_overlay_listing(&o, page, sizeof page);
    BYTES(page, l.length, "n\t7\t+\t3\t0\t0\t0\t0\t0\t\t1\t-1800000000\t0\n");
    for (size_t n = 0; n < sizeof others / sizeof others[0]; n++) {
        int length = snprintf(line, sizeof line, "open\tosmChange\nopen\tmodify\nempty\tnode\tid=7%s\n", others[n].fields);
        tvk_reader_clear(&second);
        run = tvk_reader_events(&second, &o, line, (size_t)length);
        SAME(run.number, others[n].number);
        SAME(run.line, 3);
        SAME(second.words[16], others[n].number);
        SAME(tvk_reader_end(&second, &o).number, others[n].number);
    }

    /* words that are no reader's */
    reader.words[0] = 7;
    run = tvk_reader_events(&reader, &o, document, len);
    SAME(run.number, TVK_UNSOUND);
    SAME(run.taken, 0);
    SAME(tvk_reader_event(&reader, &o, "close\n", 6).number, TVK_UNSOUND);
    SAME(tvk_reader_end(&reader, &o).number, TVK_UNSOUND);
    SAME(reader.words[0], 7);

    /* a stop mark that no event leaves */
    tvk_reader_clear(&reader);
    reader.words[16] = TVK_BAD_RECORD;
    SAME(tvk_reader_event(&reader, &o, document, 15).number, TVK_UNSOUND);
    SAME(tvk_reader_end(&reader, &o).number, TVK_UNSOUND);
    SAME(reader.words[16], TVK_BAD_RECORD);
}

/* ---- a reader of files */

static const char change[] = "\xef\xbb\xbf<?xml version='1.0' encoding=\"utf-8\" standalone='no' ?>\n<osmChange version=\"0.6\" ><!-- a - comment -->\n<?other data?><modify>\n"
                             "<node id = \"7\" version='3' lat=\"0.000001\" lon=\"-0.000002\"><tag k=\"name\" v=\"&#65;&amp;&#x42;\xc3\xa4\"/></node >\n</modify></osmChange>";
static struct tvk_change_file file, file_before;

/* the words of a place with the reader's others as they are before the first byte, by the end of a file: 25 within markup, 18 between, 22 for words that are none */
static uint32_t end_of_words(uint64_t number, uint64_t first, uint64_t second, uint64_t chars)
{
    tvk_change_file_clear(&file);
    file.words[0] = number;
    file.words[1] = first;
    file.words[2] = second;
    file.words[3] = chars;
    return tvk_change_file_end(&file, &o).number;
}

static uint32_t end_of_word(size_t at, uint64_t number, uint64_t word)
{
    tvk_change_file_clear(&file);
    file.words[0] = number;
    file.words[at] = word;
    return tvk_change_file_end(&file, &o).number;
}

/* each number of a place with the words beside it up to their bounds and past them */
static void file_words(void)
{
    static const uint64_t most[34][2] = {{4, 0}, {1, 0}, {0, 0}, {1, 0}, {0, 0}, {0, 0}, {0, 0}, {1, 1}, {1, 0}, {1, 13}, {1, 0}, {1, 0x10ffff},
                                         {1, 0}, {1, 0x10ffff}, {0, 0}, {0, 0}, {0, 0}, {0, 0}, {0, 0}, {0, 0}, {1, 0}, {0, 0}, {1, 0}, {1, 6},
                                         {0, 0}, {1, 0}, {3, 1}, {6, 0}, {7, 0}, {9, 0}, {2, 0}, {2, 0}, {1, 15}, {0, 0}};
    static const uint64_t begun[] = {0, 0xc2, 0xf4, 0xa0e0, 0x80e1, 0x9fed, 0x8ff4, 0x8090f0, 0xbf8ff4};
    static const uint64_t not_begun[] = {1, 0x41, 0xc1, 0xf5, 0x80df, 0x9fe0, 0xa0ed, 0x8ff0, 0x90f4, 0x7f90f0, 0x8080ee, 0x1000000, UINT64_MAX};

    for (uint64_t number = 0; number < 34; number++) {
        uint32_t named = number == 0 ? TVK_UNFINISHED : TVK_NOT_MARKUP;
        for (uint64_t first = 0; first <= most[number][0] + 1; first++) {
            for (uint64_t second = 0; second <= 16; second++)
                SAME(end_of_words(number, first, second, 0), first <= most[number][0] && second <= most[number][1] ? named : TVK_UNSOUND);
            SAME(end_of_words(number, first, most[number][1], 0), first <= most[number][0] ? named : TVK_UNSOUND);
            SAME(end_of_words(number, first, most[number][1] + 1, 0), TVK_UNSOUND);
        }
        SAME(end_of_words(number, UINT64_MAX, 0, 0), TVK_UNSOUND);
        SAME(end_of_words(number, 256, 0, 0), TVK_UNSOUND);
        SAME(end_of_words(number, 0, UINT64_MAX, 0), TVK_UNSOUND);
        SAME(end_of_words(number, 0, UINT64_C(1) << 32, 0), TVK_UNSOUND);
        for (size_t i = 0; i < sizeof begun / sizeof begun[0]; i++)
            SAME(end_of_words(number, 0, 0, begun[i]), number == 0 && i != 0 ? TVK_UNSOUND : named);
        for (size_t i = 0; i < sizeof not_begun / sizeof not_begun[0]; i++)
            SAME(end_of_words(number, 0, 0, not_begun[i]), TVK_UNSOUND);
    }
    SAME(end_of_words(34, 0, 0, 0), TVK_UNSOUND);
    SAME(end_of_words(UINT64_MAX, 0, 0, 0), TVK_UNSOUND);

    /* no more line feeds before the markup than so far, its line within its room, and a name only where one is open */
    SAME(end_of_word(4, 1, 1), TVK_UNSOUND);
    SAME(end_of_word(5, 1, 16380), TVK_NOT_MARKUP);
    SAME(end_of_word(5, 1, 16381), TVK_UNSOUND);
    SAME(end_of_word(5, 1, UINT64_MAX), TVK_UNSOUND);
    SAME(end_of_word(6, 1, 1), TVK_UNSOUND);
    SAME(end_of_word(4, 0, 1), TVK_UNSOUND);
    SAME(end_of_word(5, 0, 1), TVK_UNSOUND);

    /* a piece for words that are none changes nothing */
    file.words[0] = 34;
    memcpy(&file_before, &file, sizeof file);
    keep();
    SAME(tvk_change_file_piece(&file, &o, change, sizeof change - 1).number, TVK_UNSOUND);
    SAME(kept() && memcmp(&file, &file_before, sizeof file) == 0, 1);
    tvk_change_file_clear(&file);
    file.reader.words[0] = 7;
    SAME(tvk_change_file_piece(&file, &o, NULL, 0).number, TVK_UNSOUND);
    SAME(tvk_change_file_end(&file, &o).number, TVK_UNSOUND);
}

static void files(void)
{
    const size_t len = sizeof change - 1;
    char page[64];
    size_t within = 0;
    uint64_t feeds = 0, line = 1;

    SAME(sizeof file.bytes, TVK_FILE_BYTES);
    SAME(tvk_overlay_set_up(&o, sizes, 0).number, 0);
    SAME(tvk_change_file_end(&file, &o).number, TVK_UNFINISHED);
    SAME(tvk_change_file_piece(&file, &o, change, len).number, 0);
    SAME(tvk_change_file_end(&file, &o).number, 0);
    struct tvk_listing_reply l = tvk_overlay_listing(&o, page, sizeof page);
    BYTES(page, l.length, "n\t7\t+\t3\t9\t3\t0\t0\t0\t\t10\t-20\t1\tname\tA&B\xc3\xa4\n");

    /* byte by byte: after each its words are a reader's, and the end says where the file would end */
    SAME(tvk_overlay_set_up(&o, sizes, 0).number, 0);
    tvk_change_file_clear(&file);
    for (size_t i = 0; i < len; i++) {
        if (change[i] == '<') {
            within = 1;
            line = feeds + 1;
        }
        if (change[i] == '>')
            within = 0;
        if (change[i] == '\n')
            feeds++;
        SAME(tvk_change_file_piece(&file, &o, change + i, 1).number, 0);
        struct tvk_event_reply e = tvk_change_file_end(&file, &o);
        SAME(e.number, within ? TVK_NOT_MARKUP : i + 1 < len ? TVK_UNFINISHED : 0);
        SAME(e.line, within ? line : i + 1 < len ? feeds + 1 : 0);
        SAME(tvk_change_file_piece(&file, &o, NULL, 0).number, 0);
    }
    l = tvk_overlay_listing(&o, page, sizeof page);
    BYTES(page, l.length, "n\t7\t+\t3\t9\t3\t0\t0\t0\t\t10\t-20\t1\tname\tA&B\xc3\xa4\n");

    /* what is refused stops the reader */
    tvk_change_file_clear(&file);
    struct tvk_event_reply e = tvk_change_file_piece(&file, &o, "<osmChange>\n<modify></delete>", 29);
    SAME(e.number, TVK_UNMATCHED_END_TAG);
    SAME(e.line, 2);
    e = tvk_change_file_piece(&file, &o, change, len);
    SAME(e.number, TVK_UNMATCHED_END_TAG);
    SAME(e.line, 2);
    SAME(tvk_change_file_end(&file, &o).number, TVK_UNMATCHED_END_TAG);
    tvk_change_file_clear(&file);
    e = tvk_change_file_piece(&file, &o, "\n<osmChange\n x>", 15);
    SAME(e.number, TVK_NOT_MARKUP);
    SAME(e.line, 2);
    SAME(file.reader.words[16], TVK_NOT_MARKUP);

    file_words();
}

/* ---- the least that may be lent, by the macro: no bytes at all */

TVK_STATIC_OVERLAY(least, 1, 0, 1, 0);

static void no_bytes(void)
{
    SAME(least.words_len, 11);
    SAME(least.bytes_len, 0);
    SAME(tvk_overlay_set_up(&least, least_sizes, 0).number, 0);
    SAME(tvk_overlay_delete(&least, TVK_WAY, 7, version(1)).number, 0);
    SAME(tvk_overlay_push(&least, TVK_NODE, head_of(1), version(1), NULL, 0).number, TVK_ARENA_FULL);
    SAME(tvk_overlay_is_sound(&least).number, 0);
}

/* ---- a block that is empty by NULL: an overlay of one id a kind, no arenas and the empty text alone */

static void empty_block(void)
{
    uint64_t small_words[TVK_WORDS(1, 1, 1, 1)];
    struct tvk_overlay small = {TVK_LEND(small_words), NULL, 0, {0}};
    char page[16];

    SAME(small.words_len, 11);
    SAME(tvk_overlay_set_up(&small, least_sizes, 0).number, 0);
    SAME(tvk_overlay_push(&small, TVK_NODE, head_of(1), version(1), NULL, 0).number, TVK_ARENA_FULL);
    SAME(tvk_overlay_delete(&small, TVK_RELATION, 1, version(2)).number, 0);
    SAME(tvk_overlay_intern(&small, "a", 1).number, TVK_STRINGS_FULL);
    struct tvk_listing_reply l = tvk_overlay_listing(&small, page, sizeof page);
    BYTES(page, l.length, "r\t1\t-\t2\n");
    SAME(tvk_overlay_arena(&small, TVK_WAY).len, 0);
    SAME(tvk_overlay_string_bytes(&small).len, 0);
    small.words = NULL;
    SAME(tvk_overlay_is_sound(&small).number, TVK_UNSOUND);
    SAME(tvk_overlay_set_up(&small, least_sizes, 0).number, TVK_SIZE);
}

static void guards(void)
{
    SAME(words[0], UINT64_C(0xa5a5));
    SAME(words[1 + WORDS], UINT64_C(0xa5a5));
    for (size_t i = 0; i < 8; i++) {
        SAME(bits[i], 0xa5);
        SAME(bits[8 + BITS + i], 0xa5);
    }
}

int main(void)
{
    memset(words, 0x77, sizeof words);
    memset(bits, 0xa5, sizeof bits);
    words[0] = words[1 + WORDS] = 0xa5a5;
    numbers();
    lists();
    set_up();
    direct();
    readings();
    records();
    places();
    saved();
    other_blocks();
    readers();
    files();
    guards();
    no_bytes();
    empty_block();
    printf("%lu answers are as they must be, %lu are not\n", right, wrong);
    return wrong == 0 ? 0 : 1;
}
