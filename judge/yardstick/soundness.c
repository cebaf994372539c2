/* The test of what is lent, of a yardstick: sizes, texts, records, rows. */
#include "yardstick.h"

/* No two records start within so many bytes, the length of the shortest. */
#define SHORTEST 45u

/* ---- texts */

static uint32_t chain_of(const uint8_t *s, uint64_t len)
{
    uint64_t hash = len * UINT64_C(0x9e3779b97f4a7c15), rest = 0;
    for (; len >= 8; s += 8, len -= 8) {
        hash = (hash ^ get64(s)) * UINT64_C(0x9e3779b97f4a7c15);
        hash ^= hash >> 29;
    }
    memcpy(&rest, s, len);
    return (uint32_t)(((hash ^ rest) * UINT64_C(0x9e3779b97f4a7c15)) >> 52);
}

static int are_equal(const uint64_t *a, const uint64_t *b, const uint8_t *texts)
{
    return a[1] == b[1] && memcmp(texts + a[0], texts + b[0], a[1]) == 0;
}

/* each text within the used bytes, legal, and another than those before it; the first is empty */
static int texts_are_sound(const uint64_t *spans, uint64_t strings, const uint8_t *texts, uint64_t used)
{
    uint16_t first[4096] = {0}, next[TVK_MAX_STRINGS];
    for (uint64_t handle = 0; handle < strings; handle++) {
        const uint64_t *span = spans + handle * TVK_STRING_WORDS;
        if (span[0] > used || span[1] > used - span[0] || !yardstick_is_text(texts + span[0], span[1]))
            return 0;
        uint32_t chain = chain_of(texts + span[0], span[1]);
        for (uint32_t at = first[chain]; at != 0; at = next[at - 1]) {
            if (are_equal(spans + (at - 1u) * TVK_STRING_WORDS, span, texts))
                return 0;
        }
        next[handle] = first[chain];
        first[chain] = (uint16_t)(handle + 1);
    }
    return strings > 0 && spans[1] == 0;
}

/* ---- records */

static int meta_is_sound(const uint8_t *meta, uint64_t strings)
{
    uint32_t flags = meta[0], user = get32(meta + 25);
    if (flags > 15 || (flags != 0 && (flags & TVK_PRESENT) == 0) || user >= strings)
        return 0;
    return ((flags & TVK_HAS_VERSION) != 0 || get32(meta + 1) == 0) && ((flags & TVK_HAS_USER) != 0 || user == 0) &&
           ((flags & TVK_PRESENT) != 0 || (get64(meta + 5) | get64(meta + 13) | get32(meta + 21)) == 0);
}

static int is_within(uint32_t bits, int32_t most)
{
    int32_t value = tvk_i32_of(bits);
    return value <= most && value >= -most;
}

static int members_are_sound(const uint8_t *at, uint32_t count, uint64_t strings)
{
    for (const uint8_t *end = at + count * MEMBER_BYTES; at < end; at += MEMBER_BYTES) {
        if (at[8] > TVK_RELATION || get32(at + 9) >= strings)
            return 0;
    }
    return 1;
}

/* how many bytes so many tags take; 0 where they are none */
static uint64_t tags_length(const uint8_t *at, uint64_t left, uint32_t count, uint64_t strings)
{
    uint64_t all = left, values = 0;
    for (; count > 0; count--) {
        if (left < TAG_BYTES)
            return 0;
        uint64_t len = get32(at + 4);
        if (len > left - TAG_BYTES || get32(at) >= strings || !yardstick_is_text(at + TAG_BYTES, len))
            return 0;
        at += TAG_BYTES + len;
        left -= TAG_BYTES + len;
        values += len;
    }
    return values <= TVK_MAX_TAG_VALUE_BYTES ? all - left : 0;
}

/* how long the record is that so many bytes begin with; 0 where it is none */
static uint64_t record_length(uint32_t kind, const uint8_t *at, uint64_t left, uint64_t strings)
{
    static const uint8_t part_bytes[3] = {0, REF_BYTES, MEMBER_BYTES};
    uint64_t front = META_AT(kind) + META_BYTES;
    if (left < front || !meta_is_sound(at + META_AT(kind), strings))
        return 0;
    uint32_t count = kind == TVK_NODE ? 0 : get32(at + 8), tags = get32(at + META_AT(kind) - 4);
    if (tags > TVK_MAX_TAGS || count > TVK_MAX_REFS || left - front < (uint64_t)count * part_bytes[kind])
        return 0;
    if (kind == TVK_NODE && !(is_within(get32(at + 8), TVK_MAX_LAT7) && is_within(get32(at + 12), TVK_MAX_LON7)))
        return 0;
    if (kind == TVK_RELATION && !members_are_sound(at + front, count, strings))
        return 0;
    front += (uint64_t)count * part_bytes[kind];
    uint64_t tag_bytes = tags_length(at + front, left - front, tags, strings);
    return tags == 0 || tag_bytes != 0 ? front + tag_bytes : 0;
}

/* ---- kinds */

struct table {
    const uint64_t *rows;
    uint64_t ids;
    const uint8_t *arena;
    uint64_t used;
};

/* each live row at the start of a record of its id; starts has, of so many bytes, where in them one starts, and 1 */
static int rows_are_sound(const struct table *t, const uint8_t *starts)
{
    for (uint64_t i = 0; i < t->ids; i++) {
        const uint64_t *row = t->rows + i * TVK_ID_WORDS;
        if (i > 0 && row[0] <= row[-TVK_ID_WORDS])
            return 0;
        if (row[1] >> 63 != 0)
            continue;
        if (row[1] >= t->used || starts[row[1] / SHORTEST] != row[1] % SHORTEST + 1 || rank_of(get64(t->arena + row[1])) != row[0])
            return 0;
    }
    return 1;
}

static int kind_is_sound(uint32_t kind, const struct table *t, uint64_t strings)
{
    uint8_t starts[TVK_MAX_ARENA / SHORTEST + 1];
    memset(starts, 0, t->used / SHORTEST + 1);
    for (uint64_t at = 0; at < t->used;) {
        uint64_t length = record_length(kind, t->arena + at, t->used - at, strings);
        if (length == 0)
            return 0;
        starts[at / SHORTEST] = (uint8_t)(at % SHORTEST + 1);
        at += length;
    }
    return rows_are_sound(t, starts);
}

/* the sizes are those of the blocks, and no count is above its size */
static int counters_fit(const uint64_t *counters, size_t words_len, size_t bytes_len)
{
    struct tvk_sizes sizes = tvk_sizes_in(counters);
    if (!tvk_sizes_fit(sizes) || tvk_sizes_words(sizes) != words_len || tvk_sizes_bytes(sizes) != bytes_len)
        return 0;
    for (size_t i = 0; i < TVK_SETTING; i++) {
        if (counters[i] > counters[TVK_LENT_IDS + i])
            return 0;
    }
    return 1;
}

static int is_sound(const uint64_t *words, size_t words_len, const uint8_t *bytes, size_t bytes_len, const uint64_t *counters)
{
    struct table tables[3];
    uint64_t strings = counters[TVK_USED_STRINGS];
    if (!counters_fit(counters, words_len, bytes_len))
        return 0;
    for (uint32_t kind = TVK_NODE; kind <= TVK_RELATION; kind++) {
        tables[kind] = (struct table){words, counters[TVK_USED_IDS + kind], bytes, counters[TVK_USED_ARENA + kind]};
        words += counters[TVK_LENT_IDS + kind] * TVK_ID_WORDS;
        bytes += counters[TVK_LENT_ARENA + kind];
    }
    if (!texts_are_sound(words, strings, bytes, counters[TVK_USED_STRING_BYTES]))
        return 0;
    for (uint32_t kind = TVK_NODE; kind <= TVK_RELATION; kind++) {
        if (!kind_is_sound(kind, &tables[kind], strings))
            return 0;
    }
    return 1;
}

struct tvk_reply yardstick_is_sound(const uint64_t *words, size_t words_len, const uint8_t *bytes, size_t bytes_len, const uint64_t *counters)
{
    return (struct tvk_reply){is_sound(words, words_len, bytes, bytes_len, counters) ? TVK_ACCEPTED : TVK_UNSOUND, 0};
}
