/* A yardstick, not a library: what tvk_events and tvk_is_sound do, written by hand in C over the same storage (docs/STORAGE.md). Nothing proves it, and nothing but the benchmarks calls it:
   it says how long the work takes where nothing has to be proved of the code. */
#ifndef YARDSTICK_H
#define YARDSTICK_H

#include "torvaskin.h"

/* A run of lines, as tvk_events takes it in, with every check of a line and of what it asks for: its reply, and all that is lent, are the library's. Left out is the test of what is lent. */
struct tvk_events_reply yardstick_events(uint64_t *words, uint8_t *bytes, uint64_t *counters, uint64_t *reader, uint8_t *staged, const uint8_t *run, size_t run_len);

/* That test: 22, or 0. Texts are looked up by chains of handles, which texts that somebody chose may make long. */
struct tvk_reply yardstick_is_sound(const uint64_t *words, size_t words_len, const uint8_t *bytes, size_t bytes_len, const uint64_t *counters);

/* 1 for well-formed UTF-8 of XML 1.0 characters. */
int yardstick_is_text(const uint8_t *s, size_t len);

/* ---- what both use */

/* Offsets from a record's start: its head is 20 bytes long for a node, 16 for a way and a relation; the metadata take 29. */
#define META_AT(kind) ((kind) == TVK_NODE ? 20u : 16u)
#define META_BYTES 29u
#define REF_BYTES 8u
#define MEMBER_BYTES 13u
#define TAG_BYTES 8u

static inline uint32_t get32(const uint8_t *at)
{
    uint32_t value;
    memcpy(&value, at, sizeof value);
    return value;
}

static inline uint64_t get64(const uint8_t *at)
{
    uint64_t value;
    memcpy(&value, at, sizeof value);
    return value;
}

/* 0 for 0, m for -m, 2^63 + p for p */
static inline uint64_t rank_of(uint64_t id)
{
    if (id >> 63 != 0)
        return 0 - id;
    return id != 0 ? id | UINT64_C(1) << 63 : 0;
}

#endif
