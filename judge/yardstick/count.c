/* What judge/instructions counts: it runs each piece of work in one call of `counted`, the port's first and the yardstick's second, and prints what the work is and how many lines it has. Both
   must leave the same storage and the same reply; where they do not, it ends with 1. */
#include "yardstick.h"

#include <stdarg.h>
#include <stdio.h>
#include <stdlib.h>

TVK_STATIC_OVERLAY(port, TVK_MAX_IDS, TVK_MAX_ARENA, TVK_MAX_STRINGS, TVK_MAX_STRING_BYTES);
TVK_STATIC_OVERLAY(hand, TVK_MAX_IDS, TVK_MAX_ARENA, TVK_MAX_STRINGS, TVK_MAX_STRING_BYTES);

/* ---- one side's work */

enum work { RUN, LINE, TEST };

struct side {
    int by_hand;
    enum work work;
    struct tvk_overlay *overlay;
    const struct tvk_sizes *sizes;
    struct tvk_reader reader;
    const char *input;
    size_t len;
    struct tvk_events_reply reply;
};

static struct side sides[2] = {{.by_hand = 0, .overlay = &port, .sizes = &port_sizes}, {.by_hand = 1, .overlay = &hand, .sizes = &hand_sizes}};

static uint32_t port_work(struct side *s)
{
    if (s->work == TEST)
        return tvk_overlay_is_sound(s->overlay).number;
    if (s->work == LINE) {
        struct tvk_event_reply reply = tvk_reader_event(&s->reader, s->overlay, s->input, s->len);
        s->reply = (struct tvk_events_reply){reply.number, reply.held, reply.line, reply.number == 0 ? s->len : 0};
        return reply.number;
    }
    s->reply = tvk_reader_events(&s->reader, s->overlay, s->input, s->len);
    return s->reply.number;
}

static uint32_t hand_work(struct side *s)
{
    struct tvk_overlay *o = s->overlay;
    if (s->work != RUN) {
        uint32_t number = yardstick_is_sound(o->words, o->words_len, o->bytes, o->bytes_len, o->counters).number;
        if (s->work == TEST || number != 0)
            return number;
    }
    s->reply = yardstick_events(o->words, o->bytes, o->counters, s->reader.words, s->reader.staged, (const uint8_t *)s->input, s->len);
    return s->reply.number;
}

/* what valgrind counts, by this name */
uint32_t counted(struct side *s);

__attribute__((noinline)) uint32_t counted(struct side *s)
{
    return s->by_hand ? hand_work(s) : port_work(s);
}

/* so that the call is one */
static uint32_t (*volatile call)(struct side *) = counted;

/* ---- both sides */

static void differ(const char *what)
{
    fprintf(stderr, "%s: the yardstick and the library differ\n", what);
    exit(1);
}

static void compare(const char *what)
{
    struct tvk_events_reply a = sides[0].reply, b = sides[1].reply;
    if (memcmp(port_words, hand_words, sizeof port_words) != 0 || memcmp(port_bytes, hand_bytes, sizeof port_bytes) != 0)
        differ(what);
    if (memcmp(port.counters, hand.counters, sizeof port.counters) != 0 || memcmp(&sides[0].reader, &sides[1].reader, sizeof sides[0].reader) != 0)
        differ(what);
    if (a.number != b.number || a.held != b.held || a.line != b.line || a.taken != b.taken)
        differ(what);
}

static void fresh(void)
{
    for (int i = 0; i < 2; i++) {
        tvk_overlay_set_up(sides[i].overlay, *sides[i].sizes, 0);
        tvk_reader_clear(&sides[i].reader);
    }
}

static void work(const char *what, enum work kind, const char *input, size_t len)
{
    for (int i = 0; i < 2; i++) {
        sides[i].work = kind;
        sides[i].input = input;
        sides[i].len = len;
        if (call(&sides[i]) != 0) {
            fprintf(stderr, "%s: refused\n", what);
            exit(1);
        }
    }
    compare(what);
}

/* ---- documents, as judge/compare's benchmarks have them */

static char text[8388608];
static size_t length;
static unsigned lines;

__attribute__((format(printf, 1, 2))) static void put(const char *format, ...)
{
    va_list values;
    va_start(values, format);
    length += (size_t)vsnprintf(text + length, sizeof text - length, format, values);
    va_end(values);
    lines++;
}

static void begin_document(void)
{
    length = 0;
    lines = 0;
    put("open\tosmChange\tversion=0.6\n");
    put("open\tcreate\n");
}

static void end_document(void)
{
    put("close\n");
    put("close\n");
}

#define META "timestamp=2024-03-17T09:41:%02dZ\tchangeset=148213377\tuid=20481\tuser=surveyor"

static void put_way(int id)
{
    static const char *const values[4] = {"residential", "Karl-Liebknecht-Straße", "50", "asphalt"};
    put("open\tway\tid=%d\tversion=3\t" META "\n", id, id % 60);
    for (long i = 0; i < 6; i++)
        put("empty\tnd\tref=%ld\n", 1000000000 + (id * 7919L + i * 104729) % 900000000);
    for (int i = 0; i < 4; i++)
        put("empty\ttag\tk=key:%d\tv=%s\n", (id * 4 + i) % 200, values[i]);
    put("close\n");
}

/* three of four are empty, the others have a tag */
static void put_node(int id)
{
    const char *word = id % 4 != 0 ? "empty" : "open";
    put("%s\tnode\tid=%d\tversion=2\t" META "\tlat7=%d\tlon7=%d\n", word, id, id % 60, 521234567 + id * 13, -12345678 + id * 17);
    if (id % 4 == 0) {
        put("empty\ttag\tk=key:%d\tv=traffic_signals\n", id % 200);
        put("close\n");
    }
}

static void put_relation(int id)
{
    static const char *const roles[4] = {"outer", "inner", "", "via"};
    put("open\trelation\tid=%d\tversion=4\t" META "\n", id, id % 60);
    for (long i = 0; i < 4; i++)
        put("empty\tmember\ttype=way\tref=%ld\trole=%s\n", 1000000 + (id * 7919L + i * 104729) % 900000, roles[i]);
    put("empty\ttag\tk=key:%d\tv=restriction\n", id * 2 % 200);
    put("empty\ttag\tk=key:%d\tv=no_left_turn\n", (id * 2 + 1) % 200);
    put("close\n");
}

/* ids from 1 on, by order of their multiples where they are shuffled */
static uint64_t key_of(int id)
{
    return (uint64_t)id * UINT64_C(0x9e3779b97f4a7c15);
}

static int by_key(const void *a, const void *b)
{
    uint64_t x = key_of(*(const int *)a), y = key_of(*(const int *)b);
    return (x > y) - (x < y);
}

static void put_each(int count, int shuffled, void (*one)(int))
{
    static int ids[TVK_MAX_IDS];
    for (int i = 0; i < count; i++)
        ids[i] = i + 1;
    if (shuffled)
        qsort(ids, (size_t)count, sizeof *ids, by_key);
    for (int i = 0; i < count; i++)
        one(ids[i]);
}

/* ---- what is counted: each line that is printed names the two counts that come next. A count is taken from a later one where the name begins with `-`: what is left is a line's. */

static void count_document(const char *what)
{
    fresh();
    work(what, RUN, text, length);
    printf("%u\t%s\n", lines, what);
}

static void ways(const char *what, int shuffled)
{
    begin_document();
    put_each(4096, shuffled, put_way);
    end_document();
    count_document(what);
}

static void mixed(const char *what)
{
    begin_document();
    put_each(4096, 0, put_node);
    put_each(3000, 0, put_way);
    put_each(1000, 0, put_relation);
    end_document();
    count_document(what);
}

/* elements that have so many lines of one child */
static void children(const char *what, const char *kind, int count, int times, const char *child)
{
    begin_document();
    for (int id = 1; id <= count; id++) {
        put("open\t%s\tid=%d\tversion=3\n", kind, id);
        for (int i = 0; i < times; i++)
            put("%s\n", child);
        put("close\n");
    }
    end_document();
    count_document(what);
}

static void a_child(const char *what, const char *kind, const char *child)
{
    children("-", kind, 200, 1, child);
    children(what, kind, 200, 101, child);
}

static void empty_node(int id)
{
    put("empty\tnode\tid=%d\tversion=2\t" META "\tlat7=%d\tlon7=%d\n", id, id % 60, 521234567 + id * 13, -12345678 + id * 17);
}

static void bare_way(int id)
{
    put("open\tway\tid=%d\tversion=3\t" META "\n", id, id % 60);
    put("close\n");
}

static void elements(const char *what, int count, void (*one)(int))
{
    begin_document();
    put_each(count, 0, one);
    end_document();
    count_document(what);
}

/* a way of 253 bytes, as judge/compare's benchmarks have it */
static void tagged_way(int id)
{
    static const char *const tags[12][2] = {
        {"highway", "residential"}, {"name", "Hauptstrasse 12"}, {"surface", "asphalt"}, {"maxspeed", "50"},
        {"oneway", "yes"}, {"alt_name", "Main Street"}, {"lanes", "2"}, {"lit", "no"},
        {"loc_name", "Rotherhithe New Road"}, {"bicycle", "designated, on track"}, {"source", "survey 2024-05-11"}, {"sidewalk", "yes"},
    };
    put("open\tway\tid=%d\tversion=1\n", id);
    for (int i = 0; i < 12; i++)
        put("empty\ttag\tk=%s\tv=%s\n", tags[i][0], tags[i][1]);
    put("close\n");
}

/* both overlays with a document's lines, which are not counted */
static void fill(int count, void (*one)(int))
{
    begin_document();
    put_each(count, 0, one);
    end_document();
    fresh();
    for (int i = 0; i < 2; i++) {
        sides[i].reply = tvk_reader_events(&sides[i].reader, sides[i].overlay, text, length);
        tvk_reader_clear(&sides[i].reader);
    }
}

static void soundness(const char *what)
{
    fill(4096, tagged_way);
    work(what, TEST, NULL, 0);
    printf("1\t%s\n", what);
}

static void event(const char *what, int ways_held)
{
    static const char front[] = "open\tosmChange\tversion=0.6\nopen\tcreate\nopen\tway\tid=1\tversion=3\n", line[] = "other\n";
    fill(ways_held, put_way);
    for (int i = 0; i < 2; i++)
        tvk_reader_events(&sides[i].reader, sides[i].overlay, front, sizeof front - 1);
    work(what, LINE, line, sizeof line - 1);
    printf("1\t%s\n", what);
}

int main(void)
{
    ways("4,096 ways, ids in order, a line of the document", 0);
    ways("4,096 ways, ids shuffled, a line of the document", 1);
    mixed("4,096 nodes, 3,000 ways and 1,000 relations, a line of the document");
    a_child("a line `nd`", "way", "empty\tnd\tref=1234567890");
    a_child("a line `tag`", "way", "empty\ttag\tk=key:7\tv=residential");
    a_child("a line `tag` whose value has a letter outside ASCII", "way", "empty\ttag\tk=key:7\tv=Karl-Liebknecht-Straße");
    a_child("a line `member`", "relation", "empty\tmember\ttype=way\tref=1234567\trole=outer");
    elements("-", 1, empty_node);
    elements("an `empty` node with metadata", 4096, empty_node);
    elements("-", 1, bare_way);
    elements("an `open` way with metadata, and its `close`: each of the two lines", 4096, bare_way);
    soundness("soundness of 4,096 ways of 12 tags, 1,036,288 bytes");
    event("a single event at 16 ways", 16);
    event("a single event at 4,055 ways", 4055);
    return 0;
}
