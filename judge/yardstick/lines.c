/* Lines to storage of a yardstick, in one pass over a line's bytes by a table of classes. The checks and their order are document 01's and 02's, as judge/src/compare/words_reader.rs has them. */
#include "yardstick.h"

/* ---- what a run works on */

enum level { DOCUMENT, ROOT, SECTION, ELEMENT, CHILD, ANOTHER, DONE };
enum section { CREATE, MODIFY, DELETE };

/* an element that is open or being read, as words 3 to 13 of a reader have it */
struct element {
    uint64_t id, lat, lon, count, tags, flags, version, timestamp, changeset, uid, user;
};

/* a reader's words */
struct reader {
    uint64_t level, section, kind;
    struct element element;
    uint64_t used, lines, stop, stop_line, held;
};

/* a kind's parts of the blocks */
struct kind {
    uint64_t *rows, *used_ids, *used_arena;
    uint8_t *arena;
    uint64_t ids, arena_bytes;
    uint32_t number;
};

#define CHAINS 4096u

struct run {
    struct kind kinds[3];
    uint64_t *spans, *counters;
    uint8_t *texts, *staged;
    struct reader reader;
    int32_t held; /* of a 12 */
    int chained;  /* whether the held texts stand in the chains */
    uint16_t first[CHAINS], next[TVK_MAX_STRINGS]; /* a handle and 1; 0 ends a chain */
    uint8_t rooms[2][TVK_MAX_LINE];                /* for texts without their escapes */
};

/* ---- a line, and its attributes */

enum class { PLAIN = 0, TAB = 1, EQUALS = 2, LINE_FEED = 4, BACKSLASH = 8, NOT_PLAIN = 16 };

#define NOT4 NOT_PLAIN, NOT_PLAIN, NOT_PLAIN, NOT_PLAIN
#define NOT16 NOT4, NOT4, NOT4, NOT4
#define PLAIN4 PLAIN, PLAIN, PLAIN, PLAIN
#define PLAIN16 PLAIN4, PLAIN4, PLAIN4, PLAIN4

static const uint8_t classes[256] = {
    NOT4, NOT4, NOT_PLAIN, TAB, LINE_FEED, NOT_PLAIN, NOT4, NOT16, PLAIN16,
    PLAIN4, PLAIN4, PLAIN4, PLAIN, EQUALS, PLAIN, PLAIN, PLAIN16,
    PLAIN4, PLAIN4, PLAIN4, BACKSLASH, PLAIN, PLAIN, PLAIN, PLAIN16,
    PLAIN4, PLAIN4, PLAIN4, PLAIN, PLAIN, PLAIN, NOT_PLAIN,
    NOT16, NOT16, NOT16, NOT16, NOT16, NOT16, NOT16, NOT16,
};

/* places in the line: where the name begins, where its `=` stands, where the value ends */
struct attribute {
    uint32_t name, equals, end;
};

struct line {
    const uint8_t *at;
    uint32_t ends[2]; /* of its word and of the element's name */
    uint32_t fields, attributes;
    unsigned seen, formless; /* the classes that were met; whether a field is no attribute */
    struct attribute attribute[TVK_MAX_LINE / 3];
};

/* bytes that stand somewhere */
struct text {
    const uint8_t *at;
    uint32_t len;
};

/* The one pass: where the line feed stands, or so many bytes. */
static uint32_t scan(struct line *l, const uint8_t *s, uint32_t most)
{
    uint32_t i, field = 0, start = 0, equals = 0, n = 0;
    unsigned seen = 0, formless = 0;
    for (i = 0; i < most; i++) {
        unsigned class = classes[s[i]];
        if (class == PLAIN)
            continue;
        seen |= class;
        if (class == EQUALS) {
            equals = equals != 0 ? equals : i;
        } else if (class <= LINE_FEED) {
            if (field < 2)
                l->ends[field] = i;
            else if (equals > start)
                l->attribute[n++] = (struct attribute){start, equals, i};
            else
                formless = 1;
            if (class == LINE_FEED)
                break;
            field++;
            start = i + 1;
            equals = 0;
        }
    }
    l->at = s;
    l->fields = field;
    l->attributes = n;
    l->seen = seen;
    l->formless = formless;
    return i;
}

static int is(struct text text, const char *word, uint32_t len)
{
    return text.len == len && memcmp(text.at, word, len) == 0;
}

#define IS(text, word) is((text), word, sizeof(word) - 1)

static struct text name_of(const struct line *l, const struct attribute *a)
{
    return (struct text){l->at + a->name, a->equals - a->name};
}

static struct text value_of(const struct line *l, const struct attribute *a)
{
    return (struct text){l->at + a->equals + 1, a->end - a->equals - 1};
}

static const struct attribute *find(const struct line *l, const char *name, uint32_t len)
{
    for (uint32_t i = 0; i < l->attributes; i++) {
        if (is(name_of(l, &l->attribute[i]), name, len))
            return &l->attribute[i];
    }
    return NULL;
}

#define FIND(line, name) find((line), name, sizeof(name) - 1)

static int escapes_are_known(struct text value)
{
    for (uint32_t i = 0; i < value.len; i++) {
        if (value.at[i] == '\\' && (++i == value.len || memchr("tnr\\", value.at[i], 4) == NULL))
            return 0;
    }
    return 1;
}

static int values_are_escaped(const struct line *l)
{
    for (uint32_t i = 0; i < l->attributes; i++) {
        if (!escapes_are_known(value_of(l, &l->attribute[i])))
            return 0;
    }
    return 1;
}

static int names_differ(const struct line *l)
{
    for (uint32_t i = 1; i < l->attributes; i++) {
        struct text name = name_of(l, &l->attribute[i]);
        for (uint32_t k = 0; k < i; k++) {
            struct text other = name_of(l, &l->attribute[k]);
            if (name.len == other.len && memcmp(name.at, other.at, name.len) == 0)
                return 0;
        }
    }
    return 1;
}

/* a value without its escapes, in a room where it has some */
static struct text unescaped(const struct line *l, const struct attribute *a, uint8_t *room)
{
    struct text value = value_of(l, a);
    uint32_t n = 0;
    if ((l->seen & BACKSLASH) == 0 || memchr(value.at, '\\', value.len) == NULL)
        return value;
    for (uint32_t i = 0; i < value.len; i++) {
        uint8_t c = value.at[i];
        if (c == '\\') {
            c = value.at[++i];
            c = c == 't' ? '\t' : c == 'n' ? '\n' : c == 'r' ? '\r' : '\\';
        }
        room[n++] = c;
    }
    return (struct text){room, n};
}

/* ---- fields. Each is 0 or its refusal. */

/* digits as a number that is not above the largest */
static int digits(struct text s, uint64_t largest, uint64_t *value)
{
    uint64_t v = 0;
    if (s.len == 0)
        return TVK_NOT_INTEGER;
    for (uint32_t i = 0; i < s.len; i++) {
        uint64_t digit = s.at[i] - (uint64_t)'0';
        if (digit > 9 || (i >= 18 && v > (largest - digit) / 10))
            return TVK_NOT_INTEGER;
        v = v * 10 + digit;
    }
    *value = v;
    return v <= largest ? 0 : TVK_NOT_INTEGER;
}

/* Takes at most one sign off the front: whether it was a minus. */
static int take_sign(struct text *s)
{
    int below = s->len > 0 && s->at[0] == '-';
    if (below || (s->len > 0 && s->at[0] == '+'))
        *s = (struct text){s->at + 1, s->len - 1};
    return below;
}

/* the bits of a whole number with at most one sign, from -largest - 1 to largest */
static int number(struct text s, uint64_t largest, uint64_t *bits)
{
    int below = take_sign(&s), refused = digits(s, largest + (uint64_t)below, bits);
    if (below && refused == 0)
        *bits = 0 - *bits;
    return refused;
}

static int wide(struct text s, uint64_t *bits)
{
    return number(s, INT64_MAX, bits);
}

/* 32 bits */
static int narrow(struct text s, uint64_t *bits)
{
    int refused = number(s, INT32_MAX, bits);
    *bits &= UINT32_MAX;
    return refused;
}

static int needed(const struct line *l, const struct attribute *a, uint64_t *bits)
{
    return a != NULL ? wide(value_of(l, a), bits) : TVK_MISSING;
}

/* so many in 1e-12 degree are 1e-7 degree */
#define UNIT UINT64_C(100000)

/* a number with the digits behind it that a text has from a place on, at most so many: where they end */
static uint32_t more_digits(struct text s, uint32_t from, uint32_t most, uint64_t *value)
{
    uint32_t i = from;
    for (; i < s.len && i - from < most && s.at[i] >= '0' && s.at[i] <= '9'; i++)
        *value = *value * 10 + (s.at[i] - (uint64_t)'0');
    return i;
}

/* a number without a sign, in 1e-12 degree */
static int exact_degrees(struct text s, uint64_t *exact)
{
    static const uint64_t powers[13] = {
        UINT64_C(1000000000000), UINT64_C(100000000000), UINT64_C(10000000000), 1000000000, 100000000, 10000000, 1000000, 100000, 10000, 1000, 100, 10, 1,
    };
    *exact = 0;
    uint32_t end = more_digits(s, 0, 3, exact), decimals = 0;
    if (end == 0)
        return TVK_NOT_DEGREES;
    if (end < s.len && s.at[end] == '.') {
        decimals = more_digits(s, end + 1, 12, exact) - end - 1;
        if (decimals == 0)
            return TVK_NOT_DEGREES;
        end += 1 + decimals;
    }
    *exact *= powers[decimals];
    return end == s.len ? 0 : TVK_NOT_DEGREES;
}

/* the nearest 1e-7 degree, ties away from zero, where the exact value is not above the most */
static int degrees(struct text s, int32_t most, uint64_t *bits)
{
    uint64_t exact;
    int below = take_sign(&s), refused = exact_degrees(s, &exact);
    if (refused != 0)
        return refused;
    if (exact > (uint64_t)most * UNIT)
        return TVK_COORDINATE_RANGE;
    uint64_t nearest = (exact + UNIT / 2) / UNIT;
    *bits = (below ? 0 - nearest : nearest) & UINT32_MAX;
    return 0;
}

/* a whole number of 1e-7 degree */
static int whole_coordinate(struct text s, int32_t most, uint64_t *bits)
{
    int refused = narrow(s, bits);
    if (refused != 0)
        return refused;
    int32_t value = tvk_i32_of(*bits);
    return value <= most && value >= -most ? 0 : TVK_COORDINATE_RANGE;
}

/* a coordinate in one of its two forms: in degrees by three letters, in whole numbers by these and a 7 */
static int coordinate(const struct line *l, const char *letters, int32_t most, uint64_t *bits)
{
    const struct attribute *forms[2] = {NULL, NULL};
    for (uint32_t i = 0; i < l->attributes; i++) {
        struct text name = name_of(l, &l->attribute[i]);
        if ((name.len == 3 || (name.len == 4 && name.at[3] == '7')) && memcmp(name.at, letters, 3) == 0)
            forms[name.len - 3] = &l->attribute[i];
    }
    if (forms[0] != NULL && forms[1] != NULL)
        return TVK_BOTH_FORMS;
    if (forms[0] != NULL)
        return degrees(value_of(l, forms[0]), most, bits);
    return forms[1] != NULL ? whole_coordinate(value_of(l, forms[1]), most, bits) : TVK_MISSING;
}

/* two digits; above 99 where they are none */
static uint32_t two(const uint8_t *s)
{
    uint32_t tens = s[0] - (uint32_t)'0', ones = s[1] - (uint32_t)'0';
    return tens <= 9 && ones <= 9 ? 10 * tens + ones : 100;
}

/* the days from year 0 on before a day */
static uint64_t days(uint32_t year, uint32_t month, uint32_t day)
{
    static const uint16_t before[12] = {0, 31, 59, 90, 120, 151, 181, 212, 243, 273, 304, 334};
    uint32_t leap = (year % 4 == 0 && year % 100 != 0) || year % 400 == 0;
    uint32_t leaps = year == 0 ? 0 : (year - 1) / 4 - (year - 1) / 100 + (year - 1) / 400 + 1;
    return (uint64_t)year * 365 + leaps + before[month - 1] + (leap && month > 2) + day - 1;
}

static uint32_t month_length(uint32_t year, uint32_t month)
{
    static const uint8_t lengths[12] = {31, 28, 31, 30, 31, 30, 31, 31, 30, 31, 30, 31};
    int leap = (year % 4 == 0 && year % 100 != 0) || year % 400 == 0;
    return lengths[month - 1] + (uint32_t)(leap && month == 2);
}

/* seconds since 1970 */
static int timestamp(struct text s, uint64_t *bits)
{
    const uint8_t *t = s.at;
    if (s.len != 20 || t[4] != '-' || t[7] != '-' || t[10] != 'T' || t[13] != ':' || t[16] != ':' || t[19] != 'Z')
        return TVK_NOT_TIMESTAMP;
    uint32_t century = two(t), of_century = two(t + 2), month = two(t + 5), day = two(t + 8), hour = two(t + 11), minute = two(t + 14), second = two(t + 17);
    uint32_t year = century * 100 + of_century;
    if (century > 99 || of_century > 99 || month < 1 || month > 12 || day < 1 || day > month_length(year, month) || hour > 23 || minute > 59 || second > 59)
        return TVK_NOT_TIMESTAMP;
    *bits = days(year, month, day) * 86400 + hour * 3600 + minute * 60 + second - UINT64_C(62167219200);
    return 0;
}

/* one attribute, where it is of the metadata; user's is its place */
static int metadatum(const struct line *l, const struct attribute *a, struct element *e, const struct attribute **user)
{
    struct text name = name_of(l, a), value = value_of(l, a);
    int refused = 0;
    uint64_t flags = 0;
    if (IS(name, "version")) {
        flags = TVK_PRESENT | TVK_HAS_VERSION;
        refused = narrow(value, &e->version);
    } else if (IS(name, "timestamp")) {
        flags = TVK_PRESENT;
        refused = timestamp(value, &e->timestamp);
    } else if (IS(name, "changeset")) {
        flags = TVK_PRESENT;
        refused = wide(value, &e->changeset);
    } else if (IS(name, "uid")) {
        flags = TVK_PRESENT;
        refused = narrow(value, &e->uid);
    } else if (IS(name, "user")) {
        flags = TVK_PRESENT | TVK_HAS_USER;
        *user = a;
    } else if (IS(name, "visible")) {
        flags = IS(value, "false") ? TVK_PRESENT | TVK_HIDDEN : TVK_PRESENT;
    }
    e->flags |= flags;
    return refused;
}

/* the fields of an element: its id, the metadata in the line's order, the place of a node that is pushed */
static int fields(const struct line *l, uint64_t kind, int pushed, struct element *e, const struct attribute **user)
{
    int refused = needed(l, FIND(l, "id"), &e->id);
    for (uint32_t i = 0; i < l->attributes && refused == 0; i++)
        refused = metadatum(l, &l->attribute[i], e, user);
    if (kind != TVK_NODE || !pushed)
        return refused;
    if (refused == 0)
        refused = coordinate(l, "lat", TVK_MAX_LAT7, &e->lat);
    return refused == 0 ? coordinate(l, "lon", TVK_MAX_LON7, &e->lon) : refused;
}

/* ---- texts, by chains of handles */

/* a text that is held, or the next that will be */
struct interned {
    struct text text;
    uint32_t chain, handle;
    int held;
};

static uint32_t chain_of(struct text s)
{
    uint32_t hash = s.len;
    for (uint32_t i = 0; i < s.len; i++)
        hash = hash * 16777619u + s.at[i];
    return hash * 2654435761u >> 20;
}

static struct text held_text(const struct run *u, uint64_t handle)
{
    const uint64_t *span = u->spans + handle * TVK_STRING_WORDS;
    return (struct text){u->texts + span[0], (uint32_t)span[1]};
}

static void chain(struct run *u, uint32_t chain, uint64_t handle)
{
    u->next[handle] = u->first[chain];
    u->first[chain] = (uint16_t)(handle + 1);
}

static void chain_all(struct run *u)
{
    memset(u->first, 0, sizeof u->first);
    for (uint64_t handle = 0; handle < u->counters[TVK_USED_STRINGS]; handle++)
        chain(u, chain_of(held_text(u, handle)), handle);
    u->chained = 1;
}

/* Looks a text up: 13 where it is not held and has no room. */
static int look_up(struct run *u, struct text s, struct interned *i)
{
    const uint64_t *c = u->counters;
    if (!u->chained)
        chain_all(u);
    *i = (struct interned){s, chain_of(s), (uint32_t)c[TVK_USED_STRINGS], 0};
    for (uint32_t at = u->first[i->chain]; at != 0; at = u->next[at - 1]) {
        struct text held = held_text(u, at - 1);
        if (held.len == s.len && memcmp(held.at, s.at, s.len) == 0) {
            i->handle = at - 1;
            i->held = 1;
            return 0;
        }
    }
    int has_room = c[TVK_USED_STRINGS] < c[TVK_LENT_STRINGS] && s.len <= c[TVK_LENT_STRING_BYTES] - c[TVK_USED_STRING_BYTES];
    return has_room ? 0 : TVK_STRINGS_FULL;
}

/* the handle of a text that was looked up, taken in where it is new */
static uint32_t take_in(struct run *u, const struct interned *i)
{
    uint64_t *c = u->counters, *span = u->spans + (uint64_t)i->handle * TVK_STRING_WORDS;
    if (i->held)
        return i->handle;
    span[0] = c[TVK_USED_STRING_BYTES];
    span[1] = i->text.len;
    memcpy(u->texts + span[0], i->text.at, i->text.len);
    c[TVK_USED_STRINGS]++;
    c[TVK_USED_STRING_BYTES] += i->text.len;
    chain(u, i->chain, i->handle);
    return i->handle;
}

/* ---- ids and records */

/* an id's row, or where it goes; its known version */
struct place {
    uint64_t *row;
    uint64_t rank, known;
    int is_held;
};

static uint64_t higher(uint64_t a, uint64_t b)
{
    if (!tvk_is_version(a) || !tvk_is_version(b))
        return tvk_is_version(a) ? a : b;
    return tvk_i32_of(a) < tvk_i32_of(b) ? b : a;
}

static uint64_t known_version(const struct kind *k, const uint64_t *row)
{
    uint64_t floor = tvk_is_version(row[2]) ? row[2] : TVK_NO_VERSION;
    const uint8_t *meta = k->arena + row[1] + META_AT(k->number);
    if (row[1] >> 63 != 0 || (meta[0] & TVK_HAS_VERSION) == 0)
        return floor;
    return higher(get32(meta + 1), floor);
}

static struct place place_of(const struct kind *k, uint64_t id)
{
    uint64_t rank = rank_of(id), from = 0, left = *k->used_ids;
    while (left != 0) {
        uint64_t half = left / 2;
        int below = k->rows[(from + half) * TVK_ID_WORDS] < rank;
        from = below ? from + half + 1 : from;
        left = below ? left - half - 1 : half;
    }
    struct place p = {k->rows + from * TVK_ID_WORDS, rank, TVK_NO_VERSION, from < *k->used_ids && k->rows[from * TVK_ID_WORDS] == rank};
    if (p.is_held)
        p.known = known_version(k, p.row);
    return p;
}

static uint64_t claim_of(const struct element *e)
{
    return (e->flags & TVK_HAS_VERSION) != 0 ? e->version : TVK_NO_VERSION;
}

/* 12 */
static int regresses(struct run *u, const struct place *p, uint64_t claim)
{
    if (u->counters[TVK_SETTING] != 0 || !tvk_is_version(claim) || !tvk_is_version(p->known) || tvk_i32_of(claim) >= tvk_i32_of(p->known))
        return 0;
    u->held = tvk_i32_of(p->known);
    return TVK_REGRESSION;
}

/* 14, 15 */
static int has_no_room(const struct kind *k, const struct place *p, uint64_t bytes)
{
    if (!p->is_held && *k->used_ids == k->ids)
        return TVK_IDS_FULL;
    return k->arena_bytes - *k->used_arena < bytes ? TVK_ARENA_FULL : 0;
}

static uint64_t record_bytes(const struct kind *k, uint64_t parts)
{
    return META_AT(k->number) + META_BYTES + parts;
}

static void set_row(const struct kind *k, const struct place *p, uint64_t at, uint64_t floor)
{
    if (!p->is_held) {
        uint64_t *end = k->rows + *k->used_ids * TVK_ID_WORDS;
        memmove(p->row + TVK_ID_WORDS, p->row, (size_t)(end - p->row) * sizeof *end);
        ++*k->used_ids;
    }
    p->row[0] = p->rank;
    p->row[1] = at;
    p->row[2] = floor;
}

static uint8_t *put32(uint8_t *at, uint64_t value)
{
    uint32_t low = (uint32_t)value;
    memcpy(at, &low, sizeof low);
    return at + sizeof low;
}

static uint8_t *put64(uint8_t *at, uint64_t value)
{
    memcpy(at, &value, sizeof value);
    return at + sizeof value;
}

static void put_record(const struct kind *k, const struct element *e, const uint8_t *parts, uint64_t len)
{
    uint8_t *at = put64(k->arena + *k->used_arena, e->id);
    if (k->number == TVK_NODE)
        at = put32(put32(at, e->lat), e->lon);
    else
        at = put32(at, e->count);
    at = put32(at, e->tags);
    *at++ = (uint8_t)e->flags;
    at = put64(put64(put32(at, e->version), e->timestamp), e->changeset);
    memcpy(put32(put32(at, e->uid), e->user), parts, len);
    *k->used_arena += record_bytes(k, len);
}

/* a push that has its room */
static void push(struct run *u, const struct kind *k, const struct place *p, const struct element *e, uint64_t parts)
{
    uint64_t at = *k->used_arena, floor = p->is_held ? p->row[2] : TVK_NO_VERSION;
    if (!tvk_is_version(claim_of(e)) && u->counters[TVK_SETTING] == 0)
        floor = p->known;
    put_record(k, e, u->staged, parts);
    set_row(k, p, at, floor);
}

/* ---- elements and their children */

static void clear(struct run *u)
{
    memset(&u->reader.element, 0, sizeof u->reader.element);
    u->reader.used = 0;
}

/* what an element does where it begins, with its user's text; an empty one and one that is deleted are done with */
static int begin(struct run *u, const struct line *l, const struct kind *k, int empty)
{
    struct element e = {0};
    struct place p = {0};
    struct interned user_text;
    const struct attribute *user = NULL;
    int deletes = u->reader.section == DELETE, acts = deletes || empty;
    int refused = fields(l, k->number, !deletes, &e, &user);
    if (refused == 0 && acts) {
        p = place_of(k, e.id);
        refused = regresses(u, &p, claim_of(&e));
    }
    if (refused == 0 && user != NULL)
        refused = look_up(u, unescaped(l, user, u->rooms[0]), &user_text);
    if (refused == 0 && acts)
        refused = has_no_room(k, &p, deletes ? 0 : record_bytes(k, 0));
    if (refused != 0)
        return refused;
    if (user != NULL)
        e.user = take_in(u, &user_text);
    clear(u);
    if (deletes)
        set_row(k, &p, UINT64_C(1) << 63, higher(p.known, claim_of(&e)));
    else if (empty)
        push(u, k, &p, &e, 0);
    else
        u->reader.element = e;
    return 0;
}

/* the push of an element that ends */
static int finish(struct run *u)
{
    const struct kind *k = &u->kinds[u->reader.kind];
    const struct element *e = &u->reader.element;
    struct place p = place_of(k, e->id);
    int refused = regresses(u, &p, claim_of(e));
    if (refused == 0)
        refused = has_no_room(k, &p, record_bytes(k, u->reader.used));
    if (refused != 0)
        return refused;
    push(u, k, &p, e, u->reader.used);
    clear(u);
    return 0;
}

/* how many bytes the refs or members take */
static uint64_t middle(const struct reader *r)
{
    static const uint8_t bytes[3] = {0, REF_BYTES, MEMBER_BYTES};
    return bytes[r->kind] * r->element.count;
}

/* room for a ref or a member more, what is staged behind it moved up */
static uint8_t *staged_room(struct run *u, uint64_t bytes)
{
    struct reader *r = &u->reader;
    uint8_t *at = u->staged + middle(r);
    memmove(at + bytes, at, r->used - middle(r));
    r->used += bytes;
    r->element.count++;
    return at;
}

static int tag(struct run *u, const struct line *l)
{
    struct reader *r = &u->reader;
    const struct attribute *key = FIND(l, "k"), *value = FIND(l, "v");
    struct interned held;
    if (key == NULL || value == NULL)
        return TVK_MISSING;
    if (r->section == DELETE)
        return 0;
    int refused = look_up(u, unescaped(l, key, u->rooms[0]), &held);
    if (refused != 0)
        return refused;
    struct text text = unescaped(l, value, u->rooms[1]);
    uint64_t values = r->used - middle(r) - TAG_BYTES * r->element.tags;
    if (r->element.tags >= TVK_MAX_TAGS || values + text.len > TVK_MAX_TAG_VALUE_BYTES)
        return TVK_TOO_MANY_PARTS;
    memcpy(put32(put32(u->staged + r->used, take_in(u, &held)), text.len), text.at, text.len);
    r->used += TAG_BYTES + text.len;
    r->element.tags++;
    return 0;
}

static int ref(struct run *u, const struct line *l)
{
    uint64_t id;
    int refused = needed(l, FIND(l, "ref"), &id);
    if (refused != 0 || u->reader.section == DELETE)
        return refused;
    if (u->reader.element.count >= TVK_MAX_REFS)
        return TVK_TOO_MANY_PARTS;
    put64(staged_room(u, REF_BYTES), id);
    return 0;
}

/* a kind's number; above 2 where the name is none */
static uint32_t kind_named(struct text name)
{
    return IS(name, "node") ? TVK_NODE : IS(name, "way") ? TVK_WAY : IS(name, "relation") ? TVK_RELATION : 3;
}

static int member(struct run *u, const struct line *l)
{
    const struct attribute *type = FIND(l, "type"), *role = FIND(l, "role");
    struct interned held;
    uint64_t id;
    if (type == NULL)
        return TVK_MISSING;
    uint32_t kind = kind_named(value_of(l, type));
    if (kind > TVK_RELATION)
        return TVK_MEMBER_TYPE;
    int refused = needed(l, FIND(l, "ref"), &id);
    if (refused != 0 || u->reader.section == DELETE)
        return refused;
    refused = look_up(u, role != NULL ? unescaped(l, role, u->rooms[0]) : (struct text){u->texts, 0}, &held);
    if (refused == 0 && u->reader.element.count >= TVK_MAX_MEMBERS)
        refused = TVK_TOO_MANY_PARTS;
    if (refused != 0)
        return refused;
    uint8_t *at = put64(staged_room(u, MEMBER_BYTES), id);
    *at = (uint8_t)kind;
    put32(at + 1, take_in(u, &held));
    return 0;
}

static int child(struct run *u, const struct line *l, struct text name)
{
    uint64_t kind = u->reader.kind;
    if (kind == TVK_WAY && IS(name, "nd"))
        return ref(u, l);
    if (IS(name, "tag"))
        return tag(u, l);
    if (kind == TVK_RELATION && IS(name, "member"))
        return member(u, l);
    return kind != TVK_NODE && (IS(name, "bbox") || IS(name, "bounds")) ? 0 : TVK_MISPLACED;
}

/* ---- where elements stand */

static int under_root(struct reader *r, struct text name, int empty)
{
    uint64_t section = IS(name, "create") ? CREATE : IS(name, "modify") ? MODIFY : IS(name, "delete") ? DELETE : 3;
    if (kind_named(name) <= TVK_RELATION)
        return TVK_OUTSIDE_SECTION;
    if (IS(name, "osmChange"))
        return TVK_MISPLACED;
    if (empty)
        return 0;
    r->level = section <= DELETE ? SECTION : ANOTHER;
    if (section <= DELETE)
        r->section = section;
    return 0;
}

static int under_section(struct run *u, const struct line *l, struct text name, int empty)
{
    uint32_t kind = kind_named(name);
    if (kind > TVK_RELATION)
        return TVK_MISPLACED;
    int refused = begin(u, l, &u->kinds[kind], empty);
    if (refused == 0 && !empty) {
        u->reader.level = ELEMENT;
        u->reader.kind = kind;
    }
    return refused;
}

static int open_element(struct run *u, const struct line *l, int empty)
{
    struct text name = {l->at + l->ends[0] + 1, l->ends[1] - l->ends[0] - 1};
    struct reader *r = &u->reader;
    int refused;
    switch (r->level) {
    case ELEMENT:
        refused = child(u, l, name);
        r->level = refused != 0 || empty ? ELEMENT : CHILD;
        return refused;
    case SECTION:
        return under_section(u, l, name, empty);
    case ROOT:
        return under_root(r, name, empty);
    case DOCUMENT:
        if (!IS(name, "osmChange"))
            return TVK_MISPLACED;
        r->level = empty ? DONE : ROOT;
        return 0;
    default:
        return TVK_MISPLACED;
    }
}

static int close_element(struct run *u)
{
    static const uint8_t outer[] = {DOCUMENT, DONE, ROOT, SECTION, ELEMENT, ROOT, DONE};
    struct reader *r = &u->reader;
    int refused = r->level == ELEMENT && r->section != DELETE ? finish(u) : 0;
    if (refused == 0)
        r->level = outer[r->level];
    return refused;
}

/* ---- a run */

/* one line of so many bytes: 3, 4, then what it asks for */
static int step(struct run *u, const struct line *l, uint32_t len)
{
    struct text word = {l->at, l->ends[0]};
    if ((l->seen & NOT_PLAIN) != 0 && (memchr(l->at, '\r', len) != NULL || !yardstick_is_text(l->at, len)))
        return TVK_NOT_TEXT;
    if (l->fields == 0 && IS(word, "close"))
        return close_element(u);
    if (l->fields == 0)
        return IS(word, "other") ? 0 : TVK_NOT_EVENT_LINE;
    int empty = IS(word, "empty");
    if ((!empty && !IS(word, "open")) || l->ends[1] == l->ends[0] + 1 || l->formless)
        return TVK_NOT_EVENT_LINE;
    if (((l->seen & BACKSLASH) != 0 && !values_are_escaped(l)) || !names_differ(l))
        return TVK_NOT_EVENT_LINE;
    return open_element(u, l, empty);
}

static struct tvk_events_reply reply_of(const struct run *u, size_t taken)
{
    const struct reader *r = &u->reader;
    return (struct tvk_events_reply){(uint32_t)r->stop, tvk_i32_of(r->held), r->stop_line, taken};
}

/* the stop mark of a refused line */
static void stop(struct run *u, int refused)
{
    u->reader.stop = (uint64_t)refused;
    u->reader.stop_line = u->reader.lines + 1;
    u->reader.held = tvk_version_word(u->held);
}

/* the whole lines, up to the first that is refused: how many bytes they are */
static size_t steps(struct run *u, const uint8_t *s, size_t len)
{
    struct line l;
    size_t at = 0;
    while (at < len) {
        size_t left = len - at;
        uint32_t most = left <= TVK_MAX_LINE ? (uint32_t)left : TVK_MAX_LINE + 1;
        uint32_t end = scan(&l, s + at, most);
        if (end == left && left <= TVK_MAX_LINE)
            return at;
        int refused = end == most ? TVK_LONG_LINE : step(u, &l, end);
        if (refused != 0) {
            stop(u, refused);
            return at;
        }
        u->reader.lines++;
        at += end + 1;
    }
    return at;
}

static void lay_out(struct run *u, uint64_t *words, uint8_t *bytes, uint64_t *counters)
{
    for (uint32_t kind = TVK_NODE; kind <= TVK_RELATION; kind++) {
        uint64_t ids = counters[TVK_LENT_IDS + kind], arena = counters[TVK_LENT_ARENA + kind];
        u->kinds[kind] = (struct kind){words, counters + TVK_USED_IDS + kind, counters + TVK_USED_ARENA + kind, bytes, ids, arena, kind};
        words += ids * TVK_ID_WORDS;
        bytes += arena;
    }
    u->spans = words;
    u->texts = bytes;
    u->counters = counters;
}

struct tvk_events_reply yardstick_events(uint64_t *words, uint8_t *bytes, uint64_t *counters, uint64_t *reader, uint8_t *staged, const uint8_t *run, size_t run_len)
{
    struct run u;
    size_t taken = 0;
    lay_out(&u, words, bytes, counters);
    u.staged = staged;
    u.held = 0;
    u.chained = 0;
    memcpy(&u.reader, reader, sizeof u.reader);
    if (u.reader.stop == 0)
        taken = steps(&u, run, run_len);
    memcpy(reader, &u.reader, sizeof u.reader);
    return reply_of(&u, taken);
}
