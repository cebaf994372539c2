/* Keeps an overlay in a file: `saved FILE < EVENTS` loads the overlay of FILE, or begins an empty one where there is no such file, takes in the document on standard input and saves the
   overlay; `saved --list FILE` prints the listing of a saved one. Ends with 0, with 1 for a refusal, with 2 for an error of the operating system or a file that is not whole.

   The file, numbers little-endian, words of 8 bytes (docs/STORAGE.md has what they mean):

     mark         8 bytes, "torvaskn"
     form         a word: TVK_STORED_FORM of the library that wrote it
     counters     17 words, the sizes among them
     tables       of nodes, ways and relations, the known ids, three words each
     spans        of the held strings, two words each
     arenas       of nodes, ways and relations, the used bytes
     strings      the used string bytes
     checksum     a word: the CRC-32 of all that stands before it

   So only what is used is kept. A file is loaded when its mark and its form are these, its sizes are those that are lent here, no count is above its size, its checksum is right and
   tvk_is_sound takes the overlay. Nothing is copied before the counts are compared with what is lent. examples/saved.rs of the crate for Rust keeps the same file. */
#define _POSIX_C_SOURCE 200809L
#include "torvaskin.h"

#include <errno.h>
#include <stdio.h>
#include <unistd.h>

TVK_STATIC_OVERLAY(overlay, 512, 8192, 512, 8192);
static struct tvk_reader reader;
static char run[TVK_MAX_LINE + 1], page[65536];

static int refused(const char *what, uint32_t number, uint64_t line)
{
    fprintf(stderr, "%s is refused %u, line %llu: %s\n", what, (unsigned)number, (unsigned long long)line, tvk_refusal_sentence(number));
    return 1;
}

static int failed(const char *name)
{
    perror(name);
    return 2;
}

static int damaged(const char *name, const char *what)
{
    fprintf(stderr, "%s: %s\n", name, what);
    return 2;
}

/* ---- a file and the checksum of what has passed so far */

struct kept {
    FILE *file;
    uint32_t sum;
    int failed;
};

/* CRC-32 as gzip has it, begun with all bits set and ended with all turned */
static uint32_t summed(uint32_t sum, const uint8_t *at, size_t len)
{
    for (size_t i = 0; i < len; i++) {
        sum ^= at[i];
        for (int bit = 0; bit < 8; bit++)
            sum = (sum & 1) != 0 ? UINT32_C(0xedb88320) ^ (sum >> 1) : sum >> 1;
    }
    return sum;
}

static void put(struct kept *k, void *at, size_t len)
{
    k->failed |= fwrite(at, 1, len, k->file) != len;
    k->sum = summed(k->sum, (const uint8_t *)at, len);
}

static void get(struct kept *k, void *at, size_t len)
{
    k->failed |= fread(at, 1, len, k->file) != len;
    k->sum = summed(k->sum, (const uint8_t *)at, len);
}

/* The used fronts of an overlay's parts, one after another. The counts must not be above the sizes, nor the sizes others than those of the blocks. */
static void fronts(struct kept *k, void (*move)(struct kept *, void *, size_t))
{
    const uint64_t *used = overlay.counters;
    uint64_t *table = overlay.words;
    uint8_t *arena = overlay.bytes;
    for (size_t kind = TVK_NODE; kind <= TVK_RELATION; kind++) {
        move(k, table, (size_t)used[TVK_USED_IDS + kind] * TVK_ID_WORDS * sizeof *table);
        table += used[TVK_LENT_IDS + kind] * TVK_ID_WORDS;
    }
    move(k, table, (size_t)used[TVK_USED_STRINGS] * TVK_STRING_WORDS * sizeof *table);
    for (size_t kind = TVK_NODE; kind <= TVK_RELATION; kind++) {
        move(k, arena, (size_t)used[TVK_USED_ARENA + kind]);
        arena += used[TVK_LENT_ARENA + kind];
    }
    move(k, arena, (size_t)used[TVK_USED_STRING_BYTES]);
}

/* ---- saving: into a file beside the old one, which takes its place when it is whole and on the disk */

static const char mark[] = "torvaskn";

static int save(const char *name)
{
    char beside[4096], begins[8];
    uint64_t form = TVK_STORED_FORM, sum;
    struct kept k = {NULL, UINT32_MAX, 0};

    if (snprintf(beside, sizeof beside, "%s.new", name) >= (int)sizeof beside)
        return damaged(name, "the name is too long");
    k.file = fopen(beside, "wb");
    if (k.file == NULL)
        return failed(beside);
    memcpy(begins, mark, sizeof begins);
    put(&k, begins, sizeof begins);
    put(&k, &form, sizeof form);
    put(&k, overlay.counters, sizeof overlay.counters);
    fronts(&k, put);
    sum = ~k.sum;
    put(&k, &sum, sizeof sum);
    k.failed |= fflush(k.file) != 0 || fsync(fileno(k.file)) != 0;
    k.failed |= fclose(k.file) != 0;
    if (k.failed || rename(beside, name) != 0) {
        failed(beside);
        remove(beside);
        return 2;
    }
    return 0;
}

/* ---- loading */

/* whether the counters have the sizes that are lent here, and counts that are not above them */
static int fits(const uint64_t counters[TVK_COUNTERS])
{
    struct tvk_sizes sizes = tvk_sizes_in(counters);
    int fit = memcmp(&sizes, &overlay_sizes, sizeof sizes) == 0;
    for (size_t kind = TVK_NODE; kind <= TVK_RELATION; kind++) {
        fit &= counters[TVK_USED_IDS + kind] <= counters[TVK_LENT_IDS + kind];
        fit &= counters[TVK_USED_ARENA + kind] <= counters[TVK_LENT_ARENA + kind];
    }
    fit &= counters[TVK_USED_STRINGS] <= counters[TVK_LENT_STRINGS];
    return fit & (counters[TVK_USED_STRING_BYTES] <= counters[TVK_LENT_STRING_BYTES]);
}

static int read_from(struct kept *k, const char *name)
{
    char begins[8];
    uint64_t form, counters[TVK_COUNTERS], sum, must;
    uint32_t number;

    get(k, begins, sizeof begins);
    get(k, &form, sizeof form);
    get(k, counters, sizeof counters);
    if (k->failed)
        return damaged(name, "the file is too short");
    if (memcmp(begins, mark, sizeof begins) != 0)
        return damaged(name, "this is no saved overlay");
    if (form != TVK_STORED_FORM)
        return damaged(name, "this overlay was saved in another stored form: CHANGELOG.md says how it is carried over");
    if (!fits(counters))
        return damaged(name, "the sizes are others than those of this terminal, or a count is above its size");
    memcpy(overlay.counters, counters, sizeof counters);
    fronts(k, get);
    must = ~k->sum;
    get(k, &sum, sizeof sum);
    if (k->failed || getc(k->file) != EOF)
        return damaged(name, "the file has another length than its counts say");
    if (sum != must)
        return damaged(name, "the checksum is wrong: the file is damaged");
    number = tvk_overlay_is_sound(&overlay).number;
    return number == TVK_ACCEPTED ? 0 : refused(name, number, 0);
}

static int load(FILE *file, const char *name)
{
    struct kept k = {file, UINT32_MAX, 0};
    int status = read_from(&k, name);
    if (ferror(file))
        status = failed(name);
    fclose(file);
    return status;
}

/* ---- the terminal */

/* a document from standard input, as in stream.c */
static int take_in(void)
{
    struct tvk_events_reply taken;
    struct tvk_event_reply last = {0, 0, 0};
    size_t held = 0, got;

    do {
        got = fread(run + held, 1, sizeof run - held, stdin);
        held += got;
        taken = tvk_reader_events(&reader, &overlay, run, held);
        if (taken.number != TVK_ACCEPTED)
            return refused("the document", taken.number, taken.line);
        held -= taken.taken;
        memmove(run, run + taken.taken, held);
    } while (got != 0);
    if (ferror(stdin))
        return failed("standard input");
    if (held != 0)
        last = tvk_reader_event(&reader, &overlay, run, held);
    if (last.number == TVK_ACCEPTED)
        last = tvk_reader_end(&reader, &overlay);
    return last.number == TVK_ACCEPTED ? 0 : refused("the document", last.number, last.line);
}

static int print(void)
{
    struct tvk_listing_reply listing = tvk_overlay_listing(&overlay, page, sizeof page);
    if (listing.number != TVK_ACCEPTED)
        return refused("the listing", listing.number, 0);
    if (fwrite(page, 1, listing.length, stdout) != listing.length || fflush(stdout) != 0)
        return failed("standard output");
    return 0;
}

int main(int argc, char **argv)
{
    int lists = argc == 3 && strcmp(argv[1], "--list") == 0;
    const char *name = argv[argc - 1];
    FILE *file;
    int status;

    if (argc != 2 && !lists)
        return damaged("usage", "saved FILE < EVENTS, saved --list FILE");
    file = fopen(name, "rb");
    if (file != NULL) {
        status = load(file, name);
    } else if (errno == ENOENT && !lists) {
        struct tvk_reply empty = tvk_overlay_set_up(&overlay, overlay_sizes, 0);
        status = empty.number == TVK_ACCEPTED ? 0 : refused("the set-up", empty.number, 0);
    } else {
        status = failed(name);
    }
    if (status == 0)
        status = lists ? print() : take_in();
    /* a document that is refused leaves the file as it was */
    if (status == 0 && !lists)
        status = save(name);
    return status;
}
