/* Prints the records of what the event lines on standard input leave: of each live element its head and metadata, then its refs or members and its tags, a line each. Ends with 0, with 1
   for a refusal, with 2 for an error of the operating system. */
#include "torvaskin.h"

#include <stdio.h>

TVK_STATIC_OVERLAY(roads, 512, 8192, 512, 8192);
static struct tvk_reader reader;
static char run[TVK_MAX_LINE + 1];
static const char *const kinds[] = {"node", "way", "relation"};

static int refused(const char *what, uint32_t number, uint64_t line)
{
    fprintf(stderr, "%s is refused %u, line %llu: %s\n", what, (unsigned)number, (unsigned long long)line, tvk_refusal_sentence(number));
    return 1;
}

/* ---- a record; each function answers 0, or the refusal */

/* words, and the text of a handle */
static uint32_t print_text(const char *words, uint32_t handle)
{
    struct tvk_view view = tvk_overlay_text(&roads, handle);
    struct tvk_bytes text = tvk_view_bytes(tvk_overlay_string_bytes(&roads), view);
    fputs(words, stdout);
    if (text.len != 0)
        fwrite(text.at, 1, text.len, stdout);
    return view.number;
}

static uint32_t print_meta(struct tvk_meta meta)
{
    uint32_t number = 0;
    if ((meta.flags & TVK_HAS_VERSION) != 0)
        printf(" version %ld", (long)meta.version);
    if ((meta.flags & TVK_PRESENT) != 0)
        printf(" timestamp %lld changeset %lld uid %ld", (long long)meta.timestamp, (long long)meta.changeset, (long)meta.uid);
    if ((meta.flags & TVK_HIDDEN) != 0)
        printf(" hidden");
    if ((meta.flags & TVK_HAS_USER) != 0)
        number = print_text(" user ", meta.user);
    putchar('\n');
    return number;
}

static uint32_t print_refs(struct tvk_walk walk)
{
    struct tvk_ref_reply ref;
    while ((ref = tvk_next_ref(&walk)).found)
        printf("  ref %lld\n", (long long)ref.value);
    return ref.number;
}

static uint32_t print_members(struct tvk_walk walk)
{
    struct tvk_member_reply member;
    uint32_t number = 0;
    while (number == 0 && (member = tvk_next_member(&walk)).found) {
        printf("  member %s %lld", kinds[member.kind], (long long)member.reference);
        number = print_text(" as ", member.role);
        putchar('\n');
    }
    return number != 0 ? number : member.number;
}

static uint32_t print_tags(struct tvk_walk walk)
{
    struct tvk_tag_reply tag;
    uint32_t number = 0;
    while (number == 0 && (tag = tvk_next_tag(&walk)).found) {
        number = print_text("  tag ", tag.key);
        printf(" = ");
        fwrite(walk.bytes + tag.start, 1, tag.len, stdout);
        putchar('\n');
    }
    return number != 0 ? number : tag.number;
}

static uint32_t print_record(uint8_t kind, uint64_t n)
{
    struct tvk_record r = tvk_overlay_open(&roads, kind, tvk_overlay_record(&roads, kind, n));
    uint32_t number = r.number;
    if (number != 0)
        return number;
    printf("%s %lld", kinds[kind], (long long)r.head.id);
    if (kind == TVK_NODE)
        printf(" at %ld %ld", (long)r.head.lat, (long)r.head.lon);
    number = print_meta(r.meta);
    if (number == 0)
        number = print_refs(r.refs);
    if (number == 0)
        number = print_members(r.members);
    if (number == 0)
        number = print_tags(r.tags);
    return number;
}

/* ---- the overlay */

/* the document on standard input, as in stream.c */
static int take_in(void)
{
    struct tvk_events_reply taken;
    struct tvk_event_reply last = {0, 0, 0};
    size_t held = 0, got;

    do {
        got = fread(run + held, 1, sizeof run - held, stdin);
        held += got;
        taken = tvk_reader_events(&reader, &roads, run, held);
        if (taken.number != 0)
            return refused("the document", taken.number, taken.line);
        held -= taken.taken;
        memmove(run, run + taken.taken, held);
    } while (got != 0);
    if (ferror(stdin))
        return perror("standard input"), 2;
    if (held != 0)
        last = tvk_reader_event(&reader, &roads, run, held);
    if (last.number == 0)
        last = tvk_reader_end(&reader, &roads);
    return last.number == 0 ? 0 : refused("the document", last.number, last.line);
}

int main(void)
{
    struct tvk_reply empty = tvk_overlay_set_up(&roads, roads_sizes, 0);
    int status = empty.number == 0 ? take_in() : refused("the set-up", empty.number, 0);

    for (uint8_t kind = TVK_NODE; kind <= TVK_RELATION && status == 0; kind++) {
        struct tvk_number live = tvk_overlay_live_count(&roads, kind);
        if (live.number != 0)
            status = refused("a count", live.number, 0);
        for (uint64_t n = 0; n < live.value && status == 0; n++) {
            uint32_t number = print_record(kind, n);
            if (number != 0)
                status = refused("a record", number, 0);
        }
    }
    if (status == 0 && (fflush(stdout) != 0 || ferror(stdout)))
        return perror("standard output"), 2;
    return status;
}
