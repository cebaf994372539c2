/* An overlay, a reader that is handed a run of event lines, a direct push with refs and tags, and the listing. Prints the listing, or what was refused and why: then it ends with 1, and
   with 2 where the listing cannot be written. */
#include "torvaskin.h"

#include <stdio.h>

TVK_STATIC_OVERLAY(overlay, 512, 8192, 512, 8192);
static struct tvk_reader reader;
static char page[65536];

static const char lines[] = "open\tosmChange\n"
                            "open\tmodify\n"
                            "open\tnode\tid=7\tversion=3\tlat7=10\tlon7=-20\n"
                            "empty\ttag\tk=name\tv=A\n"
                            "close\n"
                            "close\n"
                            "open\tdelete\n"
                            "empty\tway\tid=-4\tversion=2\n"
                            "close\n"
                            "close\n";

static int refused(const char *what, uint32_t number, uint64_t line)
{
    fprintf(stderr, "%s is refused %u, line %llu: %s\n", what, (unsigned)number, (unsigned long long)line, tvk_refusal_sentence(number));
    return 1;
}

/* Way 5 at version 1 over two nodes, with a name and a weight limit. A buffer of TVK_STAGED_BYTES holds the parts of any push; where one does not fit, the push is refused 17. */
static struct tvk_reply push_road(void)
{
    uint8_t buffer[256];
    struct tvk_parts parts = tvk_parts_in(buffer, sizeof buffer);
    struct tvk_head head = {5, 0, 0, 0, 0};
    struct tvk_meta meta = tvk_no_meta();
    static const size_t lengths[] = {4, 9}; /* of name and maxweight, which lie end to end */
    uint64_t keys[2];
    struct tvk_texts_reply held = tvk_overlay_intern_texts(&overlay, "namemaxweight", 13, lengths, keys, 2);
    if (held.number != TVK_ACCEPTED) {
        struct tvk_reply not_held = {held.number, 0};
        return not_held;
    }
    meta.flags = TVK_PRESENT | TVK_HAS_VERSION;
    meta.version = 1;
    tvk_parts_ref(&parts, 7);
    tvk_parts_ref(&parts, 8);
    tvk_parts_tag(&parts, (uint32_t)keys[0], "Quay Road", 9);
    tvk_parts_tag(&parts, (uint32_t)keys[1], "7.5", 3);
    return tvk_overlay_push_parts(&overlay, TVK_WAY, head, meta, &parts);
}

int main(void)
{
    struct tvk_reply empty, pushed;
    struct tvk_events_reply events;
    struct tvk_event_reply end;
    struct tvk_listing_reply listing;

    empty = tvk_overlay_set_up(&overlay, overlay_sizes, 0);
    if (empty.number != TVK_ACCEPTED)
        return refused("the set-up", empty.number, 0);
    events = tvk_reader_events(&reader, &overlay, lines, sizeof lines - 1);
    if (events.number != TVK_ACCEPTED)
        return refused("an event", events.number, events.line);
    if (events.taken != sizeof lines - 1) {
        fputs("the last line has no line feed\n", stderr);
        return 1;
    }
    end = tvk_reader_end(&reader, &overlay);
    if (end.number != TVK_ACCEPTED)
        return refused("the document's end", end.number, end.line);
    pushed = push_road();
    if (pushed.number != TVK_ACCEPTED)
        return refused("the road", pushed.number, 0);
    listing = tvk_overlay_listing(&overlay, page, sizeof page);
    if (listing.number != TVK_ACCEPTED)
        return refused("the listing", listing.number, 0);
    if (fwrite(page, 1, listing.length, stdout) != listing.length || fflush(stdout) != 0) {
        perror("standard output");
        return 2;
    }
    return 0;
}
