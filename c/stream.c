/* The listing of standard input, which is read in runs. Ends with 0 for a listing, 1 for a refusal, 2 for an error of the operating system. */
#include <stdio.h>
#include "torvaskin.h"

TVK_STATIC_OVERLAY(roads, 512, 8192, 512, 8192);
static struct tvk_reader reader;
static char run[TVK_MAX_LINE + 1], page[65536]; /* room for a line and one byte more */

static int refused(uint32_t number, uint64_t line)
{
    fprintf(stderr, "refused %u, line %llu: %s\n", (unsigned)number, (unsigned long long)line, tvk_refusal_sentence(number));
    return 1;
}

int main(void)
{
    struct tvk_reply empty = tvk_overlay_set_up(&roads, roads_sizes, 0);
    struct tvk_events_reply taken;
    struct tvk_event_reply last = {0, 0, 0};
    struct tvk_listing_reply listing;
    size_t held = 0, got;

    if (empty.number != 0)
        return refused(empty.number, 0);
    do {
        got = fread(run + held, 1, sizeof run - held, stdin);
        held += got;
        taken = tvk_reader_events(&reader, &roads, run, held);
        if (taken.number != 0)
            return refused(taken.number, taken.line);
        held -= taken.taken;
        memmove(run, run + taken.taken, held);
    } while (got != 0);
    if (ferror(stdin))
        return perror("standard input"), 2;
    if (held != 0) /* the rest has no line feed, so it is no event line */
        last = tvk_reader_event(&reader, &roads, run, held);
    if (last.number == 0)
        last = tvk_reader_end(&reader, &roads);
    if (last.number != 0)
        return refused(last.number, last.line);
    listing = tvk_overlay_listing(&roads, page, sizeof page);
    if (listing.number != 0)
        return refused(listing.number, 0);
    if (fwrite(page, 1, listing.length, stdout) != listing.length || fflush(stdout) != 0)
        return perror("standard output"), 2;
    return 0;
}
