/* The listing of standard input, which is read whole and handed over as one run. Ends with 0 for a listing, 1 for a refusal, 2 for an error of the operating system. */
#include <stdio.h>
#include <torvaskin.h>

TVK_STATIC_OVERLAY(overlay, 512, 8192, 512, 8192); /* ids and arena bytes a kind, strings, string bytes */
static struct tvk_reader reader;
static char input[1048576], page[65536];

static int refused(const char *what, uint32_t number, uint64_t line)
{
    fprintf(stderr, "%s is refused %u, line %llu: %s\n", what, (unsigned)number, (unsigned long long)line, tvk_refusal_sentence(number));
    return 1;
}

int main(void)
{
    struct tvk_reply empty = tvk_overlay_set_up(&overlay, overlay_sizes, 0);
    if (empty.number != TVK_ACCEPTED)
        return refused("the set-up", empty.number, 0);
    size_t length = fread(input, 1, sizeof input, stdin);
    if (ferror(stdin)) {
        perror("standard input");
        return 2;
    }
    if (length == sizeof input) {
        fputs("the input is longer than what is lent for it\n", stderr);
        return 2;
    }
    struct tvk_events_reply events = tvk_reader_events(&reader, &overlay, input, length);
    if (events.number != TVK_ACCEPTED)
        return refused("the input", events.number, events.line);
    if (events.taken < length) {
        /* the rest is a line without its line feed, which is refused */
        struct tvk_event_reply rest = tvk_reader_event(&reader, &overlay, input + events.taken, length - events.taken);
        return refused("the last line", rest.number, rest.line);
    }
    struct tvk_event_reply end = tvk_reader_end(&reader, &overlay);
    if (end.number != TVK_ACCEPTED)
        return refused("the end", end.number, end.line);
    struct tvk_listing_reply listing = tvk_overlay_listing(&overlay, page, sizeof page);
    if (listing.number != TVK_ACCEPTED)
        return refused("the listing", listing.number, 0);
    if (fwrite(page, 1, listing.length, stdout) != listing.length || fflush(stdout) != 0) {
        perror("standard output");
        return 2;
    }
    return 0;
}
