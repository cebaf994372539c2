/* The listing of a change file on standard input, which is read in pieces. Ends with 0 for a listing, 1 for a refusal, 2 for an error of the operating system. */
#include <stdio.h>
#include "torvaskin.h"

TVK_STATIC_OVERLAY(roads, 4096, 1048576, 4096, 65536);
static struct tvk_change_file file;
static char piece[65536], page[2097152];

static int refused(uint32_t number, uint64_t line)
{
    fprintf(stderr, "refused %u, line %llu: %s\n", (unsigned)number, (unsigned long long)line, tvk_refusal_sentence(number));
    return 1;
}

int main(void)
{
    struct tvk_reply empty = tvk_overlay_set_up(&roads, roads_sizes, 0);
    struct tvk_event_reply reply;
    struct tvk_listing_reply listing;
    size_t got;

    if (empty.number != 0)
        return refused(empty.number, 0);
    while ((got = fread(piece, 1, sizeof piece, stdin)) != 0) {
        reply = tvk_change_file_piece(&file, &roads, piece, got);
        if (reply.number != 0)
            return refused(reply.number, reply.line);
    }
    if (ferror(stdin))
        return perror("standard input"), 2;
    reply = tvk_change_file_end(&file, &roads);
    if (reply.number != 0)
        return refused(reply.number, reply.line);
    listing = tvk_overlay_listing(&roads, page, sizeof page);
    if (listing.number != 0)
        return refused(listing.number, 0);
    if (fwrite(page, 1, listing.length, stdout) != listing.length || fflush(stdout) != 0)
        return perror("standard output"), 2;
    return 0;
}
