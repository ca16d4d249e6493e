/* Prints the texts of an EVT log, which the old panels write, a line each.
 *
 *     evt LOG
 *
 * It shows the calls in the order in which a reader of such a log needs them: header, record, text. Exit status: 1 if something cannot be
 * read or written, or the log or one of its records is refused, which a line on standard error tells; 2 for wrong arguments.
 *
 * A log is lent whole. Where it was not closed, the offsets in its header are out of date: evtx_evt_header looks for the true ones and hands
 * back the header with them. It is written over the front, so that the other calls need not look for them each time. Behind the last byte of
 * the log comes its byte 48: a record may go on there, and `next` says where the one behind it stands. */
#include <errno.h>
#include <evtx.h>
#include <stdio.h>
#include <stdlib.h>
#include <string.h>

/* A record begins with its length, and has 56 bytes of fields before its strings. Where these have no room before the end of the log there are
 * words 0x27, which are no length of a record, and the next record stands at 48. */
enum { FIXED = 56, FILL = 0x27 };

/* One byte more than a log may have, so that a longer one is refused. */
static uint8_t bytes[EVTX_MOST_EVT + 1];
static size_t length;

/* Room for any text: two bytes of a string become six at most, and the numbers take fewer bytes than the record's fields. */
static uint8_t text[3 * EVTX_MOST_EVT];

static void stop(const char *name, const char *reason)
{
    fprintf(stderr, "evt: %s: %s\n", name, reason);
    exit(1);
}

static size_t number_at(size_t at)
{
    return bytes[at] | (size_t)bytes[at + 1] << 8 | (size_t)bytes[at + 2] << 16 | (size_t)bytes[at + 3] << 24;
}

static int fill_at(size_t at)
{
    return at > EVTX_EVT_HEADER_SIZE && at + FIXED > length && at + 4 <= length && number_at(at) == FILL;
}

static void print_text(const char *name, size_t at)
{
    evtx_text answer = evtx_evt_text(bytes, length, at, text, sizeof text);

    if (answer.number != EVTX_DONE)
        stop(name, evtx_message(answer.number));
    fwrite(text, 1, (size_t)answer.length, stdout);
    putchar('\n');
}

/* Prints the records from an offset up to another one. All together they are no longer than what stands behind the header: those of a damaged
 * log could come again and again. */
static void print_records(const char *name, size_t at, size_t end)
{
    uint64_t left = length - EVTX_EVT_HEADER_SIZE;

    while (at != end && !ferror(stdout)) {
        evtx_evt_seen seen;

        if (fill_at(at)) {
            at = EVTX_EVT_HEADER_SIZE;
            continue;
        }
        seen = evtx_evt_record(bytes, length, at);
        if (seen.number != EVTX_DONE)
            stop(name, evtx_message(seen.number));
        if (seen.length > left)
            stop(name, "the records come again");
        print_text(name, at);
        left -= seen.length;
        at = (size_t)seen.next;
    }
}

int main(int argc, char **argv)
{
    uint8_t header[EVTX_EVT_HEADER_SIZE];
    uint32_t number;
    FILE *log;

    if (argc != 2) {
        fprintf(stderr, "usage: evt LOG\n");
        return 2;
    }
    log = fopen(argv[1], "rb");
    if (log == NULL)
        stop(argv[1], strerror(errno));
    length = fread(bytes, 1, sizeof bytes, log);
    if (ferror(log))
        stop(argv[1], strerror(errno));
    number = evtx_evt_header(bytes, length, header, sizeof header).number;
    if (number != EVTX_DONE)
        stop(argv[1], evtx_message(number));
    memcpy(bytes, header, sizeof header);
    print_records(argv[1], number_at(16), number_at(20));
    if (ferror(stdout) || fflush(stdout) != 0)
        stop("standard output", strerror(errno));
    return 0;
}
