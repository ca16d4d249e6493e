/* Finds the whole records in a log while it arrives: from a socket, a serial line, a pipe.
 *
 *     arrive FILE
 *
 * Prints a line for each record, its place in the file and its size, as soon as no later bytes can change that it is one. Exit status: 1 if
 * something cannot be read or written, or the file is too long, which a line on standard error tells; 2 for wrong arguments.
 *
 * Each read is a packet, whatever its length. What is still open waits in the store, so that the file is kept nowhere. The list has room for
 * all records that one call can list: neither call answers 13. */
#include <errno.h>
#include <evtx.h>
#include <fcntl.h>
#include <inttypes.h>
#include <stdio.h>
#include <stdlib.h>
#include <string.h>
#include <unistd.h>

static uint8_t packet[EVTX_MOST_PACKET];
static uint8_t store[EVTX_STORE_SIZE];
static uint64_t list[EVTX_MOST_NUMBERS_OF_FEED];

static void stop(const char *name)
{
    fprintf(stderr, "arrive: %s: %s\n", name, strerror(errno));
    exit(1);
}

/* Prints what a call lists, at once, so that whoever waits for it sees it. */
static void show(evtx_answer answer, const char *name)
{
    uint64_t i;

    if (answer.number != EVTX_DONE) {
        fprintf(stderr, "arrive: %s: %s\n", name, evtx_message(answer.number));
        exit(1);
    }
    for (i = 0; i < answer.length; i++)
        if (printf("%" PRIu64 " %" PRIu64 "\n", list[2 * i], list[2 * i + 1]) < 0)
            stop("standard output");
    if (ferror(stdout) || fflush(stdout) != 0)
        stop("standard output");
}

int main(int argc, char **argv)
{
    ssize_t length;
    int file;

    if (argc != 2) {
        fprintf(stderr, "usage: arrive FILE\n");
        return 2;
    }
    file = open(argv[1], O_RDONLY);
    if (file < 0)
        stop(argv[1]);
    while ((length = read(file, packet, sizeof packet)) > 0)
        show(evtx_feed(packet, (size_t)length, store, sizeof store, list, EVTX_MOST_NUMBERS_OF_FEED), argv[1]);
    if (length < 0)
        stop(argv[1]);
    show(evtx_close(store, sizeof store, list, EVTX_MOST_NUMBERS_OF_FEED), argv[1]);
    return 0;
}
