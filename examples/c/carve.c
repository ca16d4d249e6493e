/* Finds the whole records in a file of any origin: a disk image, a memory dump, what is left of a log.
 *
 *     carve FILE
 *
 * Prints a line for each record: its offset in the file, its size and its record number. Exit status: 1 if something cannot be read or
 * written, which a line on standard error tells; 2 for wrong arguments.
 *
 * The file is searched in windows of 16 MiB, the most that a call takes. Whether a whole record stands at a place is decided by the
 * 65,024 bytes from there on, the largest size. So in each window but the last only the places that have as many bytes behind them are
 * looked at, and the next window begins where the search then stands. This lists what one search of the whole file would: a record
 * across the end of a window is found in the next one, and bytes inside it that look like a record are passed over. */
#include <errno.h>
#include <evtx.h>
#include <inttypes.h>
#include <stdio.h>
#include <stdlib.h>
#include <string.h>

enum { WINDOW = EVTX_MOST_BYTES, LARGEST = 65024 };

static uint8_t bytes[WINDOW];

static void stop(const char *name)
{
    fprintf(stderr, "carve: %s: %s\n", name, strerror(errno));
    exit(1);
}

/* Fills the window from a length on, and answers the length that it then has. */
static size_t read_in(FILE *file, const char *name, size_t length)
{
    length += fread(bytes + length, 1, WINDOW - length, file);
    if (ferror(file))
        stop(name);
    return length;
}

/* The number of a whole record: the 8 bytes from 8 on. The call evtx_record_fields, which reads it too, is for chunks. */
static uint64_t number_at(size_t record)
{
    uint64_t number = 0;
    size_t i = 8;

    while (i-- > 0)
        number = number << 8 | bytes[record + 8 + i];
    return number;
}

/* Prints the records that begin below `decided` in a window that stands at `base` in the file. Answers where the search then stands. */
static size_t carve_window(size_t length, size_t decided, uint64_t base)
{
    size_t at = 0;

    while (at < decided) {
        evtx_found found = evtx_next_in_bytes(bytes, length, at);
        uint64_t size;

        if (found.number != EVTX_DONE || found.offset >= decided)
            return decided;
        at = (size_t)found.offset;
        size = evtx_size_in_bytes(bytes, length, at).length;
        if (printf("%" PRIu64 " %" PRIu64 " %" PRIu64 "\n", base + at, size, number_at(at)) < 0)
            stop("standard output");
        at += (size_t)size;
    }
    return at;
}

static void carve(FILE *file, const char *name)
{
    size_t length = read_in(file, name, 0);
    uint64_t base = 0;

    while (length == WINDOW) {
        size_t at = carve_window(length, WINDOW - LARGEST + 1, base);

        memmove(bytes, bytes + at, length - at);
        base += at;
        length = read_in(file, name, length - at);
    }
    carve_window(length, length, base);
}

int main(int argc, char **argv)
{
    FILE *file;

    if (argc != 2) {
        fprintf(stderr, "usage: carve FILE\n");
        return 2;
    }
    file = fopen(argv[1], "rb");
    if (file == NULL)
        stop(argv[1]);
    carve(file, argv[1]);
    if (ferror(stdout) || fflush(stdout) != 0)
        stop("standard output");
    return 0;
}
