/* Keeps the indexes of a log in a file beside it, and says from that file alone which record has a number.
 *
 *     index LOG               makes LOG.index, or brings it up to date with what has come to the log
 *     index LOG NUMBER..      prints a line for each number
 *
 * A line has the number, the chunk, offset and size of the first record with it, and `text`, or `refused` and by which number its text is;
 * or the number and `none`. CHUNK and OFFSET are what text.c takes to write the text. Exit status: 1 if something cannot be read or written,
 * a record's number is too large for an index, or LOG.index holds something else, which a line on standard error tells; 2 for wrong arguments.
 *
 * LOG.index has for each chunk the count of its entries, in two bytes, the most significant first, and then the entries. Records come to a log
 * behind those that are there: so what is kept of a chunk stays, and evtx_index_add adds what is new; a chunk of which nothing is kept
 * has its index built. Where a log is written anew from its beginning, remove LOG.index. */
#include <ctype.h>
#include <errno.h>
#include <evtx.h>
#include <inttypes.h>
#include <stdio.h>
#include <stdlib.h>
#include <string.h>

static uint8_t header[EVTX_FILE_HEADER_SIZE];
static uint8_t chunk[EVTX_CHUNK_SIZE];
static uint8_t entries[EVTX_MOST_BYTES_OF_INDEX];
static uint8_t longer[EVTX_MOST_BYTES_OF_INDEX];

/* The file that is being written, which is not left behind half written. */
static char *unfinished;

static void stop(const char *name, const char *reason)
{
    fprintf(stderr, "index: %s: %s\n", name, reason);
    if (unfinished != NULL)
        remove(unfinished);
    exit(1);
}

static void wrong_arguments(void)
{
    fprintf(stderr, "usage: index LOG [NUMBER..]\n");
    exit(2);
}

static uint64_t number_of(const char *word)
{
    char *end;
    unsigned long long number;

    errno = 0;
    number = strtoull(word, &end, 10);
    if (!isdigit((unsigned char)word[0]) || *end != 0 || errno != 0)
        wrong_arguments();
    return number;
}

/* The log's name with an ending. */
static char *beside(const char *log, const char *ending)
{
    char *name = malloc(strlen(log) + strlen(ending) + 1);

    if (name == NULL)
        stop(log, strerror(errno));
    strcpy(name, log);
    return strcat(name, ending);
}

/* Reads the next chunk's entries from the file that keeps them, and answers whether there was one more chunk. */
static int read_kept(FILE *kept, const char *name, size_t *length)
{
    uint8_t count[2];
    size_t got = fread(count, 1, sizeof count, kept);

    if (got == 0 && !ferror(kept))
        return 0;
    *length = got == sizeof count ? EVTX_ENTRY_SIZE * (256u * count[0] + count[1]) : 0;
    if (got < sizeof count || *length > sizeof entries || fread(entries, 1, *length, kept) != *length)
        stop(name, ferror(kept) ? strerror(errno) : "not a file of indexes");
    return 1;
}

/* Adds what the chunk has behind the last of its entries. Answers the length that they then have. */
static size_t added(size_t length, const char *log, const char *name)
{
    evtx_answer answer;

    while ((answer = evtx_index_add(chunk, sizeof chunk, entries, length, longer, sizeof longer)).number == EVTX_DONE) {
        length = (size_t)answer.length;
        memcpy(entries, longer, length);
    }
    if (answer.number != EVTX_NO_RECORD)
        stop(answer.number == EVTX_NUMBER_TOO_LARGE ? log : name, evtx_message(answer.number));
    return length;
}

static size_t built(const char *log)
{
    evtx_answer answer = evtx_index_build(chunk, sizeof chunk, entries, sizeof entries);

    if (answer.number != EVTX_DONE)
        stop(log, evtx_message(answer.number));
    return (size_t)answer.length;
}

static void write_entries(FILE *file, size_t length)
{
    size_t count = length / EVTX_ENTRY_SIZE;

    putc((int)(count >> 8), file);
    putc((int)(count & 255), file);
    fwrite(entries, 1, length, file);
    if (ferror(file))
        stop(unfinished, strerror(errno));
}

/* Writes the indexes of all whole chunks to a new file, which then takes the place of the one before. */
static void update(const char *log, const char *name)
{
    FILE *bytes = fopen(log, "rb"), *kept, *file;
    size_t length;

    if (bytes == NULL)
        stop(log, strerror(errno));
    if (fread(header, 1, sizeof header, bytes) < sizeof header && ferror(bytes))
        stop(log, strerror(errno));
    kept = fopen(name, "rb");
    if (kept == NULL && errno != ENOENT)
        stop(name, strerror(errno));
    unfinished = beside(name, ".new");
    file = fopen(unfinished, "wb");
    if (file == NULL)
        stop(unfinished, strerror(errno));
    while (fread(chunk, 1, sizeof chunk, bytes) == sizeof chunk)
        write_entries(file, kept != NULL && read_kept(kept, name, &length) ? added(length, log, name) : built(log));
    if (ferror(bytes))
        stop(log, strerror(errno));
    if (fclose(file) != 0 || rename(unfinished, name) != 0)
        stop(unfinished, strerror(errno));
}

/* Goes through the kept indexes up to the first that has the number. */
static void print_record(FILE *kept, const char *name, uint64_t number)
{
    size_t length;
    uint64_t k;

    rewind(kept);
    for (k = 0; read_kept(kept, name, &length); k++) {
        evtx_entry entry = evtx_index_find(entries, length, number);

        if (entry.number != EVTX_DONE && entry.number != EVTX_NO_RECORD)
            stop(name, evtx_message(entry.number));
        if (entry.number == EVTX_NO_RECORD)
            continue;
        printf("%" PRIu64 " %" PRIu64 " %" PRIu64 " %" PRIu64 " ", number, k, entry.offset, entry.size);
        if (entry.refusal == EVTX_DONE)
            puts("text");
        else
            printf("refused %" PRIu32 "\n", entry.refusal);
        return;
    }
    printf("%" PRIu64 " none\n", number);
}

int main(int argc, char **argv)
{
    char *name;
    FILE *kept;
    int i;

    if (argc < 2)
        wrong_arguments();
    for (i = 2; i < argc; i++)
        number_of(argv[i]);
    name = beside(argv[1], ".index");
    if (argc == 2) {
        update(argv[1], name);
        return 0;
    }
    kept = fopen(name, "rb");
    if (kept == NULL)
        stop(name, strerror(errno));
    for (i = 2; i < argc && !ferror(stdout); i++)
        print_record(kept, name, number_of(argv[i]));
    if (ferror(stdout) || fflush(stdout) != 0)
        stop("standard output", strerror(errno));
    return 0;
}
