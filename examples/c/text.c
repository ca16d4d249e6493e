/* Writes the text of one record, whatever its length, and a line feed.
 *
 *     text LOG CHUNK OFFSET
 *
 * CHUNK is counted from 0, and OFFSET from the chunk's first byte, as the listing has them. Exit status: 1 if something cannot be read or
 * written, or the record's text is refused, which a line on standard error tells; 2 for wrong arguments.
 *
 * A text has no largest length that one would set room aside for: a few bytes of a log can stand for gigabytes. evtx_record_text answers
 * EVTX_ROOM_TOO_SMALL where the room is too small; how much is needed is asked first, of evtx_text_length. */
#include <ctype.h>
#include <errno.h>
#include <evtx.h>
#include <stdio.h>
#include <stdlib.h>
#include <string.h>

static uint8_t header[EVTX_FILE_HEADER_SIZE];
static uint8_t chunk[EVTX_CHUNK_SIZE];

static void stop(const char *name, const char *reason)
{
    fprintf(stderr, "text: %s: %s\n", name, reason);
    exit(1);
}

static uint64_t number_of(const char *word)
{
    char *end;
    unsigned long long number;

    errno = 0;
    number = strtoull(word, &end, 10);
    if (!isdigit((unsigned char)word[0]) || *end != 0 || errno != 0) {
        fprintf(stderr, "usage: text LOG CHUNK OFFSET\n");
        exit(2);
    }
    return number;
}

/* Reads up to the end of a chunk. */
static void read_chunk(FILE *log, const char *name, uint64_t index)
{
    int whole = fread(header, 1, sizeof header, log) == sizeof header;
    uint64_t i;

    for (i = 0; i <= index && whole; i++)
        whole = fread(chunk, 1, sizeof chunk, log) == sizeof chunk;
    if (ferror(log))
        stop(name, strerror(errno));
    if (!whole)
        stop(name, "no such chunk");
}

static void write_text(const char *name, uint64_t offset)
{
    evtx_text answer = evtx_text_length(chunk, sizeof chunk, offset);
    size_t room = (size_t)answer.length;
    uint8_t *text;

    if (answer.number != EVTX_DONE)
        stop(name, evtx_message(answer.number));
    text = malloc(room);
    if (text == NULL)
        stop(name, strerror(errno));
    answer = evtx_record_text(chunk, sizeof chunk, offset, text, room);
    if (answer.number != EVTX_DONE)
        stop(name, evtx_message(answer.number));
    fwrite(text, 1, room, stdout);
    putchar('\n');
    free(text);
}

int main(int argc, char **argv)
{
    uint64_t index = number_of(argc == 4 ? argv[2] : "");
    uint64_t offset = number_of(argc == 4 ? argv[3] : "");
    FILE *log = fopen(argv[1], "rb");

    if (log == NULL)
        stop(argv[1], strerror(errno));
    read_chunk(log, argv[1], index);
    write_text(argv[1], offset);
    if (ferror(stdout) || fflush(stdout) != 0)
        stop("standard output", strerror(errno));
    return 0;
}
