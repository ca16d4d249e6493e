/* Lists the records of a log through the header evtx.h, in the lines of the listing program.
 *
 *     list LOG
 *
 * It shows the calls in the order in which a reader of a whole log needs them: file header, chunk, search, size, fields, text. Exit status:
 * 1 if something cannot be read or written, which a line on standard error tells; 2 for wrong arguments. */
#include <errno.h>
#include <evtx.h>
#include <inttypes.h>
#include <stdio.h>
#include <stdlib.h>
#include <string.h>

/* A text that needs more room is refused with 13, as by the listing program; text.c shows how to read any. */
enum { ROOM = 65536 };

static uint8_t header[EVTX_FILE_HEADER_SIZE];
static uint8_t chunk[EVTX_CHUNK_SIZE];
static uint32_t offsets[EVTX_MOST_RECORDS_OF_CHUNK];
static uint8_t text[ROOM];

static void stop(const char *name)
{
    fprintf(stderr, "list: %s: %s\n", name, strerror(errno));
    exit(1);
}

static size_t read_in(FILE *log, const char *name, uint8_t *bytes, size_t room)
{
    size_t length = fread(bytes, 1, room, log);

    if (ferror(log))
        stop(name);
    return length;
}

static void print_verdict(uint32_t number)
{
    if (number == EVTX_DONE)
        puts("ok");
    else
        printf("refused %" PRIu32 "\n", number);
}

/* Where a record of the chunk must end to be listed: where its free space begins, as a sound chunk says. A refused one is listed whole. */
static uint64_t limit_of(uint32_t number)
{
    return number == EVTX_DONE ? evtx_free_space_offset(chunk, sizeof chunk).offset : EVTX_CHUNK_SIZE;
}

static void list_record(uint32_t offset, uint64_t limit)
{
    evtx_answer size = evtx_size_in_chunk(chunk, sizeof chunk, offset);
    evtx_fields fields = evtx_record_fields(chunk, sizeof chunk, offset);
    evtx_text answer;

    if (offset + size.length > limit)
        return;
    printf("%" PRIu32 " %" PRIu64 " ", offset, fields.record_number);
    answer = evtx_record_text(chunk, sizeof chunk, offset, text, sizeof text);
    if (answer.number == EVTX_DONE) {
        fwrite(text, 1, (size_t)answer.length, stdout);
        putchar('\n');
    } else {
        print_verdict(answer.number);
    }
}

static void list_chunk(uint64_t index)
{
    uint32_t number = evtx_check_chunk(chunk, sizeof chunk).number;
    uint64_t limit = limit_of(number);
    uint64_t count = evtx_search_chunk(chunk, sizeof chunk, offsets, EVTX_MOST_RECORDS_OF_CHUNK).length;
    uint64_t i;

    printf("chunk %" PRIu64 " ", index);
    print_verdict(number);
    for (i = 0; i < count && !ferror(stdout); i++)
        list_record(offsets[i], limit);
    if (ferror(stdout))
        stop("standard output");
}

static void list_log(FILE *log, const char *name)
{
    size_t length = read_in(log, name, header, sizeof header);
    uint64_t index = 0;

    printf("header ");
    print_verdict(evtx_check_file_header(header, length).number);
    if (length < sizeof header)
        return;
    while ((length = read_in(log, name, chunk, sizeof chunk)) == sizeof chunk)
        list_chunk(index++);
    if (length > 0)
        printf("rest %zu\n", length);
}

int main(int argc, char **argv)
{
    FILE *log;

    if (argc != 2) {
        fprintf(stderr, "usage: list LOG\n");
        return 2;
    }
    log = fopen(argv[1], "rb");
    if (log == NULL)
        stop(argv[1]);
    list_log(log, argv[1]);
    if (ferror(stdout) || fflush(stdout) != 0)
        stop("standard output");
    return 0;
}
