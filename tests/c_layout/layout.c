/* Holds the archive to include/evtx.h: where each field of each struct stands, that the library fills it there, and that every bit of a
 * parameter counts. The contracts of the calls know neither, so that a field in another place or a parameter of 32 bits would be proved.
 * And holds the header's own numbers, version and messages to what they have to be.
 *
 *     layout              makes every check; the status is 0 exactly if all held
 *     layout --covered    writes the names of the structs, fields, calls and numbers that are checked; run.sh holds them to the header's
 *
 * Every value that is due was worked out by hand from documents 01 and 02. A struct has a row in `structs` and one for each field in
 * `fields`, a number or another macro one in `numbers` or `versions`; a call has a row in `calls`, and the function named there tries it.
 * VERSION_DUE is the Makefile's version, as a string. */
#define _DEFAULT_SOURCE
#include <inttypes.h>
#include <stdio.h>
#include <stdlib.h>
#include <string.h>
#include <sys/mman.h>

#include "evtx.h"

#define BIT(b) ((uint64_t)1 << (b))

static unsigned checks, failed;

static void equal(const char *call, const char *what, const char *field, uint64_t is, uint64_t due)
{
    checks++;
    if (is == due)
        return;
    failed++;
    printf("FAILED %s, %s: %s is 0x%" PRIx64 ", due is 0x%" PRIx64 "\n", call, what, field, is, due);
}

/* The layout, by the rules of the C implementation for x86-64: a field stands at a multiple of its width. */

#define STRUCT(type, size) { #type, sizeof(type), size }
#define FIELD(type, field, offset, width) { #type, #field, offsetof(type, field), sizeof(((type *)0)->field), offset, width }

static const struct {
    const char *name;
    size_t size, due;
} structs[] = {
    STRUCT(evtx_answer, 16),
    STRUCT(evtx_found, 16),
    STRUCT(evtx_stretch, 24),
    STRUCT(evtx_fields, 24),
    STRUCT(evtx_text, 16),
    STRUCT(evtx_entry, 56),
    STRUCT(evtx_evt_seen, 40),
};

static const struct {
    const char *type, *name;
    size_t offset, width, offset_due, width_due;
} fields[] = {
    FIELD(evtx_answer, number, 0, 4),
    FIELD(evtx_answer, length, 8, 8),
    FIELD(evtx_found, number, 0, 4),
    FIELD(evtx_found, offset, 8, 8),
    FIELD(evtx_stretch, number, 0, 4),
    FIELD(evtx_stretch, offset, 8, 8),
    FIELD(evtx_stretch, length, 16, 8),
    FIELD(evtx_fields, number, 0, 4),
    FIELD(evtx_fields, record_number, 8, 8),
    FIELD(evtx_fields, written_time, 16, 8),
    FIELD(evtx_text, number, 0, 4),
    FIELD(evtx_text, length, 8, 8),
    FIELD(evtx_entry, number, 0, 4),
    FIELD(evtx_entry, position, 8, 8),
    FIELD(evtx_entry, chunk_number, 16, 8),
    FIELD(evtx_entry, offset, 24, 8),
    FIELD(evtx_entry, size, 32, 8),
    FIELD(evtx_entry, record_number, 40, 8),
    FIELD(evtx_entry, refusal, 48, 4),
    FIELD(evtx_evt_seen, number, 0, 4),
    FIELD(evtx_evt_seen, length, 8, 8),
    FIELD(evtx_evt_seen, record_number, 16, 8),
    FIELD(evtx_evt_seen, written_time, 24, 8),
    FIELD(evtx_evt_seen, next, 32, 8),
};

#define COUNT(table) (sizeof(table) / sizeof(*(table)))

static void layout(void)
{
    for (size_t i = 0; i < COUNT(structs); i++)
        equal("layout", structs[i].name, "size", structs[i].size, structs[i].due);
    for (size_t i = 0; i < COUNT(fields); i++) {
        equal(fields[i].type, fields[i].name, "offset", fields[i].offset, fields[i].offset_due);
        equal(fields[i].type, fields[i].name, "width", fields[i].width, fields[i].width_due);
    }
    equal("layout", "size_t", "size", sizeof(size_t), 8);
    equal("layout", "a pointer", "size", sizeof(void *), 8);
}

/* The numbers that the header gives names to: those of the answers, and those of the layouts and the searches. */

#define NUMBER(name, due) { #name, name, due }

static const struct {
    const char *name;
    uint64_t is, due;
} numbers[] = {
    NUMBER(EVTX_DONE, 0),
    NUMBER(EVTX_WRONG_LENGTH, 1),
    NUMBER(EVTX_WRONG_MAGIC, 2),
    NUMBER(EVTX_WRONG_VERSION, 3),
    NUMBER(EVTX_WRONG_FIELD, 4),
    NUMBER(EVTX_WRONG_HEADER_CHECKSUM, 5),
    NUMBER(EVTX_WRONG_DATA_CHECKSUM, 6),
    NUMBER(EVTX_NO_RECORD, 7),
    NUMBER(EVTX_MALFORMED, 8),
    NUMBER(EVTX_LEAVES_CHUNK, 9),
    NUMBER(EVTX_NO_SUCH_VALUE, 10),
    NUMBER(EVTX_WRONG_VALUE, 11),
    NUMBER(EVTX_OVER_LIMIT, 12),
    NUMBER(EVTX_ROOM_TOO_SMALL, 13),
    NUMBER(EVTX_AFTER_CLOSING, 14),
    NUMBER(EVTX_NUMBER_TOO_LARGE, 15),
    NUMBER(EVTX_NOT_AN_INDEX, 16),
    NUMBER(EVTX_NO_TRAILER, 17),
    NUMBER(EVTX_NO_EVT_RECORD, 18),
    NUMBER(EVTX_FILE_HEADER_SIZE, 4096),
    NUMBER(EVTX_CHUNK_SIZE, 65536),
    NUMBER(EVTX_MOST_BYTES, 16777216),
    /* records of 28 bytes, in 65,024 bytes and in 16,777,216 */
    NUMBER(EVTX_MOST_RECORDS_OF_CHUNK, 2322),
    NUMBER(EVTX_MOST_RECORDS_OF_BYTES, 599186),
    NUMBER(EVTX_STORE_SIZE, 65536),
    NUMBER(EVTX_MOST_PACKET, 65536),
    NUMBER(EVTX_MOST_STREAM, 1099511627776),
    /* two for each of 4,680 records of 28 bytes, in 65,520 and 65,536 bytes */
    NUMBER(EVTX_MOST_NUMBERS_OF_FEED, 9360),
    NUMBER(EVTX_ENTRY_SIZE, 11),
    /* 2,322 entries */
    NUMBER(EVTX_MOST_BYTES_OF_INDEX, 25542),
    NUMBER(EVTX_EVT_HEADER_SIZE, 48),
    NUMBER(EVTX_MOST_EVT, 16777216),
};

static const char *const versions[] = { "EVTX_VERSION", "EVTX_VERSION_MAJOR", "EVTX_VERSION_MINOR", "EVTX_VERSION_PATCH" };

static void named(void)
{
    char spelled[64];
    for (size_t i = 0; i < COUNT(numbers); i++)
        equal("names", numbers[i].name, "value", numbers[i].is, numbers[i].due);
    snprintf(spelled, sizeof spelled, "%d.%d.%d", EVTX_VERSION_MAJOR, EVTX_VERSION_MINOR, EVTX_VERSION_PATCH);
    equal("names", "EVTX_VERSION", "it equals " VERSION_DUE, strcmp(EVTX_VERSION, VERSION_DUE) == 0, 1);
    equal("names", "the version's three numbers", "they spell " VERSION_DUE, strcmp(spelled, VERSION_DUE) == 0, 1);
}

/* What is lent. Each is the front of a range of addresses as long as the longest length that is tried; behind the front nothing may be
 * touched, so that a call that goes by more than it needs ends the program. */

#define CHUNK 65536u
#define LONGEST_BIT 33
#define KEPT 0xf9

/* In the chunk: a record with a long text at 512, one with values in every byte of its fields, and the smallest there is. */
#define FIRST 512u
#define SECOND 0x3456u
#define THIRD 0xbcdeu
#define STRETCH_LENGTH 0x789au
#define RECORD_NUMBER UINT64_C(0x1122334455667788)
#define WRITTEN_TIME UINT64_C(0x99aabbccddeeff01)

/* <P>, three times a binary value of 12,345 bytes as two digits each, and </P>: 3 + 3 * 24,690 + 4. It takes 17 bits. */
#define VALUE 12345u
#define TEXT 74077u

/* In the loose bytes: two of the smallest records. The second's offset takes 21 bits, and the bytes end with it. */
#define NEAR 3u
#define FAR 0x123456u
#define BYTES (FAR + 28)

/* How many bytes of a stream came before; it takes 40 bits. What is fed is the chunk from its second record on, or held is that record. */
#define TAKEN UINT64_C(0x89abcdef01)
#define PACKET (CHUNK - SECOND)
#define HELD (24 + STRETCH_LENGTH + 4)

/* What is left of the second record's number where an index is to have it: 48 bits. */
#define KEPT_NUMBER UINT64_C(0x334455667788)
#define ENTRY 11u

/* The index of the chunk, in which the second record has that number. The first record has 116 bytes beside its value, 8 more than document
 * 01's example, and its text is longer than 65,536 bytes: 13. The others have no binary XML: 8. */
static const uint8_t three[] = {
    0x02, 0x00, 0x30, 0xad, 0, 0, 0, 0, 0, 1, 0xd0,
    0x34, 0x56, 0x78, 0xb6, 0x33, 0x44, 0x55, 0x66, 0x77, 0x88, 0x80,
    0xbc, 0xde, 0x00, 0x1c, 0, 0, 0, 0, 0, 2, 0x80,
};

/* `numbered` is the chunk with that number, and `entries` begins with its index. */
static uint8_t *chunk, *bytes, *out, *store, *numbered, *entries;
static uint32_t *offsets;
static uint64_t *list;

static void *reserve(size_t front, size_t whole)
{
    void *at = mmap(NULL, whole, PROT_NONE, MAP_PRIVATE | MAP_ANONYMOUS | MAP_NORESERVE, -1, 0);
    if (at == MAP_FAILED || mprotect(at, front, PROT_READ | PROT_WRITE) != 0) {
        perror("layout: no range of addresses");
        exit(1);
    }
    return at;
}

static void put(uint8_t *at, uint64_t number, size_t width)
{
    for (size_t i = 0; i < width; i++)
        at[i] = (uint8_t)(number >> 8 * i);
}

static void put_record(uint8_t *at, uint32_t size, uint64_t number, uint64_t time)
{
    put(at, 0x2a2a, 4);
    put(at + 4, size, 4);
    put(at + 8, number, 8);
    put(at + 16, time, 8);
    put(at + size - 4, size, 4);
}

/* Document 01's first example, but with three substitutions and a longer value: 42 bytes of data and 30 of the element for 34 and 22. */
static void put_text_record(void)
{
    static const uint8_t xml[] = {
        0x0f, 1, 1, 0, 0x0c, 1, 0, 0, 0, 0, 0x26, 2, 0, 0,
        0, 0, 0, 0, 0, 0, 0, 0, 0, 0, 0, 0, 0, 0, 0, 0, 0, 0, 0, 0, 42, 0, 0, 0,
        0x0f, 1, 1, 0, 1, 0xff, 0xff, 30, 0, 0, 0, 0x4d, 2, 0, 0, 0, 0, 0, 0, 0, 0, 1, 0, 'P', 0, 0, 0, 2,
        0x0d, 0, 0, 0x0e, 0x0d, 0, 0, 0x0e, 0x0d, 0, 0, 0x0e, 4, 0,
        1, 0, 0, 0, VALUE & 0xff, VALUE >> 8, 0x0e, 0,
    };
    memcpy(chunk + FIRST + 24, xml, sizeof xml);
    memset(chunk + FIRST + 24 + sizeof xml, 0xab, VALUE);
    put_record(chunk + FIRST, 24 + sizeof xml + VALUE + 4, 1, 0);
}

static void lend(void)
{
    chunk = reserve(CHUNK, CHUNK + BIT(LONGEST_BIT));
    put_text_record();
    put_record(chunk + SECOND, 24 + STRETCH_LENGTH + 4, RECORD_NUMBER, WRITTEN_TIME);
    put_record(chunk + THIRD, 28, 2, 0);
    bytes = reserve(BYTES, BYTES + BIT(LONGEST_BIT));
    put_record(bytes + NEAR, 28, 3, 0);
    put_record(bytes + FAR, 28, 4, 0);
    out = reserve(2 * CHUNK, BIT(LONGEST_BIT));
    offsets = reserve(CHUNK, sizeof(uint32_t) * BIT(LONGEST_BIT));
    store = reserve(CHUNK, CHUNK + BIT(LONGEST_BIT));
    list = reserve(CHUNK, sizeof(uint64_t) * BIT(LONGEST_BIT));
    numbered = reserve(CHUNK, CHUNK + BIT(LONGEST_BIT));
    memcpy(numbered, chunk, CHUNK);
    put(numbered + SECOND + 8, KEPT_NUMBER, 8);
    entries = reserve(CHUNK, CHUNK + BIT(LONGEST_BIT));
    memcpy(entries, three, sizeof three);
}

/* What a call answers, beside what is due. */

static void answer(const char *call, const char *what, evtx_answer is, uint32_t number, uint64_t length)
{
    equal(call, what, "number", is.number, number);
    equal(call, what, "length", is.length, length);
}

static void found(const char *call, const char *what, evtx_found is, uint32_t number, uint64_t offset)
{
    equal(call, what, "number", is.number, number);
    equal(call, what, "offset", is.offset, offset);
}

static void stretch(const char *call, const char *what, evtx_stretch is, uint32_t number, uint64_t offset, uint64_t length)
{
    equal(call, what, "number", is.number, number);
    equal(call, what, "offset", is.offset, offset);
    equal(call, what, "length", is.length, length);
}

static void record(const char *call, const char *what, evtx_fields is, uint32_t number, uint64_t record_number, uint64_t time)
{
    equal(call, what, "number", is.number, number);
    equal(call, what, "record_number", is.record_number, record_number);
    equal(call, what, "written_time", is.written_time, time);
}

static void text(const char *call, const char *what, evtx_text is, uint32_t number, uint64_t length)
{
    equal(call, what, "number", is.number, number);
    equal(call, what, "length", is.length, length);
}

static void entry(const char *call, const char *what, evtx_entry is, const uint64_t due[7])
{
    equal(call, what, "number", is.number, due[0]);
    equal(call, what, "position", is.position, due[1]);
    equal(call, what, "chunk_number", is.chunk_number, due[2]);
    equal(call, what, "offset", is.offset, due[3]);
    equal(call, what, "size", is.size, due[4]);
    equal(call, what, "record_number", is.record_number, due[5]);
    equal(call, what, "refusal", is.refusal, due[6]);
}

static void no_entry(const char *call, const char *what, evtx_entry is, uint32_t number)
{
    entry(call, what, is, (const uint64_t[]){ number, 0, 0, 0, 0, 0, 0 });
}

/* A struct of more than 16 bytes is written to where a first parameter points that C does not show (System V ABI). So it can be seen which
 * bytes the library writes: all of each field, and none outside the struct. Nothing is said of the bytes between two fields, or behind the
 * last. `due` has the struct's fields in their order. */
typedef void *to_memory(void *answer, const uint8_t *lent, size_t length, uint64_t asked);

enum { BEFORE = 8, IMAGE = 80 };

static void image(const char *call, const char *type, const uint8_t *is, const uint64_t *due)
{
    uint8_t laid[IMAGE], said[IMAGE];
    memset(laid, KEPT, IMAGE);
    memset(said, 1, IMAGE);
    for (size_t i = 0; i < COUNT(structs); i++)
        if (strcmp(structs[i].name, type) == 0)
            memset(said + BEFORE, 0, structs[i].due);
    for (size_t i = 0; i < COUNT(fields); i++)
        if (strcmp(fields[i].type, type) == 0) {
            put(laid + BEFORE + fields[i].offset_due, *due++, fields[i].width_due);
            memset(said + BEFORE + fields[i].offset_due, 1, fields[i].width_due);
        }
    for (int i = 0; i < IMAGE; i++) {
        char where[32];
        snprintf(where, sizeof where, "byte %d of the struct", i - BEFORE);
        if (said[i])
            equal(call, "in memory", where, is[i], laid[i]);
    }
}

static void image_of_record(const char *call, const char *type, to_memory *made, uint64_t first, uint64_t second)
{
    uint8_t is[IMAGE];
    memset(is, KEPT, IMAGE);
    made(is + BEFORE, chunk, CHUNK, SECOND);
    image(call, type, is, (const uint64_t[]){ 0, first, second });
}

/* Of the second entry, by its position or its number. */
static void image_of_entry(const char *call, to_memory *made, uint64_t asked)
{
    uint8_t is[IMAGE];
    memset(is, KEPT, IMAGE);
    made(is + BEFORE, entries, sizeof three, asked);
    image(call, "evtx_entry", is, (const uint64_t[]){ 0, 1, 0, SECOND, HELD, KEPT_NUMBER, 8 });
}

/* The calls. The pointer at the front of each function has the types of the parameters by hand; the compiler refuses the header if it has
 * others. */

static void check_file_header(const char *name)
{
    evtx_answer (*call)(const uint8_t *, size_t) = evtx_check_file_header;
    uint8_t *header = reserve(4096, 4096 + BIT(LONGEST_BIT));
    answer(name, "zeros", call(header, 4096), 2, 0);
    memcpy(header, "ElfFile", 8);
    answer(name, "the magic", call(header, 4096), 3, 0);
    put(header + 0x24, 0x00030001, 4);
    answer(name, "magic and version", call(header, 4096), 4, 0);
    for (unsigned b = 0; b <= LONGEST_BIT; b++)
        answer(name, "a length with one bit more", call(header, 4096 + BIT(b)), 1, 0);
}

static void check_chunk(const char *name)
{
    evtx_answer (*call)(const uint8_t *, size_t) = evtx_check_chunk;
    uint8_t *empty = reserve(CHUNK, CHUNK + BIT(LONGEST_BIT));
    answer(name, "zeros", call(empty, CHUNK), 2, 0);
    memcpy(empty, "ElfChnk", 8);
    answer(name, "the magic", call(empty, CHUNK), 4, 0);
    for (unsigned b = 0; b <= LONGEST_BIT; b++)
        answer(name, "a length with one bit more", call(empty, CHUNK + BIT(b)), 1, 0);
}

static void free_space_offset(const char *name)
{
    evtx_found (*call)(const uint8_t *, size_t) = evtx_free_space_offset;
    uint8_t *empty = reserve(CHUNK, CHUNK + BIT(LONGEST_BIT));
    found(name, "zeros", call(empty, CHUNK), 0, 0);
    put(empty + 48, 0xa1b2c3d4, 4);
    found(name, "a value in every byte", call(empty, CHUNK), 0, 0xa1b2c3d4);
    for (unsigned b = 0; b <= LONGEST_BIT; b++)
        found(name, "a length with one bit more", call(empty, CHUNK + BIT(b)), 1, 0);
}

/* A search with lists of any length: as many entries as there are records, one less, and then each bit of the room. The list is looked at
 * as bytes, four for each entry. */
static void search(const char *name, evtx_answer (*call)(const uint8_t *, size_t, uint32_t *, size_t), const uint8_t *in, size_t length,
                   const uint32_t *due, size_t count)
{
    uint8_t laid[32];
    memset(laid, KEPT, sizeof laid);
    for (size_t i = 0; i < count; i++)
        put(laid + 4 * i, due[i], 4);
    memset(offsets, KEPT, sizeof laid);
    answer(name, "one entry too few", call(in, length, offsets, count - 1), 13, 0);
    equal(name, "one entry too few", "first entry", offsets[0], 0xf9f9f9f9);
    answer(name, "just enough entries", call(in, length, offsets, count), 0, count);
    equal(name, "just enough entries", "the list equals that due", memcmp(offsets, laid, sizeof laid) == 0, 1);
    for (unsigned b = 2; b <= LONGEST_BIT; b++) {
        memset(offsets, KEPT, sizeof laid);
        answer(name, "a room of one bit", call(in, length, offsets, BIT(b)), 0, count);
        equal(name, "a room of one bit", "the list equals that due", memcmp(offsets, laid, sizeof laid) == 0, 1);
    }
}

static void search_chunk(const char *name)
{
    evtx_answer (*call)(const uint8_t *, size_t, uint32_t *, size_t) = evtx_search_chunk;
    static const uint32_t due[] = { FIRST, SECOND, THIRD };
    search(name, call, chunk, CHUNK, due, COUNT(due));
    for (unsigned b = 0; b <= LONGEST_BIT; b++)
        answer(name, "a length with one bit more", call(chunk, CHUNK + BIT(b), offsets, 8), 1, 0);
}

static void search_bytes(const char *name)
{
    evtx_answer (*call)(const uint8_t *, size_t, uint32_t *, size_t) = evtx_search_bytes;
    static const uint32_t due[] = { NEAR, FAR };
    search(name, call, bytes, BYTES, due, COUNT(due));
    answer(name, "the last byte is missing", call(bytes, BYTES - 1, offsets, 8), 0, 1);
    for (unsigned b = 24; b <= LONGEST_BIT; b++)
        answer(name, "a length with one bit more", call(bytes, BYTES + BIT(b), offsets, 8), 1, 0);
}

/* A store that holds the second record, or no bytes, and a list without an answer. */
static void put_stream(uint64_t taken, size_t held)
{
    memset(store, 0, CHUNK);
    put(store, taken, 8);
    put(store + 10, held, 2);
    memcpy(store + 16, chunk + SECOND, held);
    memset(list, KEPT, 64);
}

/* The list is looked at as bytes, eight for each number, and so is what the store says of the stream. */
static void streamed(const char *name, const char *what, const uint64_t *due, size_t count, uint64_t taken, uint8_t closed)
{
    uint8_t laid[64];
    memset(laid, KEPT, sizeof laid);
    for (size_t i = 0; i < count; i++)
        put(laid + 8 * i, due[i], 8);
    equal(name, what, "the list equals that due", memcmp(list, laid, sizeof laid) == 0, 1);
    put(laid, taken, 8);
    equal(name, what, "the store has the total due", memcmp(store, laid, 8) == 0, 1);
    equal(name, what, "the stream is closed", store[12] != 0, closed);
}

static void feed(const char *name)
{
    evtx_answer (*call)(const uint8_t *, size_t, uint8_t *, size_t, uint64_t *, size_t) = evtx_feed;
    static const uint64_t due[] = { TAKEN, HELD, TAKEN + THIRD - SECOND, 28 };
    put_stream(TAKEN, 0);
    answer(name, "one number too few", call(chunk + SECOND, PACKET, store, CHUNK, list, 3), 13, 0);
    streamed(name, "one number too few", due, 0, TAKEN, 0);
    answer(name, "just enough numbers", call(chunk + SECOND, PACKET, store, CHUNK, list, 4), 0, 2);
    streamed(name, "just enough numbers", due, COUNT(due), TAKEN + PACKET, 0);
    for (unsigned b = 2; b <= LONGEST_BIT; b++) {
        put_stream(TAKEN, 0);
        answer(name, "a room of one bit", call(chunk + SECOND, PACKET, store, CHUNK, list, BIT(b)), 0, 2);
        streamed(name, "a room of one bit", due, COUNT(due), TAKEN + PACKET, 0);
    }
    put_stream(TAKEN, 0);
    for (unsigned b = 0; b <= LONGEST_BIT; b++) {
        answer(name, "a packet with one bit more", call(chunk, CHUNK + BIT(b), store, CHUNK, list, 8), 1, 0);
        answer(name, "a store with one bit more", call(chunk, CHUNK, store, CHUNK + BIT(b), list, 8), 1, 0);
    }
    for (unsigned b = 0; b < 64; b++) {
        put_stream(BIT(b), 0);
        answer(name, "a total of one bit", call(chunk + SECOND, PACKET, store, CHUNK, list, 8), b >= 40, b < 40 ? 2 : 0);
    }
    store[12] = 0x80;
    put(store, TAKEN, 8);
    answer(name, "after closing", call(chunk, CHUNK, store, CHUNK, list, 8), 14, 0);
}

static void close_stream(const char *name)
{
    evtx_answer (*call)(uint8_t *, size_t, uint64_t *, size_t) = evtx_close;
    static const uint64_t due[] = { TAKEN - HELD, HELD };
    put_stream(TAKEN, HELD);
    answer(name, "one number too few", call(store, CHUNK, list, 1), 13, 0);
    streamed(name, "one number too few", due, 0, TAKEN, 0);
    answer(name, "just enough numbers", call(store, CHUNK, list, 2), 0, 1);
    streamed(name, "just enough numbers", due, COUNT(due), TAKEN, 1);
    answer(name, "after closing", call(store, CHUNK, list, 2), 14, 0);
    for (unsigned b = 1; b <= LONGEST_BIT; b++) {
        put_stream(TAKEN, HELD);
        answer(name, "a room of one bit", call(store, CHUNK, list, BIT(b)), 0, 1);
        streamed(name, "a room of one bit", due, COUNT(due), TAKEN, 1);
    }
    put_stream(TAKEN, HELD);
    for (unsigned b = 0; b <= LONGEST_BIT; b++)
        answer(name, "a store with one bit more", call(store, CHUNK + BIT(b), list, 8), 1, 0);
    for (unsigned b = 0; b < 64; b++) {
        put_stream(BIT(b), HELD);
        answer(name, "a total of one bit", call(store, CHUNK, list, 8), b > 40, b <= 40);
    }
}

static void next_in_chunk(const char *name)
{
    evtx_found (*call)(const uint8_t *, size_t, uint64_t) = evtx_next_in_chunk;
    found(name, "from 0", call(chunk, CHUNK, 0), 0, FIRST);
    found(name, "behind the first", call(chunk, CHUNK, FIRST + 1), 0, SECOND);
    found(name, "behind the second", call(chunk, CHUNK, SECOND + 1), 0, THIRD);
    found(name, "behind the last", call(chunk, CHUNK, THIRD + 1), 7, 0);
    for (unsigned b = 16; b < 64; b++) {
        found(name, "from one bit", call(chunk, CHUNK, BIT(b)), 7, 0);
        found(name, "from a record with one bit more", call(chunk, CHUNK, FIRST + BIT(b)), 7, 0);
    }
    for (unsigned b = 0; b <= LONGEST_BIT; b++)
        found(name, "a length with one bit more", call(chunk, CHUNK + BIT(b), 0), 1, 0);
}

static void next_in_bytes(const char *name)
{
    evtx_found (*call)(const uint8_t *, size_t, uint64_t) = evtx_next_in_bytes;
    found(name, "from 0", call(bytes, BYTES, 0), 0, NEAR);
    found(name, "behind the first", call(bytes, BYTES, NEAR + 1), 0, FAR);
    found(name, "behind the last", call(bytes, BYTES, FAR + 1), 7, 0);
    found(name, "the last byte is missing", call(bytes, BYTES - 1, NEAR + 1), 7, 0);
    for (unsigned b = 21; b < 64; b++) {
        found(name, "from one bit", call(bytes, BYTES, BIT(b)), 7, 0);
        found(name, "from a record with one bit more", call(bytes, BYTES, NEAR + BIT(b)), 7, 0);
    }
    for (unsigned b = 24; b <= LONGEST_BIT; b++)
        found(name, "a length with one bit more", call(bytes, BYTES + BIT(b), 0), 1, 0);
}

static void size_in_chunk(const char *name)
{
    evtx_answer (*call)(const uint8_t *, size_t, uint64_t) = evtx_size_in_chunk;
    answer(name, "a record", call(chunk, CHUNK, SECOND), 0, 24 + STRETCH_LENGTH + 4);
    answer(name, "the smallest record", call(chunk, CHUNK, THIRD), 0, 28);
    answer(name, "no record", call(chunk, CHUNK, SECOND + 1), 7, 0);
    for (unsigned b = 16; b < 64; b++)
        answer(name, "an offset with one bit more", call(chunk, CHUNK, SECOND + BIT(b)), 7, 0);
    for (unsigned b = 0; b <= LONGEST_BIT; b++)
        answer(name, "a length with one bit more", call(chunk, CHUNK + BIT(b), SECOND), 1, 0);
}

static void size_in_bytes(const char *name)
{
    evtx_answer (*call)(const uint8_t *, size_t, uint64_t) = evtx_size_in_bytes;
    answer(name, "the first", call(bytes, BYTES, NEAR), 0, 28);
    answer(name, "the last", call(bytes, BYTES, FAR), 0, 28);
    answer(name, "the last byte is missing", call(bytes, BYTES - 1, FAR), 7, 0);
    answer(name, "no record", call(bytes, BYTES, NEAR + 1), 7, 0);
    answer(name, "a size with values in both bytes", call(chunk, CHUNK, SECOND), 0, 24 + STRETCH_LENGTH + 4);
    for (unsigned b = 21; b < 64; b++)
        answer(name, "an offset with one bit more", call(bytes, BYTES, NEAR + BIT(b)), 7, 0);
    for (unsigned b = 24; b <= LONGEST_BIT; b++)
        answer(name, "a length with one bit more", call(bytes, BYTES + BIT(b), NEAR), 1, 0);
}

static void record_stretch(const char *name)
{
    evtx_stretch (*call)(const uint8_t *, size_t, uint64_t) = evtx_record_stretch;
    stretch(name, "a record", call(chunk, CHUNK, SECOND), 0, SECOND + 24, STRETCH_LENGTH);
    stretch(name, "the smallest record", call(chunk, CHUNK, THIRD), 0, THIRD + 24, 0);
    stretch(name, "no record", call(chunk, CHUNK, SECOND + 1), 7, 0, 0);
    image_of_record(name, "evtx_stretch", (to_memory *)(void (*)(void))call, SECOND + 24, STRETCH_LENGTH);
    for (unsigned b = 16; b < 64; b++)
        stretch(name, "an offset with one bit more", call(chunk, CHUNK, SECOND + BIT(b)), 7, 0, 0);
    for (unsigned b = 0; b <= LONGEST_BIT; b++)
        stretch(name, "a length with one bit more", call(chunk, CHUNK + BIT(b), SECOND), 1, 0, 0);
}

static void record_fields(const char *name)
{
    evtx_fields (*call)(const uint8_t *, size_t, uint64_t) = evtx_record_fields;
    record(name, "a record", call(chunk, CHUNK, SECOND), 0, RECORD_NUMBER, WRITTEN_TIME);
    record(name, "no record", call(chunk, CHUNK, SECOND + 1), 7, 0, 0);
    image_of_record(name, "evtx_fields", (to_memory *)(void (*)(void))call, RECORD_NUMBER, WRITTEN_TIME);
    for (unsigned b = 16; b < 64; b++)
        record(name, "an offset with one bit more", call(chunk, CHUNK, SECOND + BIT(b)), 7, 0, 0);
    for (unsigned b = 0; b <= LONGEST_BIT; b++)
        record(name, "a length with one bit more", call(chunk, CHUNK + BIT(b), SECOND), 1, 0, 0);
}

static void record_text(const char *name)
{
    evtx_text (*call)(const uint8_t *, size_t, uint64_t, uint8_t *, size_t) = evtx_record_text;
    static uint8_t due[TEXT + 1];
    for (size_t i = 0; i < sizeof due; i++)
        due[i] = "BA"[i % 2];
    memcpy(due, "<P>", 3);
    memcpy(due + TEXT - 4, "</P>", 4);
    due[TEXT] = KEPT;
    memset(out, KEPT, sizeof due);
    text(name, "one byte too few", call(chunk, CHUNK, FIRST, out, TEXT - 1), 13, 0);
    equal(name, "one byte too few", "first byte", out[0], KEPT);
    text(name, "just enough room", call(chunk, CHUNK, FIRST, out, TEXT), 0, TEXT);
    equal(name, "just enough room", "the text equals that due", memcmp(out, due, sizeof due) == 0, 1);
    for (unsigned b = 17; b <= LONGEST_BIT; b++) {
        memset(out, KEPT, sizeof due);
        text(name, "a room of one bit", call(chunk, CHUNK, FIRST, out, BIT(b)), 0, TEXT);
        equal(name, "a room of one bit", "the text equals that due", memcmp(out, due, sizeof due) == 0, 1);
    }
    text(name, "no binary XML", call(chunk, CHUNK, THIRD, out, 8), 8, 0);
    for (unsigned b = 16; b < 64; b++)
        text(name, "an offset with one bit more", call(chunk, CHUNK, FIRST + BIT(b), out, TEXT), 7, 0);
    for (unsigned b = 0; b <= LONGEST_BIT; b++)
        text(name, "a length with one bit more", call(chunk, CHUNK + BIT(b), FIRST, out, TEXT), 1, 0);
}

static void text_length(const char *name)
{
    evtx_text (*call)(const uint8_t *, size_t, uint64_t) = evtx_text_length;
    text(name, "a text", call(chunk, CHUNK, FIRST), 0, TEXT);
    text(name, "no record", call(chunk, CHUNK, FIRST + 1), 7, 0);
    text(name, "no binary XML", call(chunk, CHUNK, THIRD), 8, 0);
    for (unsigned b = 16; b < 64; b++)
        text(name, "an offset with one bit more", call(chunk, CHUNK, FIRST + BIT(b)), 7, 0);
    for (unsigned b = 0; b <= LONGEST_BIT; b++)
        text(name, "a length with one bit more", call(chunk, CHUNK + BIT(b), FIRST), 1, 0);
}

/* What stands in `out`, beside the front of the index that is due. */
static void written(const char *name, const char *what, size_t length)
{
    uint8_t due[sizeof three + ENTRY];
    memset(due, KEPT, sizeof due);
    memcpy(due, three, length);
    equal(name, what, "what is written equals that due", memcmp(out, due, sizeof due) == 0, 1);
    memset(out, KEPT, sizeof due);
}

static void index_build(const char *name)
{
    evtx_answer (*call)(const uint8_t *, size_t, uint8_t *, size_t) = evtx_index_build;
    memset(out, KEPT, sizeof three + ENTRY);
    answer(name, "one byte too few", call(numbered, CHUNK, out, sizeof three - 1), 13, 0);
    written(name, "one byte too few", 0);
    answer(name, "just enough room", call(numbered, CHUNK, out, sizeof three), 0, sizeof three);
    written(name, "just enough room", sizeof three);
    for (unsigned b = 6; b <= LONGEST_BIT; b++) {
        answer(name, "a room of one bit", call(numbered, CHUNK, out, BIT(b)), 0, sizeof three);
        written(name, "a room of one bit", sizeof three);
    }
    answer(name, "a number of 61 bits", call(chunk, CHUNK, out, CHUNK), 15, 0);
    written(name, "a number of 61 bits", 0);
    for (unsigned b = 0; b < 64; b++) {
        put(numbered + SECOND + 8, BIT(b), 8);
        answer(name, "a number of one bit", call(numbered, CHUNK, out, CHUNK), b < 48 ? 0 : 15, b < 48 ? sizeof three : 0);
        for (unsigned k = 0; k < 6; k++)
            equal(name, "a number of one bit", "its byte", out[ENTRY + 4 + k], b >= 48 ? KEPT : 5 - k == b / 8 ? BIT(b % 8) : 0);
        memset(out, KEPT, sizeof three);
    }
    put(numbered + SECOND + 8, KEPT_NUMBER, 8);
    for (unsigned b = 0; b <= LONGEST_BIT; b++)
        answer(name, "a length with one bit more", call(numbered, CHUNK + BIT(b), out, CHUNK), 1, 0);
}

/* No power of two is a multiple of 11. */
static void index_lengths(const char *name, evtx_entry (*call)(const uint8_t *, size_t, uint64_t), uint64_t asked)
{
    for (unsigned b = 0; b <= LONGEST_BIT; b++)
        no_entry(name, "a length with one bit more", call(entries, sizeof three + BIT(b), asked), 16);
    no_entry(name, "one byte too few", call(entries, sizeof three - 1, asked), 16);
}

static void index_entry(const char *name)
{
    evtx_entry (*call)(const uint8_t *, size_t, uint64_t) = evtx_index_entry;
    entry(name, "the first", call(entries, sizeof three, 0), (const uint64_t[]){ 0, 0, 0, FIRST, 0x30ad, 1, 13 });
    entry(name, "the second", call(entries, sizeof three, 1), (const uint64_t[]){ 0, 1, 0, SECOND, HELD, KEPT_NUMBER, 8 });
    entry(name, "the last", call(entries, sizeof three, 2), (const uint64_t[]){ 0, 2, 0, THIRD, 28, 2, 8 });
    no_entry(name, "behind the last", call(entries, sizeof three, 3), 7);
    no_entry(name, "an index without the last", call(entries, sizeof three - ENTRY, 2), 7);
    image_of_entry(name, (to_memory *)(void (*)(void))call, 1);
    for (unsigned b = 2; b < 64; b++) {
        no_entry(name, "a position of one bit", call(entries, sizeof three, BIT(b)), 7);
        no_entry(name, "a position with one bit more", call(entries, sizeof three, 1 + BIT(b)), 7);
    }
    index_lengths(name, call, 1);
}

static void index_find(const char *name)
{
    evtx_entry (*call)(const uint8_t *, size_t, uint64_t) = evtx_index_find;
    entry(name, "the first", call(entries, sizeof three, 1), (const uint64_t[]){ 0, 0, 0, FIRST, 0x30ad, 1, 13 });
    entry(name, "the second", call(entries, sizeof three, KEPT_NUMBER), (const uint64_t[]){ 0, 1, 0, SECOND, HELD, KEPT_NUMBER, 8 });
    entry(name, "the last", call(entries, sizeof three, 2), (const uint64_t[]){ 0, 2, 0, THIRD, 28, 2, 8 });
    no_entry(name, "none", call(entries, sizeof three, 3), 7);
    no_entry(name, "an index without the last", call(entries, sizeof three - ENTRY, 2), 7);
    image_of_entry(name, (to_memory *)(void (*)(void))call, KEPT_NUMBER);
    for (unsigned b = 0; b < 64; b++)
        no_entry(name, "a number with another bit", call(entries, sizeof three, KEPT_NUMBER ^ BIT(b)), 7);
    index_lengths(name, call, KEPT_NUMBER);
}

static void index_add(const char *name)
{
    evtx_answer (*call)(const uint8_t *, size_t, const uint8_t *, size_t, uint8_t *, size_t) = evtx_index_add;
    memset(out, KEPT, sizeof three + ENTRY);
    answer(name, "one byte too few", call(numbered, CHUNK, entries, ENTRY, out, 2 * ENTRY - 1), 13, 0);
    written(name, "one byte too few", 0);
    answer(name, "just enough room", call(numbered, CHUNK, entries, ENTRY, out, 2 * ENTRY), 0, 2 * ENTRY);
    written(name, "just enough room", 2 * ENTRY);
    for (unsigned b = 5; b <= LONGEST_BIT; b++) {
        answer(name, "a room of one bit", call(numbered, CHUNK, entries, ENTRY, out, BIT(b)), 0, 2 * ENTRY);
        written(name, "a room of one bit", 2 * ENTRY);
    }
    answer(name, "to no entries", call(numbered, CHUNK, entries, 0, out, CHUNK), 0, ENTRY);
    written(name, "to no entries", ENTRY);
    answer(name, "the last record", call(numbered, CHUNK, entries, 2 * ENTRY, out, CHUNK), 0, sizeof three);
    written(name, "the last record", sizeof three);
    answer(name, "no record left", call(numbered, CHUNK, entries, sizeof three, out, CHUNK), 7, 0);
    written(name, "no record left", 0);
    answer(name, "a number of 61 bits", call(chunk, CHUNK, entries, ENTRY, out, CHUNK), 15, 0);
    written(name, "a number of 61 bits", 0);
    answer(name, "that number is not added", call(chunk, CHUNK, entries, 2 * ENTRY, out, CHUNK), 0, sizeof three);
    written(name, "that number is not added", sizeof three);
    for (unsigned b = 0; b <= LONGEST_BIT; b++) {
        answer(name, "a length with one bit more", call(numbered, CHUNK + BIT(b), entries, ENTRY, out, CHUNK), 1, 0);
        answer(name, "an index with one bit more", call(numbered, CHUNK, entries, ENTRY + BIT(b), out, CHUNK), 16, 0);
    }
    written(name, "a length with one bit more", 0);
}

/* A clean EVT log: a record of 64 bytes at 48, which ends with the log, without strings. Behind it more zeros may count as of the log. Each of
 * its numbers has its highest bit set. */
enum { OLD_RECORD = 64, OLD_LOG = 48 + OLD_RECORD, OLD_TEXT = 44 };

static uint8_t old_log[8192];
static const char old_text[] = "2147483649 2147483650 2147483651 32772 32773";

static void lay_old_log(void)
{
    memset(old_log, 0, sizeof old_log);
    put(old_log, 48, 4);
    memcpy(old_log + 4, "LfLe", 4);
    put(old_log + 8, 1, 4);
    put(old_log + 12, 1, 4);
    put(old_log + 44, 48, 4);
    put(old_log + 48, OLD_RECORD, 4);
    memcpy(old_log + 52, "LfLe", 4);
    put(old_log + 56, 0x80000001, 4);
    put(old_log + 64, 0x80000002, 4);
    put(old_log + 68, 0x80000003, 4);
    put(old_log + 72, 0x8004, 2);
    put(old_log + 76, 0x8005, 2);
    put(old_log + OLD_LOG - 4, OLD_RECORD, 4);
}

/* What stands in `out`, beside what is due at its front. */
static void holds(const char *name, const char *what, const void *front, size_t length)
{
    uint8_t due[OLD_RECORD];
    memset(due, KEPT, sizeof due);
    memcpy(due, front, length);
    equal(name, what, "what is written equals that due", memcmp(out, due, sizeof due) == 0, 1);
    memset(out, KEPT, sizeof due);
}

static void evt_header(const char *name)
{
    evtx_answer (*call)(const uint8_t *, size_t, uint8_t *, size_t) = evtx_evt_header;
    lay_old_log();
    memset(out, KEPT, OLD_RECORD);
    answer(name, "one byte too few", call(old_log, OLD_LOG, out, 47), 13, 0);
    holds(name, "one byte too few", "", 0);
    for (unsigned b = 6; b <= LONGEST_BIT; b++) {
        answer(name, "a room of one bit", call(old_log, OLD_LOG, out, BIT(b)), 0, 48);
        holds(name, "a room of one bit", old_log, 48);
    }
    answer(name, "47 bytes", call(old_log, 47, out, 48), 1, 0);
    for (unsigned b = 24; b <= LONGEST_BIT; b++)
        answer(name, "a length with one bit more", call(old_log, OLD_LOG + BIT(b), out, 48), 1, 0);
    old_log[36] = 1;
    answer(name, "no trailer", call(old_log, OLD_LOG, out, 48), 17, 0);
    old_log[8] = 2;
    answer(name, "another header", call(old_log, OLD_LOG, out, 48), 2, 0);
    holds(name, "refused", "", 0);
}

static void evt_text(const char *name)
{
    evtx_text (*call)(const uint8_t *, size_t, uint64_t, uint8_t *, size_t) = evtx_evt_text;
    lay_old_log();
    memset(out, KEPT, OLD_RECORD);
    text(name, "one byte too few", call(old_log, OLD_LOG, 48, out, OLD_TEXT - 1), 13, 0);
    holds(name, "one byte too few", "", 0);
    text(name, "just enough room", call(old_log, OLD_LOG, 48, out, OLD_TEXT), 0, OLD_TEXT);
    holds(name, "just enough room", old_text, OLD_TEXT);
    for (unsigned b = 6; b <= LONGEST_BIT; b++) {
        text(name, "a room of one bit", call(old_log, OLD_LOG, 48, out, BIT(b)), 0, OLD_TEXT);
        holds(name, "a room of one bit", old_text, OLD_TEXT);
    }
    for (unsigned b = 0; b < 64; b++)
        text(name, "an offset with one bit more", call(old_log, OLD_LOG, 48 + BIT(b), out, 64), 18, 0);
    for (unsigned b = 24; b <= LONGEST_BIT; b++)
        text(name, "a length with one bit more", call(old_log, OLD_LOG + BIT(b), 48, out, 64), 1, 0);
    holds(name, "refused", "", 0);
}

static void seen(const char *call, const char *what, evtx_evt_seen is, const uint64_t due[5])
{
    equal(call, what, "number", is.number, due[0]);
    equal(call, what, "length", is.length, due[1]);
    equal(call, what, "record_number", is.record_number, due[2]);
    equal(call, what, "written_time", is.written_time, due[3]);
    equal(call, what, "next", is.next, due[4]);
}

static void evt_record(const char *name)
{
    evtx_evt_seen (*call)(const uint8_t *, size_t, uint64_t) = evtx_evt_record;
    const uint64_t ends[] = { 0, OLD_RECORD, 0x80000001, 0x80000002, 48 }, goes_on[] = { 0, OLD_RECORD, 0x80000001, 0x80000002, OLD_LOG };
    uint8_t is[IMAGE];
    lay_old_log();
    seen(name, "a record that ends with the log", call(old_log, OLD_LOG, 48), ends);
    for (unsigned b = 0; b < 13; b++)
        if (OLD_LOG + BIT(b) <= sizeof old_log)
            seen(name, "a length with one bit more", call(old_log, OLD_LOG + BIT(b), 48), goes_on);
    memset(is, KEPT, IMAGE);
    ((to_memory *)(void (*)(void))call)(is + BEFORE, old_log, OLD_LOG, 48);
    image(name, "evtx_evt_seen", is, ends);
    for (unsigned b = 0; b < 64; b++)
        seen(name, "an offset with one bit more", call(old_log, OLD_LOG, 48 + BIT(b)), (const uint64_t[]){ 18, 0, 0, 0, 0 });
    for (unsigned b = 24; b <= LONGEST_BIT; b++)
        seen(name, "a length with one bit more", call(old_log, OLD_LOG + BIT(b), 48), (const uint64_t[]){ 1, 0, 0, 0, 0 });
}

/* The header has this one whole. 19 is the first number that no call answers. */
static void message(const char *name)
{
    const char *(*call)(uint32_t) = evtx_message;
    for (uint32_t m = 0; m < 19; m++) {
        equal(name, "a number of an answer", "it has a text", call(m)[0] != '\0', 1);
        for (uint32_t n = m + 1; n <= 19; n++)
            equal(name, "two numbers", "their texts differ", strcmp(call(m), call(n)) != 0, 1);
    }
    for (unsigned b = 5; b < 32; b++)
        equal(name, "a number of one bit, above 18", "its text is that of 19", strcmp(call((uint32_t)BIT(b)), call(19)) == 0, 1);
    equal(name, "the largest number", "its text is that of 19", strcmp(call(UINT32_MAX), call(19)) == 0, 1);
    equal(name, "14", "its text is that due", strcmp(call(14), "a call after the closing one") == 0, 1);
    equal(name, "15", "its text is that due", strcmp(call(15), "record number of 2^48 or more, too large for an index") == 0, 1);
    equal(name, "16", "its text is that due", strcmp(call(16), "no index: length no multiple of 11, or zero bits not zero") == 0, 1);
    equal(name, "17", "its text is that due", strcmp(call(17), "a dirty EVT log without exactly one trailer") == 0, 1);
    equal(name, "18", "its text is that due", strcmp(call(18), "no record of an EVT log at the offset asked for") == 0, 1);
}

static const struct {
    const char *name;
    void (*tries)(const char *name);
} calls[] = {
    { "evtx_check_file_header", check_file_header },
    { "evtx_check_chunk", check_chunk },
    { "evtx_free_space_offset", free_space_offset },
    { "evtx_search_chunk", search_chunk },
    { "evtx_search_bytes", search_bytes },
    { "evtx_feed", feed },
    { "evtx_close", close_stream },
    { "evtx_next_in_chunk", next_in_chunk },
    { "evtx_next_in_bytes", next_in_bytes },
    { "evtx_size_in_chunk", size_in_chunk },
    { "evtx_size_in_bytes", size_in_bytes },
    { "evtx_record_stretch", record_stretch },
    { "evtx_record_fields", record_fields },
    { "evtx_record_text", record_text },
    { "evtx_text_length", text_length },
    { "evtx_index_build", index_build },
    { "evtx_index_entry", index_entry },
    { "evtx_index_find", index_find },
    { "evtx_index_add", index_add },
    { "evtx_evt_header", evt_header },
    { "evtx_evt_text", evt_text },
    { "evtx_evt_record", evt_record },
    { "evtx_message", message },
};

static int covered(void)
{
    for (size_t i = 0; i < COUNT(structs); i++)
        printf("struct %s\n", structs[i].name);
    for (size_t i = 0; i < COUNT(fields); i++)
        printf("field %s.%s\n", fields[i].type, fields[i].name);
    for (size_t i = 0; i < COUNT(calls); i++)
        printf("call %s\n", calls[i].name);
    for (size_t i = 0; i < COUNT(numbers); i++)
        printf("number %s\n", numbers[i].name);
    for (size_t i = 0; i < COUNT(versions); i++)
        printf("number %s\n", versions[i]);
    return 0;
}

int main(int count, char **arguments)
{
    if (count == 2 && strcmp(arguments[1], "--covered") == 0)
        return covered();
    /* So that a line stands even if a call ends the program. */
    setvbuf(stdout, NULL, _IOLBF, BUFSIZ);
    layout();
    named();
    lend();
    for (size_t i = 0; i < COUNT(calls); i++)
        calls[i].tries(calls[i].name);
    printf("layout of the C interface: %u checks, %u failed\n", checks, failed);
    return failed != 0;
}
