/* EVTX reader: the calls that read headers, chunks and records of Windows XML event logs, search what comes in packets, write the text of a
 * record, and keep an index of a chunk; and those that read the older EVT logs.
 *
 * Numbers. Every answer begins with one of these:
 *    0  done
 *    1  file header not 4,096 bytes; chunk or store not 65,536; bytes to search over 16,777,216; packet over 65,536; stream over 2^40; EVT log
 *       under 48 bytes or over 16,777,216
 *    2  magic wrong
 *    3  version not 3.1
 *    4  a fixed header field wrong
 *    5  header checksum wrong
 *    6  record data checksum wrong
 *    7  no whole record stands at, or none at or after, the offset asked for; no such entry of an index; no record left to add to it
 *    8  binary XML malformed
 *    9  pointer leaves the chunk
 *   10  substitution number not below the value count
 *   11  value type not supported there, or its size or content wrong
 *   12  over a depth or count limit
 *   13  output room too small
 *   14  a call after the closing one
 *   15  a record number of 2^48 or more, which an entry of an index has no room for
 *   16  no index: its length is no multiple of 11, or bits that have to be zero are not
 *   17  a dirty EVT log without exactly one trailer
 *   18  an offset of an EVT log below 48, or at no record
 * A refused call answers its number and zeros, and leaves all memory as it was. enum evtx_number has a name for each number, and
 * evtx_message a sentence.
 *
 * Memory. A call reads the bytes that it is lent and nothing else, and writes only to `offsets`, `out`, `list` or `store`. No call keeps a
 * pointer. The buffers of one call must not overlap. A pointer must not be null, also where its length is 0: then it may point to anything,
 * and nothing is read or written. An input may have any length and any content, and so may a store.
 *
 * Room. EVTX_MOST_RECORDS_OF_CHUNK entries are enough for evtx_search_chunk, and EVTX_MOST_RECORDS_OF_BYTES for evtx_search_bytes: with
 * them neither answers 13. EVTX_MOST_NUMBERS_OF_FEED numbers are enough for evtx_feed and evtx_close, EVTX_MOST_BYTES_OF_INDEX bytes for
 * evtx_index_build, and EVTX_ENTRY_SIZE bytes more than the index has for evtx_index_add. For a text no room is always enough: whoever is
 * answered 13 asks evtx_text_length.
 *
 * Offsets are counted from the first byte of the chunk, or of the bytes, that the call is lent; places from the first byte of the stream.
 *
 * Streams. evtx_feed searches bytes that come in packets, evtx_close ends the stream. What one call leaves for the next is in `store`, which
 * the caller keeps: EVTX_STORE_SIZE bytes, all zero before the first call, handed to each call as the last one left them. Each stream has a
 * store of its own. Its numbers are little-endian: how many bytes were taken stands in its bytes 0 to 7, where the bytes that are still open
 * begin, counted from byte 16, in 8 and 9, and how many they are in 10 and 11; they are the last of the stream, and where they would leave
 * the store they end with it. The stream is closed if byte 12 is not 0. Nothing is said of the other bytes. Any content is read in this way.
 *
 * Indexes. The index of a chunk has an entry of EVTX_ENTRY_SIZE bytes for each record that evtx_search_chunk lists, in the same order. The
 * fields of an entry are packed most significant bit first: the record's offset in 16 bits, its size in 16, its number in 48, the number that
 * evtx_record_text refuses its text with where there is room for 65,536 bytes (0 if it does not) in 4, and 4 zero bits. The caller keeps the
 * index. Any bytes whose length is a multiple of 11 and whose zero bits are zero are read as one, whatever chunk they came from, or none.
 *
 * EVT logs. A log is lent whole: 48 bytes of header, and behind them records of which one may go on at byte 48 after the file's last byte.
 * Where the header's dirty flag (bit 0 of byte 36) is set, its offsets are out of date and the log's one trailer has the true ones.
 * evtx_evt_header hands back the header as it would stand then. The other two calls look for the trailer too, which passes over the whole log:
 * whoever asks more than once writes the header that was handed back over the front of the log first. The answers stay the same, and each then
 * costs its record only. To walk a log, begin at the offset in bytes 16 to 19 of that header, go on at `next`, and end at the offset in bytes 20
 * to 23; behind the last record before the file's end there may be fill bytes, which are no record, and the next one then stands at 48.
 *
 * The rules in full, with every test in its order, every limit and the text of every type of value, are in docs/RULES.md of the sources. */
#ifndef EVTX_H
#define EVTX_H

#include <stddef.h>
#include <stdint.h>

#define EVTX_VERSION "0.6.0"
#define EVTX_VERSION_MAJOR 0
#define EVTX_VERSION_MINOR 6
#define EVTX_VERSION_PATCH 0

/* How many bytes a file header has, and a chunk. */
#define EVTX_FILE_HEADER_SIZE 4096
#define EVTX_CHUNK_SIZE 65536

/* How many loose bytes are searched at most. */
#define EVTX_MOST_BYTES 16777216

/* The most records that a search lists: of a chunk, and of EVTX_MOST_BYTES loose bytes. */
#define EVTX_MOST_RECORDS_OF_CHUNK 2322
#define EVTX_MOST_RECORDS_OF_BYTES 599186

/* How many bytes the store of a stream has, and at most a packet, and all packets of a stream together. */
#define EVTX_STORE_SIZE 65536
#define EVTX_MOST_PACKET 65536
#define EVTX_MOST_STREAM (UINT64_C(1) << 40)

/* The most numbers that evtx_feed or evtx_close writes: two for each record of 28 bytes, in 65,520 bytes of a store and a packet. */
#define EVTX_MOST_NUMBERS_OF_FEED 9360

/* How many bytes an entry of an index has, and the index of a chunk at most: EVTX_MOST_RECORDS_OF_CHUNK entries. */
#define EVTX_ENTRY_SIZE 11
#define EVTX_MOST_BYTES_OF_INDEX 25542

/* How many bytes the header of an EVT log has, and at most the log. */
#define EVTX_EVT_HEADER_SIZE 48
#define EVTX_MOST_EVT 16777216

/* With it the compiler warns where a pointer is a null that it can see. */
#if defined(__GNUC__)
#define EVTX_NONNULL __attribute__((nonnull))
#else
#define EVTX_NONNULL
#endif

#ifdef __cplusplus
extern "C" {
#endif

enum evtx_number {
    EVTX_DONE = 0,
    EVTX_WRONG_LENGTH,
    EVTX_WRONG_MAGIC,
    EVTX_WRONG_VERSION,
    EVTX_WRONG_FIELD,
    EVTX_WRONG_HEADER_CHECKSUM,
    EVTX_WRONG_DATA_CHECKSUM,
    EVTX_NO_RECORD,
    EVTX_MALFORMED,
    EVTX_LEAVES_CHUNK,
    EVTX_NO_SUCH_VALUE,
    EVTX_WRONG_VALUE,
    EVTX_OVER_LIMIT,
    EVTX_ROOM_TOO_SMALL = 13,
    EVTX_AFTER_CLOSING = 14,
    EVTX_NUMBER_TOO_LARGE = 15,
    EVTX_NOT_AN_INDEX = 16,
    EVTX_NO_TRAILER = 17,
    EVTX_NO_EVT_RECORD = 18
};

/* length is a count of what the call says; 0 in a refusal */
typedef struct {
    uint32_t number;
    uint64_t length;
} evtx_answer;

typedef struct {
    uint32_t number;
    uint64_t offset;
} evtx_found;

typedef struct {
    uint32_t number;
    uint64_t offset;
    uint64_t length;
} evtx_stretch;

typedef struct {
    uint32_t number;
    uint64_t record_number;
    uint64_t written_time;
} evtx_fields;

/* length is the count of bytes of the text; 0 in a refusal */
typedef struct {
    uint32_t number;
    uint64_t length;
} evtx_text;

/* position counts the entries of the index from 0; chunk_number is always 0; refusal is that of the record's text, 0 if it has one */
typedef struct {
    uint32_t number;
    uint64_t position;
    uint64_t chunk_number;
    uint64_t offset;
    uint64_t size;
    uint64_t record_number;
    uint32_t refusal;
} evtx_entry;

/* What a record of an EVT log shows of itself: its length in bytes, its number, its written time in seconds from 1970, and where it ends, with
 * byte 48 behind the last byte of the log */
typedef struct {
    uint32_t number;
    uint64_t length;
    uint64_t record_number;
    uint64_t written_time;
    uint64_t next;
} evtx_evt_seen;

/* Checks a file header. Answers 0, or 1 to 5 for the first test that fails: length, magic, version, fixed fields, checksum.
 * length is 0. */
evtx_answer evtx_check_file_header(const uint8_t *header, size_t header_len) EVTX_NONNULL;

/* Checks a chunk. Answers 0, or 1, 2, 4, 5 or 6 for the first test that fails: length, magic, fixed fields, header checksum, record
 * data checksum. length is 0. */
evtx_answer evtx_check_chunk(const uint8_t *chunk, size_t chunk_len) EVTX_NONNULL;

/* Where the free space of a chunk begins, as its header says: the number in the four bytes at 48. Answers 0 with that offset, whatever the
 * chunk holds, or 1. It means something where evtx_check_chunk answers 0: then it is 512 to 65,536, and evtx_list lists the records that
 * end there or before. */
evtx_found evtx_free_space_offset(const uint8_t *chunk, size_t chunk_len) EVTX_NONNULL;

/* Lists the offsets of the whole records of a chunk, from 512 on, in rising order. The chunk's header is not looked at.
 * room counts the entries of `offsets`; EVTX_MOST_RECORDS_OF_CHUNK (2,322) are always enough. Answers 0 with the count of records: their
 * offsets stand at the front of `offsets`, and the rest of it is as it was. Answers 1, or 13 if there are more records than entries:
 * `offsets` is as it was. */
evtx_answer evtx_search_chunk(const uint8_t *chunk, size_t chunk_len, uint32_t *offsets, size_t room) EVTX_NONNULL;

/* The same for loose bytes of any origin, up to 16,777,216 of them, from 0 on; EVTX_MOST_RECORDS_OF_BYTES (599,186) entries are always
 * enough. Answers 0, 1 or 13. */
evtx_answer evtx_search_bytes(const uint8_t *bytes, size_t bytes_len, uint32_t *offsets, size_t room) EVTX_NONNULL;

/* The same for a stream of loose bytes, with a call for each packet: it lists the records that no later bytes, however many, can undo, and
 * that no call before has listed. However the bytes are cut, the records of all calls, and then of evtx_close, are those of the search over
 * the joined bytes, which are up to 2^40 here. A packet has 0 to 65,536 bytes.
 * `list` gets two numbers for each record: its place in the stream and its size. list_len counts the numbers, of which an odd last one is not
 * used; EVTX_MOST_NUMBERS_OF_FEED (9,360) are always enough. Answers 0 with the count of records: their numbers stand at the front of `list`,
 * in rising order of places, and the rest of it is as it was. Answers 1 if the packet has over 65,536 bytes, the stream with it over 2^40, or
 * the store another length than 65,536; then 14 after evtx_close; then 13 if there are more records than `list` has room for. A refused
 * packet is not taken: `list` and `store` are as they were. After 13 the same packet can be fed again with a longer list. */
evtx_answer evtx_feed(const uint8_t *packet, size_t packet_len, uint8_t *store, size_t store_len, uint64_t *list,
                      size_t list_len) EVTX_NONNULL;

/* Ends the stream, and lists the rest of its records: those that bytes which did not come could have undone. It takes no bytes. Answers as
 * evtx_feed does: 0 with the count of records; 1 if the store has another length, or says that over 2^40 bytes were taken; 14 after
 * evtx_close; or 13, after which it can be called again with a longer list. For another stream the store is filled with zeros again. */
evtx_answer evtx_close(uint8_t *store, size_t store_len, uint64_t *list, size_t list_len) EVTX_NONNULL;

/* The lowest whole record of a chunk at or after `from`, listed by the search or not; from 512 on if `from` is below it. Answers 0 with
 * its offset, 1, or 7 if none stands there. */
evtx_found evtx_next_in_chunk(const uint8_t *chunk, size_t chunk_len, uint64_t from) EVTX_NONNULL;

/* The same in loose bytes, up to 16,777,216 of them. Answers 0, 1 or 7. */
evtx_found evtx_next_in_bytes(const uint8_t *bytes, size_t bytes_len, uint64_t from) EVTX_NONNULL;

/* The size of the whole record at `offset` of a chunk: the record is chunk + offset, length bytes. Answers 0; 1; or 7 if no whole record
 * stands at `offset`, or `offset` is below 512. */
evtx_answer evtx_size_in_chunk(const uint8_t *chunk, size_t chunk_len, uint64_t offset) EVTX_NONNULL;

/* The same in loose bytes, up to 16,777,216 of them, from 0 on. Answers 0; 1; or 7 if no whole record stands at `offset`. */
evtx_answer evtx_size_in_bytes(const uint8_t *bytes, size_t bytes_len, uint64_t offset) EVTX_NONNULL;

/* Where the binary XML of the record at `offset` lies in the chunk: it is chunk + offset, length bytes, of the answer. Answers 0; 1; or 7
 * if no whole record stands at `offset`, or `offset` is below 512. Nothing of the binary XML is tested. */
evtx_stretch evtx_record_stretch(const uint8_t *chunk, size_t chunk_len, uint64_t offset) EVTX_NONNULL;

/* The number and the written time (100 ns from 1601) of the record at `offset`. Answers 0, 1 or 7, as evtx_record_stretch does. */
evtx_fields evtx_record_fields(const uint8_t *chunk, size_t chunk_len, uint64_t offset) EVTX_NONNULL;

/* The text of the record at `offset`, as XML in UTF-8, without a zero at its end. Answers 0 with its length: it stands at the front of
 * `out`, and the rest of `out` is as it was. Answers 1; 7 if no whole record stands at `offset`, or `offset` is below 512; the number of
 * the first refusal, 8 to 12, in the order of reading; or 13 exactly if all else succeeds and the text is longer than `room`: `out` is as
 * it was. The chunk's header is not looked at. */
evtx_text evtx_record_text(const uint8_t *chunk, size_t chunk_len, uint64_t offset, uint8_t *out, size_t room) EVTX_NONNULL;

/* The length of the text of the record at `offset`, whatever room there is for it, so that a caller who was answered 13 can take as much.
 * Nothing is written. Answers as evtx_record_text does, but never 13: 0 with the length, which counts on to 2^63; 1; 7; or 8 to 12. A
 * record can be made whose text has gigabytes: look at the length before you take memory for it. */
evtx_text evtx_text_length(const uint8_t *chunk, size_t chunk_len, uint64_t offset) EVTX_NONNULL;

/* The index of a chunk, with an entry for each record that evtx_search_chunk lists. The chunk's header is not looked at.
 * EVTX_MOST_BYTES_OF_INDEX (25,542) bytes are always enough. Answers 0 with the index's length in bytes: it stands at the front of `out`, and
 * the rest of `out` is as it was. Answers 1; then 15 if any of the records has a number of 2^48 or more; then 13 if the index is longer than
 * `room`. A refused call leaves `out` as it was. */
evtx_answer evtx_index_build(const uint8_t *chunk, size_t chunk_len, uint8_t *out, size_t room) EVTX_NONNULL;

/* The entry at a position of an index, counted from 0. Answers 0 with what it says; 16 if the index is none, whichever of its entries is
 * asked for; or 7 if there is no entry at this position. It is read as it stands: nothing is said of a record that it may be of. */
evtx_entry evtx_index_entry(const uint8_t *index, size_t index_len, uint64_t position) EVTX_NONNULL;

/* The first entry of an index with this record number. Answers 0 with its position and what it says; 16, as evtx_index_entry does; or 7
 * exactly if no entry has this number. */
evtx_entry evtx_index_find(const uint8_t *index, size_t index_len, uint64_t record_number) EVTX_NONNULL;

/* The index with one entry more at its end: of the first record that evtx_search_chunk lists beyond the last entry's offset, or of the first
 * if the index is empty. Nothing else that the entries hold decides which record that is. From an empty index, n calls with one chunk give
 * the first n entries of what evtx_index_build writes, where that is not refused. EVTX_ENTRY_SIZE (11) bytes more than the index has are
 * always enough. Answers 0 with the new index's length: it stands at the front of `out`, and the rest of `out` is as it was. Answers 1; then
 * 16, as evtx_index_entry does; then 7 if no such record is left; then 15 if that record has a number of 2^48 or more; then 13 if the new
 * index is longer than `room`. A refused call leaves `out` as it was. */
evtx_answer evtx_index_add(const uint8_t *chunk, size_t chunk_len, const uint8_t *index, size_t index_len, uint8_t *out,
                           size_t room) EVTX_NONNULL;

/* The header of an EVT log: where the dirty flag is set, with the trailer's four numbers at 16 to 31, the flag cleared, and the rest as read;
 * else as read. EVTX_EVT_HEADER_SIZE (48) bytes of room are enough. Answers 0 with 48: the header stands at the front of `out`, and the rest of
 * `out` is as it was. Answers 1 for the log's length; then 2 if it has no EVT header; then 17; then 13. A refused call leaves `out` as it was. */
evtx_answer evtx_evt_header(const uint8_t *file, size_t file_len, uint8_t *out, size_t room) EVTX_NONNULL;

/* The text of the record at `offset` of an EVT log: number, written time, event id, type, category and strings, joined by single spaces. Answers
 * 0 with the length: the text stands at the front of `out`, and the rest of `out` is as it was. Answers 1, 2 or 17 as evtx_evt_header does; then
 * 18; then 13 exactly if the text is longer than `room`. A refused call leaves `out` as it was. */
evtx_text evtx_evt_text(const uint8_t *file, size_t file_len, uint64_t offset, uint8_t *out, size_t room) EVTX_NONNULL;

/* What the record at `offset` of an EVT log shows of itself. Answers 0 with it; or 1, 2, 17 or 18 as evtx_evt_text does. */
evtx_evt_seen evtx_evt_record(const uint8_t *file, size_t file_len, uint64_t offset) EVTX_NONNULL;

/* What a number means, for people to read. It answers for any number. */
static inline const char *evtx_message(uint32_t number)
{
    static const char *const messages[] = {
        "done",
        ("file header not 4,096 bytes, chunk or store not 65,536, bytes to search over 16,777,216, packet over 65,536, stream over 2^40, or "
         "EVT log under 48 bytes or over 16,777,216"),
        "magic wrong",
        "version not 3.1",
        "a fixed header field wrong",
        "header checksum wrong",
        "record data checksum wrong",
        "no whole record at, or none at or after, the offset asked for, no such entry of an index, or no record left to add to it",
        "binary XML malformed",
        "pointer leaves the chunk",
        "substitution number not below the value count",
        "value type not supported there, or its size or content wrong",
        "over a depth or count limit",
        "output room too small",
        "a call after the closing one",
        "record number of 2^48 or more, too large for an index",
        "no index: length no multiple of 11, or zero bits not zero",
        "a dirty EVT log without exactly one trailer",
        "no record of an EVT log at the offset asked for",
    };
    return number < sizeof messages / sizeof *messages ? messages[number] : "no number of this library";
}

#ifdef __cplusplus
}
#endif

/* The library is compiled for these widths. C99 has no word to say so. */
#if defined(__cplusplus) && __cplusplus >= 201103L
#define EVTX_HOLDS(test) static_assert(test, #test)
#elif !defined(__cplusplus) && defined(__STDC_VERSION__) && __STDC_VERSION__ >= 201112L
#define EVTX_HOLDS(test) _Static_assert(test, #test)
#endif
#ifdef EVTX_HOLDS
EVTX_HOLDS(sizeof(void *) == 8 && sizeof(size_t) == 8);
EVTX_HOLDS(sizeof(evtx_answer) == 16 && offsetof(evtx_answer, number) == 0 && offsetof(evtx_answer, length) == 8);
EVTX_HOLDS(sizeof(evtx_found) == 16 && offsetof(evtx_found, number) == 0 && offsetof(evtx_found, offset) == 8);
EVTX_HOLDS(sizeof(evtx_stretch) == 24 && offsetof(evtx_stretch, number) == 0);
EVTX_HOLDS(offsetof(evtx_stretch, offset) == 8 && offsetof(evtx_stretch, length) == 16);
EVTX_HOLDS(sizeof(evtx_fields) == 24 && offsetof(evtx_fields, number) == 0);
EVTX_HOLDS(offsetof(evtx_fields, record_number) == 8 && offsetof(evtx_fields, written_time) == 16);
EVTX_HOLDS(sizeof(evtx_text) == 16 && offsetof(evtx_text, number) == 0 && offsetof(evtx_text, length) == 8);
EVTX_HOLDS(sizeof(evtx_entry) == 56 && offsetof(evtx_entry, number) == 0 && offsetof(evtx_entry, position) == 8);
EVTX_HOLDS(offsetof(evtx_entry, chunk_number) == 16 && offsetof(evtx_entry, offset) == 24 && offsetof(evtx_entry, size) == 32);
EVTX_HOLDS(offsetof(evtx_entry, record_number) == 40 && offsetof(evtx_entry, refusal) == 48);
EVTX_HOLDS(sizeof(evtx_evt_seen) == 40 && offsetof(evtx_evt_seen, number) == 0 && offsetof(evtx_evt_seen, length) == 8);
EVTX_HOLDS(offsetof(evtx_evt_seen, record_number) == 16 && offsetof(evtx_evt_seen, written_time) == 24 && offsetof(evtx_evt_seen, next) == 32);
#undef EVTX_HOLDS
#endif
#undef EVTX_NONNULL

#endif
