/* How long 16 MiB of several kinds take in packets of 1,500 bytes, beside the search of the joined bytes; and 1 MiB and 2 MiB in packets of
   one byte, to show that the time grows as the length does, whatever is open meanwhile: stream LOG.
   Zeros and the log may take 1.5 times as long as the search. In packets of one byte 2 MiB may take 2.2 times as long as 1 MiB, and 1 MiB of
   any kind 5 times as long as zeros, of which nothing is held: what is held is not to be passed or moved for each packet. If a bound is not
   met, a line says so and the status is 1. */
#define _POSIX_C_SOURCE 200809L
#include <stdint.h>
#include <stdio.h>
#include <stdlib.h>
#include <string.h>
#include "../include/evtx.h"
#include "clock.h"

enum { SIZE = 16777216, PART = 1048576, WIDTH = 1500, TRIES = 15 };

/* What packets may take beside the search, 2 MiB beside 1 MiB, and a kind beside zeros. */
#define MOST_OF_SEARCH 1.5
#define MOST_OF_HALF 2.2
#define MOST_OF_ZEROS 5.0

static uint8_t log_bytes[SIZE], bytes[SIZE], store[EVTX_STORE_SIZE];
static uint32_t offsets[EVTX_MOST_RECORDS_OF_BYTES];
static uint64_t list[EVTX_MOST_NUMBERS_OF_FEED];

static void repeat(const uint8_t *unit, size_t length)
{
    for (size_t i = 0; i < SIZE; i++)
        bytes[i] = unit[i % length];
}

static void zeros(void)
{
    memset(bytes, 0, SIZE);
}

static void of_log(void)
{
    memcpy(bytes, log_bytes, SIZE);
}

static void put_size(uint8_t *at, uint32_t size)
{
    at[0] = size & 255, at[1] = size >> 8 & 255, at[2] = at[3] = 0;
}

static void records(void)
{
    uint32_t state = 1;
    zeros();
    for (size_t at = 0, size; at + 900 <= SIZE; at += size) {
        state = state * 1664525u + 1013904223u;
        size = 400 + (state >> 16) % 501;
        for (size_t i = 8; i < size - 4; i++)
            bytes[at + i] = (uint8_t)(i * 37);
        bytes[at] = bytes[at + 1] = 0x2a;
        put_size(bytes + at + 4, (uint32_t)size);
        put_size(bytes + at + size - 4, (uint32_t)size);
    }
}

/* A magic every four bytes. The next one is its size, 10,794, so that it is open for as many bytes; the second size is never the first. */
static void magics(void)
{
    repeat((const uint8_t[]){0x2a, 0x2a, 0, 0}, 4);
}

/* Beginnings of records of 65,024 bytes every 16 bytes, each inside those before it. Its second size stands 65,020 bytes on, which is 12 more
   than a multiple of 16, and is wrong in its last byte: until that comes all is held. */
static void largest(void)
{
    repeat((const uint8_t[]){0x2a, 0x2a, 0, 0, 0, 254, 0, 0, 1, 1, 1, 1, 0, 254, 0, 1}, 16);
}

static uint64_t done(evtx_answer answer)
{
    if (answer.number != EVTX_DONE) {
        printf("stream: a call is refused: %s\n", evtx_message(answer.number));
        exit(1);
    }
    return answer.length;
}

/* How many records the first n bytes have, in packets of so many. */
static uint64_t fed(size_t n, size_t width)
{
    uint64_t count = 0;
    memset(store, 0, sizeof store);
    for (size_t at = 0; at < n; at += width) {
        size_t length = n - at < width ? n - at : width;
        count += done(evtx_feed(bytes + at, length, store, sizeof store, list, EVTX_MOST_NUMBERS_OF_FEED));
    }
    return count + done(evtx_close(store, sizeof store, list, EVTX_MOST_NUMBERS_OF_FEED));
}

static uint64_t searched(size_t n)
{
    return done(evtx_search_bytes(bytes, n, offsets, EVTX_MOST_RECORDS_OF_BYTES));
}

static void same(uint64_t fed_count, uint64_t searched_count)
{
    if (fed_count != searched_count) {
        printf("stream: the packets have other records than the joined bytes\n");
        exit(1);
    }
}

/* Whether a ratio is within its bound. 0 is none. */
static int within(const char *name, double ratio, double bound)
{
    if (bound == 0 || ratio <= bound)
        return 1;
    printf("stream: %s: the ratio is %.2f, and may be %.1f\n", name, ratio, bound);
    return 0;
}

/* Zeros come first: the others are measured beside them. */
static const struct {
    const char *name;
    void (*fill)(void);
    double bound;
} kinds[] = {
    {"zeros", zeros, MOST_OF_SEARCH},
    {"the log", of_log, MOST_OF_SEARCH},
    {"records of 400 to 900 bytes", records, 0},
    {"a magic every 4 bytes", magics, 0},
    {"beginnings of 65,024 bytes", largest, 0},
};

/* The best times of packets and of the search, in turn. */
static int beside_search(const char *name, double bound)
{
    double packets = 1e9, search = 1e9;
    for (int k = 0; k < TRIES; k++) {
        double start = now();
        uint64_t fed_count = fed(SIZE, WIDTH);
        double middle = now();
        uint64_t searched_count = searched(SIZE);
        packets = better(packets, middle - start);
        search = better(search, now() - middle);
        same(fed_count, searched_count);
    }
    printf("  %-28s %7.2f ms, search %.2f ms, ratio %.2f\n", name, packets * 1e3, search * 1e3, packets / search);
    return within(name, packets / search, bound);
}

/* The best times of 1 MiB and of 2 MiB byte by byte, in turn. */
static int byte_by_byte(const char *name)
{
    static double of_zeros;
    double half = 1e9, whole = 1e9;
    uint64_t half_due = searched(PART), whole_due = searched(2 * PART);
    for (int k = 0; k < TRIES; k++) {
        double start = now();
        same(fed(PART, 1), half_due);
        double middle = now();
        same(fed(2 * PART, 1), whole_due);
        half = better(half, middle - start);
        whole = better(whole, now() - middle);
    }
    if (of_zeros == 0)
        of_zeros = half;
    printf("  %-28s 1 MiB %7.2f ms, 2 MiB %7.2f ms, ratio %.2f; beside zeros, ratio %.2f\n", name, half * 1e3, whole * 1e3, whole / half,
           half / of_zeros);
    return within(name, whole / half, MOST_OF_HALF) & within(name, half / of_zeros, MOST_OF_ZEROS);
}

int main(int count, char **arguments)
{
    FILE *log = count == 2 ? fopen(arguments[1], "rb") : NULL;
    int held = 1;
    if (!log || fread(log_bytes, 1, SIZE, log) != SIZE) {
        printf("stream: no log of 16 MiB\n");
        return 1;
    }
    fclose(log);
    printf("16 MiB in packets of 1,500 bytes, beside the search of the joined bytes\n");
    for (size_t k = 0; k < sizeof kinds / sizeof *kinds; k++) {
        kinds[k].fill();
        held &= beside_search(kinds[k].name, kinds[k].bound);
    }
    printf("packets of 1 byte\n");
    for (size_t k = 0; k < sizeof kinds / sizeof *kinds; k++) {
        kinds[k].fill();
        held &= byte_by_byte(kinds[k].name);
    }
    return !held;
}
