/* How long the indexes of a log's chunks take, beside the listing of the same log by the program; and how long the last of 2,322 entries
   takes to be found by its number, beside a plain loop over the entries: index LOG PROGRAM RECORDS.
   Both sides of the first read the log from the page cache; the listing goes to /dev/null. The indexes may take as long as the listing, and
   finding three times as long as the loop, which looks at nothing but the numbers. If a bound is not met, a line says so and the status is
   1. RECORDS is how many records the log has, numbered from 1 on, each with a text. */
#define _DEFAULT_SOURCE
#include <fcntl.h>
#include <spawn.h>
#include <stdint.h>
#include <stdio.h>
#include <stdlib.h>
#include <string.h>
#include <sys/resource.h>
#include <sys/wait.h>
#include "../include/evtx.h"
#include "clock.h"

enum { BUILDS = 5, FINDS = 15, TIMES = 1000 };

#define MOST_OF_LISTING 1.0
#define MOST_OF_LOOP 3.0

extern char **environ;

static uint8_t chunk[EVTX_CHUNK_SIZE], entries[EVTX_MOST_BYTES_OF_INDEX];

static void stop(const char *what)
{
    printf("index: %s\n", what);
    exit(1);
}

static int within(const char *name, double ratio, double bound)
{
    if (ratio <= bound)
        return 1;
    printf("index: %s: the ratio is %.2f, and may be %.1f\n", name, ratio, bound);
    return 0;
}

/* Written out: gcc leaves a loop over the six bytes as it is at -O2, and then takes three times as long. */
static inline uint64_t number_at(const uint8_t *entry)
{
    uint64_t high = (uint64_t)entry[4] << 40 | (uint64_t)entry[5] << 32;
    return high | (uint64_t)entry[6] << 24 | (uint64_t)entry[7] << 16 | (uint64_t)entry[8] << 8 | entry[9];
}

/* The length of the chunk's index. */
static size_t build(void)
{
    evtx_answer answer = evtx_index_build(chunk, sizeof chunk, entries, sizeof entries);
    if (answer.number != EVTX_DONE)
        stop(evtx_message(answer.number));
    return (size_t)answer.length;
}

/* Reads the log and builds the index of each of its chunks. Answers how many entries they have. */
static uint64_t build_all(const char *name, void (*look)(size_t length))
{
    FILE *log = fopen(name, "rb");
    uint64_t bytes = 0;
    if (!log || fseek(log, EVTX_FILE_HEADER_SIZE, SEEK_SET) != 0)
        stop("the log cannot be read");
    while (fread(chunk, 1, sizeof chunk, log) == sizeof chunk) {
        size_t length = build();
        look(length);
        bytes += length;
    }
    fclose(log);
    return bytes / EVTX_ENTRY_SIZE;
}

/* The entries have the numbers that are due, and no refusal. */
static void each_number(size_t length)
{
    static uint64_t last;
    for (size_t at = 0; at < length; at += EVTX_ENTRY_SIZE)
        if (number_at(entries + at) != ++last || entries[at + 10] != 0)
            stop("an entry is not that of the record");
}

static void nothing(size_t length)
{
    (void)length;
}

/* The processor time of the program with the log on its standard input. */
static double listing(char *program, const char *log)
{
    char *words[] = {program, NULL};
    posix_spawn_file_actions_t streams;
    struct rusage used;
    pid_t child;
    int status;
    posix_spawn_file_actions_init(&streams);
    posix_spawn_file_actions_addopen(&streams, 0, log, O_RDONLY, 0);
    posix_spawn_file_actions_addopen(&streams, 1, "/dev/null", O_WRONLY, 0);
    if (posix_spawn(&child, program, &streams, NULL, words, environ) != 0 || wait4(child, &status, 0, &used) != child || status != 0)
        stop("the listing failed");
    posix_spawn_file_actions_destroy(&streams);
    return (double)(used.ru_utime.tv_sec + used.ru_stime.tv_sec) + 1e-6 * (double)(used.ru_utime.tv_usec + used.ru_stime.tv_usec);
}

/* The best times of all indexes and of the listing, in turn. */
static int beside_listing(const char *log, char *program, uint64_t records)
{
    double built = 1e9, listed = 1e9;
    if (build_all(log, each_number) != records)
        stop("the indexes have not as many entries as the log has records");
    listing(program, log);
    for (int k = 0; k < BUILDS; k++) {
        double start = now();
        build_all(log, nothing);
        built = better(built, now() - start);
        listed = better(listed, listing(program, log));
    }
    printf("indexes of a log of %llu records\n  evtx_index_build %.3f s, evtx_list %.3f s, ratio %.2f\n", (unsigned long long)records, built,
           listed, built / listed);
    return within("building", built / listed, MOST_OF_LISTING);
}

/* A chunk of as many records as there can be, numbered from 1 on. */
static void fill(void)
{
    memset(chunk, 0, sizeof chunk);
    for (unsigned k = 0; k < EVTX_MOST_RECORDS_OF_CHUNK; k++) {
        uint8_t *record = chunk + 512 + 28 * k;
        record[0] = record[1] = 0x2a;
        record[4] = record[24] = 28;
        record[8] = (k + 1) & 255, record[9] = (k + 1) >> 8;
    }
}

static size_t plain_find(const uint8_t *index, size_t length, uint64_t number)
{
    size_t at = 0;
    while (at < length && number_at(index + at) != number)
        at += EVTX_ENTRY_SIZE;
    return at / EVTX_ENTRY_SIZE;
}

/* Called by a pointer that may change, so that the compiler cannot see that the same is found each time. */
static size_t (*volatile loop)(const uint8_t *, size_t, uint64_t) = plain_find;

/* The best times of finding the last entry, and of the loop, in turn. */
static int beside_loop(void)
{
    enum { LAST = EVTX_MOST_RECORDS_OF_CHUNK };
    double found = 1e9, looped = 1e9;
    fill();
    if (build() != sizeof entries)
        stop("the index has not 2,322 entries");
    for (int k = 0; k < FINDS; k++) {
        double start = now();
        for (int i = 0; i < TIMES; i++)
            if (evtx_index_find(entries, sizeof entries, LAST).position != LAST - 1)
                stop("the last entry is not found");
        double middle = now();
        for (int i = 0; i < TIMES; i++)
            if (loop(entries, sizeof entries, LAST) != LAST - 1)
                stop("the loop does not find the last entry");
        found = better(found, middle - start);
        looped = better(looped, now() - middle);
    }
    printf("the last of 2,322 entries by its number\n  evtx_index_find %.2f us, a plain loop %.2f us, ratio %.2f\n", found / TIMES * 1e6,
           looped / TIMES * 1e6, found / looped);
    return within("finding", found / looped, MOST_OF_LOOP);
}

int main(int count, char **arguments)
{
    if (count != 4)
        stop("a log, the program and the count of records are wanted");
    int held = beside_listing(arguments[1], arguments[2], strtoull(arguments[3], NULL, 10));
    return !(beside_loop() & held);
}
