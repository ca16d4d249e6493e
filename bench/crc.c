/* The rate of the check of a chunk, which is that of its two checksums, beside zlib's crc32 and beside a loop in C that takes a byte at a
   time through a table of 256 entries, over the same bytes: crc LOG. */
#define _POSIX_C_SOURCE 200809L
#include <stdint.h>
#include <stdio.h>
#include <stdlib.h>
#include <zlib.h>
#include "../include/evtx.h"
#include "clock.h"

enum { HEADER = 4096, CHUNK = 65536, MOST = 512 * CHUNK, TRIES = 15 };

static uint8_t log_bytes[HEADER + MOST];

static uint32_t u32_at(const uint8_t *at)
{
    return at[0] | (uint32_t)at[1] << 8 | (uint32_t)at[2] << 16 | (uint32_t)at[3] << 24;
}

/* How many bytes of the chunk its two checksums cover. */
static size_t summed(const uint8_t *chunk)
{
    return 504 + u32_at(chunk + 48) - 512;
}

static uint32_t table[256];

static void make_table(void)
{
    for (uint32_t b = 0; b < 256; b++) {
        uint32_t c = b;
        for (int bit = 0; bit < 8; bit++)
            c = c & 1 ? 0xedb88320u ^ c >> 1 : c >> 1;
        table[b] = c;
    }
}

__attribute__((noinline)) static uint32_t update(uint32_t state, const uint8_t *part, size_t n)
{
    for (size_t i = 0; i < n; i++)
        state = table[(state ^ part[i]) & 255] ^ state >> 8;
    return state;
}

static int loop_check(const uint8_t *chunk)
{
    uint32_t header = ~update(update(~0u, chunk, 120), chunk + 128, 384);
    return header == u32_at(chunk + 124) && ~update(~0u, chunk + 512, u32_at(chunk + 48) - 512) == u32_at(chunk + 52);
}

static int proved_check(const uint8_t *chunk)
{
    return evtx_check_chunk(chunk, CHUNK).number == 0;
}

static int zlib_check(const uint8_t *chunk)
{
    uLong header = crc32(crc32(0, chunk, 120), chunk + 128, 384);
    return header == u32_at(chunk + 124) && crc32(0, chunk + 512, u32_at(chunk + 48) - 512) == u32_at(chunk + 52);
}

static double seconds(int (*check)(const uint8_t *), size_t chunks)
{
    double start = now();
    for (size_t k = 0; k < chunks; k++)
        if (!check(log_bytes + HEADER + k * CHUNK)) {
            fprintf(stderr, "crc: the checksums of chunk %zu are wrong\n", k);
            exit(1);
        }
    return now() - start;
}

int main(int argc, char **argv)
{
    FILE *file = argc == 2 ? fopen(argv[1], "rb") : NULL;
    size_t length = file ? fread(log_bytes, 1, sizeof log_bytes, file) : 0;
    if (length < HEADER + CHUNK)
        return 1;
    size_t chunks = (length - HEADER) / CHUNK, bytes = 0;
    for (size_t k = 0; k < chunks; k++)
        bytes += summed(log_bytes + HEADER + k * CHUNK);
    make_table();
    double proved = 1e9, zlib = 1e9, loop = 1e9;
    for (int k = 0; k < TRIES; k++) {
        zlib = better(zlib, seconds(zlib_check, chunks));
        proved = better(proved, seconds(proved_check, chunks));
        loop = better(loop, seconds(loop_check, chunks));
    }
    printf("CRC-32 of %zu bytes in %zu chunks\n", bytes, chunks);
    printf("  evtx_check_chunk %.0f MB/s\n", 1e-6 * bytes / proved);
    printf("  zlib %s crc32 %.0f MB/s, ratio %.3f\n", zlibVersion(), 1e-6 * bytes / zlib, zlib / proved);
    printf("  a loop over a table in C %.0f MB/s, ratio %.3f\n", 1e-6 * bytes / loop, loop / proved);
    return 0;
}
