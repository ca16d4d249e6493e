/* How long it takes to find that 16 MiB of zeros behind the header of a dirty EVT log have no trailer, beside a plain loop that looks for the first
   11 in them. It may take 1.5 times as long: where it takes longer, a line says so and the status is not 0. */
#define _POSIX_C_SOURCE 200809L
#include <stdint.h>
#include <stdio.h>
#include <stdlib.h>
#include <string.h>
#include "../include/evtx.h"
#include "clock.h"

enum { TRIES = 15 };
#define MOST 1.5

/* As the plain loop of search.c, for the first byte of a trailer. */
__attribute__((noinline, noclone, aligned(64))) static size_t first_mark(const uint8_t *bytes, size_t n)
{
    size_t i = 0;
    while (i < n && bytes[i] != 0x11)
        i++;
    return i;
}

int main(void)
{
    static const uint8_t front[EVTX_EVT_HEADER_SIZE] = {
        0x30, 0, 0, 0, 'L', 'f', 'L', 'e', 1, 0, 0, 0, 1, 0, 0, 0, [36] = 1, [44] = 0x30,
    };
    double plain = 1e9, called = 1e9;
    uint8_t *log = malloc(EVTX_MOST_EVT), out[EVTX_EVT_HEADER_SIZE];
    if (!log)
        return 1;
    /* Other bytes first, as in search.c. */
    memset(log, 0xff, EVTX_MOST_EVT);
    __asm__ volatile("" ::: "memory");
    memset(log, 0, EVTX_MOST_EVT);
    memcpy(log, front, sizeof front);
    for (int k = 0; k < TRIES; k++) {
        double start = now();
        if (first_mark(log, EVTX_MOST_EVT) != EVTX_MOST_EVT)
            return 1;
        double looped = now();
        if (evtx_evt_header(log, EVTX_MOST_EVT, out, sizeof out).number != EVTX_NO_TRAILER)
            return 1;
        plain = better(plain, looped - start);
        called = better(called, now() - looped);
    }
    printf("no trailer in 16 MiB of zeros: %.2f ms, a plain loop for the first 11 %.2f ms, ratio %.2f\n", called * 1e3, plain * 1e3, called / plain);
    if (called > MOST * plain) {
        printf("evt: more than %.1f times as long as the loop\n", MOST);
        return 1;
    }
    return 0;
}
