/* Rates of the proved value text against the same loops in C: a string of ASCII text with its closing zero and a binary value, of 65,534 bytes
   each, and a string of 62,000 bytes of zeros, of which nothing is written. The proved call writes a value twice, the first time only to
   count; the loops in C write it once. */
#define _POSIX_C_SOURCE 200809L
#include <stddef.h>
#include <stdint.h>
#include <stdio.h>
#include <string.h>
#include "clock.h"

struct evtx_value {
    uint32_t number;
    uint64_t length;
};

struct evtx_value evtx_put_value(uint8_t kind, const uint8_t *src, size_t size, uint8_t *out, size_t room);

enum { STRING = 0x01, BINARY = 0x0e, SIZE = 65534, ZEROS = 62000, ROOM = 262144, TURNS = 100, TRIES = 25 };

static uint8_t src[SIZE], out[ROOM], other[ROOM];

static inline size_t put(uint8_t *o, size_t room, size_t at, uint32_t b)
{
    if (at < room)
        o[at] = (uint8_t)b;
    return at + 1;
}

static size_t put_text(uint8_t *o, size_t room, size_t at, const char *s)
{
    while (*s)
        at = put(o, room, at, (uint8_t)*s++);
    return at;
}

static size_t put_utf8(uint8_t *o, size_t room, size_t at, uint32_t c)
{
    if (c < 0x80)
        return put(o, room, at, c);
    if (c < 0x800) {
        at = put(o, room, at, 0xc0 + c / 64);
        return put(o, room, at, 0x80 + c % 64);
    }
    if (c < 0x10000) {
        at = put(o, room, at, 0xe0 + c / 4096);
    } else {
        at = put(o, room, at, 0xf0 + c / 262144);
        at = put(o, room, at, 0x80 + c / 4096 % 64);
    }
    at = put(o, room, at, 0x80 + c / 64 % 64);
    return put(o, room, at, 0x80 + c % 64);
}

static size_t put_shown(uint8_t *o, size_t room, size_t at, uint32_t c)
{
    switch (c) {
    case '&': return put_text(o, room, at, "&amp;");
    case '<': return put_text(o, room, at, "&lt;");
    case '>': return put_text(o, room, at, "&gt;");
    case '"': return put_text(o, room, at, "&quot;");
    case '\'': return put_text(o, room, at, "&apos;");
    case 9: return put_text(o, room, at, "&#9;");
    case 10: return put_text(o, room, at, "&#10;");
    case 13: return put_text(o, room, at, "&#13;");
    }
    if (c < 0x20 || (c >= 0xd800 && c < 0xe000) || c == 0xfffe || c == 0xffff)
        c = 0xfffd;
    return put_utf8(o, room, at, c);
}

static int plain(uint32_t u)
{
    static const char table[] =
        "00000000000000000000000000000000" "11011100111111111111111111110101"
        "11111111111111111111111111111111" "11111111111111111111111111111111";
    return u < 128 && table[u] == '1';
}

/* the size without the zero units at the end */
static size_t without_closing_zeros(const uint8_t *s, size_t n)
{
    while (n >= 2 && s[n - 2] + 256u * s[n - 1] == 0)
        n -= 2;
    return n;
}

static size_t string_in_c(const uint8_t *s, size_t size, uint8_t *o, size_t room)
{
    size_t at = 0, n = without_closing_zeros(s, size);
    uint32_t carry = 0;
    for (size_t i = 0; i + 1 < n; i += 2) {
        uint32_t u = s[i] + 256u * s[i + 1];
        if (!carry && plain(u)) {
            at = put(o, room, at, u);
            continue;
        }
        if (carry && u >= 0xdc00 && u < 0xe000) {
            at = put_shown(o, room, at, 0x10000 + 0x400 * (carry - 0xd800) + (u - 0xdc00));
            carry = 0;
            continue;
        }
        if (carry)
            at = put_shown(o, room, at, carry);
        carry = u >= 0xd800 && u < 0xdc00 ? u : 0;
        if (!carry)
            at = put_shown(o, room, at, u);
    }
    return carry ? put_shown(o, room, at, carry) : at;
}

static size_t binary_in_c(const uint8_t *s, size_t n, uint8_t *o, size_t room)
{
    static const char digits[] = "0123456789ABCDEF";
    size_t at = 0;
    for (size_t i = 0; i < n; i++) {
        at = put(o, room, at, (uint8_t)digits[s[i] / 16]);
        at = put(o, room, at, (uint8_t)digits[s[i] % 16]);
    }
    return at;
}

/* The loops in C for the sizes that are measured, which gcc makes each for its own size. */
static size_t letters_in_c(void)
{
    return string_in_c(src, SIZE, other, ROOM);
}

static size_t zeros_in_c(void)
{
    return string_in_c(src, ZEROS, other, ROOM);
}

static size_t bytes_in_c(void)
{
    return binary_in_c(src, SIZE, other, ROOM);
}

/* A value in src, its loop in C, and how long its text has to be. The length is by hand: a loop that wrote nothing at all would be fast. */
struct measured {
    const char *name;
    uint8_t kind;
    size_t size, due;
    size_t (*in_c)(void);
};

static struct evtx_value run(int proved, const struct measured *m)
{
    if (proved)
        return evtx_put_value(m->kind, src, m->size, out, ROOM);
    return (struct evtx_value){ 0, m->in_c() };
}

/* megabytes of the value a second */
static double rate(int proved, const struct measured *m)
{
    double start = now();
    for (int i = 0; i < TURNS; i++) {
        uint64_t length = run(proved, m).length;
        __asm__ volatile("" ::"r"(length) : "memory");
    }
    return 1e-6 * (double)m->size * TURNS / (now() - start);
}

static int compare(const struct measured *m)
{
    struct evtx_value text = run(1, m);
    if (text.number != 0 || text.length != m->due || run(0, m).length != m->due || memcmp(out, other, m->due) != 0) {
        printf("%s: the two texts differ, or are not of %zu bytes\n", m->name, m->due);
        return 1;
    }
    /* the best of some tries, in turn, so that another process disturbs both alike */
    double in_c = 0, proved = 0;
    for (int k = 0; k < TRIES; k++) {
        double c_rate = rate(0, m), proved_rate = rate(1, m);
        in_c = c_rate > in_c ? c_rate : in_c;
        proved = proved_rate > proved ? proved_rate : proved;
    }
    printf("%s: C %.0f MB/s, proved %.0f MB/s, ratio %.2f\n", m->name, in_c, proved, proved / in_c);
    return 0;
}

int main(void)
{
    static const char text[] = "The service entered the running state: C:\\Windows\\System32\\svchost.exe -k netsvcs, after 1203 ms. ";
    /* the last unit stays zero */
    for (size_t i = 0; i < SIZE - 2; i += 2)
        src[i] = (uint8_t)text[i / 2 % (sizeof text - 1)];
    int differ = compare(&(struct measured){ "string", STRING, SIZE, SIZE / 2 - 1, letters_in_c });
    memset(src, 0, sizeof src);
    differ |= compare(&(struct measured){ "zeros", STRING, ZEROS, 0, zeros_in_c });
    for (size_t i = 0; i < SIZE; i++)
        src[i] = (uint8_t)(i * 167 + i / 256);
    return differ | compare(&(struct measured){ "binary", BINARY, SIZE, 2 * SIZE, bytes_in_c });
}
