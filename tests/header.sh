#!/usr/bin/env bash
# Compiles include/evtx.h by itself, as C and C++ of several years, with every warning an error. Then tries what it asks of the compiler: a
# null pointer that can be seen is warned of, and widths that the library is not compiled for are refused.
#
#     header.sh
#
# gcc and g++ are needed; clang and clang++ compile it too where they are there. It ends in the line 'header: N checks, 0 failed' and status
# 0 exactly if everything held.
set -u
cd "$(dirname "$0")/.." || exit 1
made=$(mktemp -d) || exit 1
trap 'rm -rf "$made"' EXIT
checks=0 failed=0

wrong() {
    failed=$((failed + 1))
    echo "FAILED $1"
    sed -n '1,5s/^/    /p' "$made/said"
}

# accepted WHAT COMMAND..
accepted() {
    local what=$1
    shift
    checks=$((checks + 1))
    "$@" >"$made/said" 2>&1 || wrong "$what: it is refused"
}

# refused WHAT WHY COMMAND.. passes if the compiler says WHY, an extended regular expression.
refused() {
    local what=$1 why=$2
    shift 2
    checks=$((checks + 1))
    if "$@" >"$made/said" 2>&1; then
        wrong "$what: it is accepted"
    elif ! grep -qE "$why" "$made/said"; then
        wrong "$what: it is refused, but not for this reason"
    fi
}

# compiler COMMAND LANGUAGE: with every warning an error.
compiler() {
    compile=("$1" -x "$2" -Iinclude -Wall -Wextra -Wpedantic -Werror)
    called=$1
}

# years STANDARD..: the header twice in one file.
years() {
    local year
    for year in "$@"; do
        accepted "$called, $year" "${compile[@]}" "-std=$year" -fsyntax-only "$made/twice.c"
    done
}

# Two files of one program, each with the header. The status is 0 if they find the same sentence for a number.
program() {
    accepted "$called, the first of two files" "${compile[@]}" -c -o "$made/first.o" "$made/first.c"
    accepted "$called, the second of two files" "${compile[@]}" -c -o "$made/second.o" "$made/second.c"
    accepted "$called, the program of two files" "$1" -o "$made/program" "$made/first.o" "$made/second.o"
    accepted "$called, the program's run" "$made/program"
}

# calling CALL: a file that makes the call, with what its pointers may be.
pointers='uint8_t *in, uint8_t *out, uint32_t *list, uint8_t *store, uint64_t *numbers'
calling() {
    echo '#include "evtx.h"'
    echo "void f($pointers);"
    echo "void f($pointers) { (void)in, (void)out, (void)list, (void)store, (void)numbers, (void)$1; }"
}

# Every pointer of every call, in turn a null.
nulls() {
    local call null
    while read -r call; do
        calling "$call" >"$made/call.c"
        accepted "$called, $call" "${compile[@]}" -fsyntax-only "$made/call.c"
        for null in "${call/in,/NULL,}" "${call/out,/NULL,}" "${call/list,/NULL,}" "${call/store,/NULL,}" "${call/numbers,/NULL,}"; do
            [ "$null" != "$call" ] || continue
            calling "$null" >"$made/call.c"
            refused "$called, $null" nonnull "${compile[@]}" -fsyntax-only "$made/call.c"
        done
    done <<'CALLS'
evtx_check_file_header(in, 8)
evtx_check_chunk(in, 8)
evtx_free_space_offset(in, 8)
evtx_search_chunk(in, 8, list, 8)
evtx_search_bytes(in, 8, list, 8)
evtx_feed(in, 8, store, 8, numbers, 8)
evtx_close(store, 8, numbers, 8)
evtx_next_in_chunk(in, 8, 0)
evtx_next_in_bytes(in, 8, 0)
evtx_size_in_chunk(in, 8, 0)
evtx_size_in_bytes(in, 8, 0)
evtx_record_stretch(in, 8, 0)
evtx_record_fields(in, 8, 0)
evtx_record_text(in, 8, 0, out, 8)
evtx_text_length(in, 8, 0)
evtx_index_build(in, 8, out, 8)
evtx_index_entry(in, 8, 0)
evtx_index_find(in, 8, 0)
evtx_index_add(in, 8, store, 8, out, 8)
evtx_evt_header(in, 8, out, 8)
evtx_evt_text(in, 8, 0, out, 8)
evtx_evt_record(in, 8, 0)
CALLS
}

# Pointers of 32 bits, where the structs stay as they are (-mx32), and structs without room between their fields. C99 cannot say what it is
# compiled for.
widths() {
    local why='static assertion|static_assert'
    refused "$called, pointers of 32 bits" "$why" "${compile[@]}" "-std=$1" -mx32 -ffreestanding -fsyntax-only "$made/twice.c"
    refused "$called, packed structs" "$why" "${compile[@]}" "-std=$1" -fpack-struct -fsyntax-only "$made/twice.c"
}

printf '#include "evtx.h"\n#include "evtx.h"\n' >"$made/twice.c"
cat >"$made/first.c" <<'FIRST'
#include "evtx.h"
const char *second(void);
int main(void)
{
    const char *mine = evtx_message(EVTX_ROOM_TOO_SMALL), *other = second();
    while (*mine != '\0' && *mine == *other)
        mine++, other++;
    return *mine != *other;
}
FIRST
cat >"$made/second.c" <<'SECOND'
#include "evtx.h"
const char *second(void);
const char *second(void)
{
    return evtx_message(EVTX_ROOM_TOO_SMALL);
}
SECOND

for c in gcc clang; do
    [ "$c" = gcc ] || command -v "$c" >/dev/null || continue
    compiler "$c" c
    years c99 c11 c17
    program "$c"
    nulls
    widths c11
done
for c in g++ clang++; do
    [ "$c" = g++ ] || command -v "$c" >/dev/null || continue
    compiler "$c" c++
    years c++98 c++11 c++17
    program "$c"
    nulls
    widths c++11
done

echo "header: $checks checks, $failed failed"
[ "$failed" -eq 0 ]
