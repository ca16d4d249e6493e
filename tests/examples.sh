#!/usr/bin/env bash
# Installs the library under target/, builds the examples over it, runs them, and compares what they write with what is due. That is
# worked out from samples/*.listing, which the second reader wrote, and by hand; never from an example.
#
#     examples.sh
#
# It ends in the line 'examples: N checks, 0 failed' and status 0 exactly if everything held. A missing tool is a failure.
set -u
cd "$(dirname "$0")/.." || exit 1
made=target/examples
installed=$PWD/$made/installed
rust=$made/rust/release/evtx_safe
in_c='list carve arrive text index evt'
checks=0
failed=0
export LD_LIBRARY_PATH=$installed/lib
unset EVTX_LIBRARY

stop() {
    echo "examples: $1" >&2
    exit 1
}

# check NAME DUE COMMAND..: the command ends with 0, writes what stands in the file DUE, and says nothing on standard error.
check() {
    local name=$1 due=$2
    shift 2
    checks=$((checks + 1))
    if ! "$@" >"$made/written" 2>"$made/said"; then
        cat "$made/said"
        echo "FAILED $name: the program failed"
    elif ! cmp "$made/written" "$due"; then
        diff -a "$made/written" "$due" | cut -c 1-200 | head -n 4
        echo "FAILED $name: other lines than are due"
    elif [ -s "$made/said" ]; then
        cat "$made/said"
        echo "FAILED $name: standard error is not empty"
    else
        return
    fi
    failed=$((failed + 1))
}

# told NAME STATUS LINE COMMAND..: the command ends with STATUS, and writes nothing but LINE, to standard error; no LINE if it is empty.
told() {
    local name=$1 due=$2 line=$3 status
    shift 3
    checks=$((checks + 1))
    "$@" >"$made/written" 2>"$made/said"
    status=$?
    if [ "$status" -eq "$due" ] && [ ! -s "$made/written" ] && printf '%s' "${line:+$line$'\n'}" | cmp -s - "$made/said"; then
        return
    fi
    head -n 4 "$made/said"
    echo "FAILED $name: status $status and what stands above, where $due and '$line' are due"
    failed=$((failed + 1))
}

# Over the installed library, as pkg-config tells of it: the shared one, and the archive.
build_c() {
    local c="gcc -std=c99 -Wall -Wextra -Werror -O2" shared static name
    export PKG_CONFIG_PATH=$installed/lib/pkgconfig
    shared=$(pkg-config --cflags --libs evtx) || stop "pkg-config has no evtx"
    static=$(pkg-config --static --cflags --libs evtx) || stop "pkg-config has no static evtx"
    mkdir -p "$made/shared" "$made/static" || stop "$made cannot be made"
    for name in $in_c; do
        $c -o "$made/shared/$name" "examples/c/$name.c" $shared || stop "$name.c is not built over the shared library"
        $c -static -o "$made/static/$name" "examples/c/$name.c" $static || stop "$name.c is not built over the archive"
    done
}

build() {
    rm -rf "$installed"
    make --silent install PREFIX="$installed" DESTDIR= || stop "make install failed"
    build_c
    EVTX_LIB_DIR=$installed/lib cargo build --quiet --release --offline --manifest-path examples/rust/Cargo.toml --target-dir "$made/rust" ||
        stop "the Rust example is not built"
}

# Which library a program is linked with: the shared one has to be named in it by its soname, and the archive not at all.
linked() {
    local name
    for name in $in_c; do
        echo 1 >"$made/due"
        check "$name is linked with the shared library" "$made/due" sh -c 'readelf -d "$0" | grep -cF "[libevtx_c.so.0]"' "$made/shared/$name"
        echo 0 >"$made/due"
        check "$name is linked with the archive" "$made/due" sh -c 'readelf -d "$0" | grep -cF "[libevtx_c" || true' "$made/static/$name"
    done
}

# The Rust example's lines of a listing: records without their offset, sound headers, sound chunks and left-over bytes not at all, and
# names for the numbers of refusals that the samples have.
numbers_and_texts() {
    sed -E -e '/^(header|chunk [0-9]+) ok$/d' -e '/^rest [0-9]+$/d' -e 's/^(chunk [0-9]+) refused 6$/\1: DataChecksum/' \
        -e 's/^[0-9]+ ([0-9]+ )/\1/' "$1"
}

# The carver's lines of a log: the listing gives place and number of each record, the log's own bytes give its size.
places_and_sizes() {
    od -An -v -tu1 -w1 "$1" | awk -v listing="$2" '
        { byte[NR - 1] = $1 }
        END {
            while ((getline line <listing) > 0) {
                split(line, word, " ")
                if (word[1] == "chunk") base = 4096 + 65536 * word[2]
                if (word[1] !~ /^[0-9]+$/) continue
                at = base + word[1]
                print at, byte[at + 4] + 256 * byte[at + 5], word[2]
            }
        }'
}

list_everywhere() {
    check "C, $1" "$3" "$made/shared/list" "$2"
    check "C over the archive, $1" "$3" "$made/static/list" "$2"
    check "Python, $1" "$3" python3 examples/python/list.py "$2"
    check "installed program, $1" "$3" sh -c '"$0" <"$1"' "$installed/bin/evtx_list" "$2"
}

carve_everywhere() {
    check "carving, $1" "$3" "$made/shared/carve" "$2"
    check "carving over the archive, $1" "$3" "$made/static/carve" "$2"
    cut -d ' ' -f 1,2 "$3" >"$made/due_without_numbers"
    check "as it arrives, $1" "$made/due_without_numbers" "$made/shared/arrive" "$2"
    check "as it arrives, over the archive, $1" "$made/due_without_numbers" "$made/static/arrive" "$2"
    check "as it arrives, by a pipe, $1" "$made/due_without_numbers" sh -c 'dd if="$1" bs=1000 status=none | "$0" /dev/stdin' "$made/shared/arrive" "$2"
}

# The first and the last text of a log, one at a time.
single_texts() {
    local chunk offset text
    grep -a -E '^(chunk [0-9]+ |[0-9]+ [0-9]+ <)' "$2" | awk '$1 == "chunk" { k = $2; next } { print k, $0 }' >"$made/texts"
    while read -r chunk offset _ text; do
        printf '%s\n' "$text" >"$made/due"
        check "text $chunk $offset, $1" "$made/due" "$made/shared/text" "$1" "$chunk" "$offset"
        check "text $chunk $offset over the archive, $1" "$made/due" "$made/static/text" "$1" "$chunk" "$offset"
    done < <(sed -n -e 1p -e '$p' "$made/texts")
}

samples() {
    local log listing
    for log in samples/*.evtx; do
        listing=${log%.evtx}.listing
        list_everywhere "$log" "$log" "$listing"
        numbers_and_texts "$listing" >"$made/due"
        check "Rust, $log" "$made/due" "$rust" "$log"
        places_and_sizes "$log" "$listing" >"$made/due"
        carve_everywhere "$log" "$log" "$made/due"
        single_texts "$log" "$listing"
    done
    check "Python, with the library's path" samples/panel.listing env -u LD_LIBRARY_PATH EVTX_LIBRARY="$installed/lib/libevtx_c.so.0" \
        python3 examples/python/list.py samples/panel.evtx
}

zeros() {
    head -c "$1" /dev/zero
}

# The record of 110 bytes that docs/RULES.md has as its example; as there, its text is right at offset 512 of a chunk only.
example_record() {
    printf '\x2a\x2a\0\0\x6e\0\0\0\x01\0\0\0\0\0\0\0' && zeros 8
    printf '\x0f\x01\x01\0\x0c\x01\0\0\0\0\x26\x02\0\0' && zeros 20
    printf '\x22\0\0\0\x0f\x01\x01\0\x01\xff\xff\x16\0\0\0\x4d\x02\0\0\0\0\0\0\0\0\x01\0\x50\0\0\0'
    printf '\x02\x0d\0\0\x05\x04\0\x01\0\0\0\x02\0\x05\0\0\x80\x6e\0\0\0'
}

# A record of 28 bytes, the smallest, with record number 2 and no binary XML.
small_record() {
    printf '\x2a\x2a\0\0\x1c\0\0\0\x02\0\0\0\0\0\0\0' && zeros 8 && printf '\x1c\0\0\0'
}

# Makes headers and checksums of a log of one chunk sound, by the rules of docs/RULES.md, with the free space from byte 622 of the chunk on.
make_sound() {
    python3 - "$1" <<'END'
import struct, sys, zlib
log = bytearray(open(sys.argv[1], "rb").read())
log[0:8], log[4096:4104] = b"ElfFile\0", b"ElfChnk\0"
struct.pack_into("<LHHH", log, 0x20, 128, 1, 3, 4096)
struct.pack_into("<L", log, 0x7C, zlib.crc32(log[0:120]))
struct.pack_into("<L", log, 4096 + 40, 128)
struct.pack_into("<LL", log, 4096 + 48, 622, zlib.crc32(log[4096 + 512:4096 + 622]))
struct.pack_into("<L", log, 4096 + 124, zlib.crc32(log[4096:4096 + 120] + log[4096 + 128:4096 + 512]))
open(sys.argv[1], "wb").write(log)
END
}

# Of the log that by_hand makes first.
single_refusals() {
    local name=$1 text=$made/shared/text none
    none='no whole record at, or none at or after, the offset asked for, no such entry of an index, or no record left to add to it'
    echo '<P>-32768</P>' >"$made/due"
    check "text 0 512, by hand" "$made/due" "$text" "$name" 0 512
    told "text 0 622" 1 "text: $name: binary XML malformed" "$text" "$name" 0 622
    told "text 0 513" 1 "text: $name: $none" "$text" "$name" 0 513
    told "text 1 512" 1 "text: $name: no such chunk" "$text" "$name" 1 512
    told "text of no bytes" 1 "text: /dev/null: no such chunk" "$text" /dev/null 0 512
}

# The example's record with a string in place of the number: 20,000 times &, which is written as &amp;.
long_record() {
    printf '\x2a\x2a\0\0\xac\x9c\0\0\x01\0\0\0\0\0\0\0' && zeros 8
    printf '\x0f\x01\x01\0\x0c\x01\0\0\0\0\x26\x02\0\0' && zeros 20
    printf '\x22\0\0\0\x0f\x01\x01\0\x01\xff\xff\x16\0\0\0\x4d\x02\0\0\0\0\0\0\0\0\x01\0\x50\0\0\0'
    printf '\x02\x0d\0\0\x01\x04\0\x01\0\0\0\x40\x9c\x01\0'
    printf '&\0%.0s' $(seq 20000) && printf '\xac\x9c\0\0'
}

# A text of 100,007 bytes, for which a listing has no room.
long_text() {
    local log=$made/longtext.evtx due=$made/due
    { zeros 4608 && long_record && zeros $((65536 - 512 - 40108)); } >"$log"
    printf '%s\n' 'header refused 2' 'chunk 0 refused 2' '512 1 refused 13' >"$due"
    list_everywhere "a long text" "$log" "$due"
    printf '%s\n' 'header: Magic' 'chunk 0: Magic' '1 has a text of 100007 bytes' >"$due"
    check "Rust, a long text" "$due" "$rust" "$log"
    { printf '<P>' && printf '&amp;%.0s' $(seq 20000) && echo '</P>'; } >"$due"
    check "text, a long text" "$due" "$made/shared/text" "$log" 0 512
    check "text over the archive, a long text" "$due" "$made/static/text" "$log" 0 512
}

by_hand() {
    local log=$made/hand.evtx due=$made/due
    { zeros 4096 && zeros 512 && example_record && small_record && zeros $((65536 - 512 - 110 - 28)) && zeros 5; } >"$log"
    printf '%s\n' 'header refused 2' 'chunk 0 refused 2' '512 1 <P>-32768</P>' '622 2 refused 8' 'rest 5' >"$due"
    list_everywhere "by hand" "$log" "$due"
    printf '%s\n' 'header: Magic' 'chunk 0: Magic' '1 <P>-32768</P>' '2 refused: Malformed' >"$due"
    check "Rust, by hand" "$due" "$rust" "$log"
    single_refusals "$log"
    make_sound "$log" || stop "$log cannot be made sound"
    printf '%s\n' 'header ok' 'chunk 0 ok' '512 1 <P>-32768</P>' 'rest 5' >"$due"
    list_everywhere "a record in free space" "$log" "$due"
    printf '%s\n' '1 <P>-32768</P>' '2 refused: Malformed' >"$due"
    check "Rust, a record in free space" "$due" "$rust" "$log"
    printf '%s\n' '4608 110 1' '4718 28 2' >"$due"
    carve_everywhere "a record in free space" "$log" "$due"
    printf 'header refused 1\n' >"$due"
    list_everywhere "no bytes" /dev/null "$due"
    printf 'header: Length\n' >"$due"
    check "Rust, no bytes" "$due" "$rust" /dev/null
}

# A record of 200 bytes, number 3, with a whole small record at its byte 50.
record_in_record() {
    printf '\x2a\x2a\0\0\xc8\0\0\0\x03\0\0\0\0\0\0\0' && zeros 34 && small_record && zeros 118 && printf '\xc8\0\0\0'
}

# A record of 65,024 bytes, the largest, number 4.
large_record() {
    printf '\x2a\x2a\0\0\0\xfe\0\0\x04\0\0\0\0\0\0\0' && zeros 65004 && printf '\0\xfe\0\0'
}

# Around the end of the carver's first window, 16,777,216, and around 16,712,192, the last place that this window decides. The two
# records of 200 bytes lie across these places, and the small ones inside them on one side.
across_windows() {
    local last=$((16777216 - 65024)) log=$made/long due=$made/due n
    { zeros $((last - 40)) && record_in_record && small_record && zeros $((65024 - 188 - 100)) \
        && record_in_record && zeros 7 && small_record && zeros 20; } >"$log"
    printf '%s\n' "$((last - 40)) 200 3" "$((last + 160)) 28 2" '16777116 200 3' '16777323 28 2' >"$due"
    check "carving across windows" "$due" "$made/shared/carve" "$log"
    for n in $((last - 1)) $last $((last + 1)); do
        { zeros "$n" && large_record && small_record; } >"$log"
        printf '%s\n' "$n 65024 4" "$((n + 65024)) 28 2" >"$due"
        check "carving a large record at $n" "$due" "$made/shared/carve" "$log"
    done
    { zeros 16777116 && record_in_record && zeros 20; } >"$log"
    echo '16777116 200 3' >"$due"
    check "carving nothing but a record across the end" "$due" "$made/shared/carve" "$log"
    { zeros $((16777216 - 28)) && small_record; } >"$log"
    echo '16777188 28 2' >"$due"
    check "carving one whole window" "$due" "$made/shared/carve" "$log"
    rm -f "$log"
}

# What the example index keeps of a log, and its lines for all record numbers of the log and one more: indexes_due LISTING LOG INDEX LINES. The
# listing gives place, number and refusal of each record, the log's own bytes give its size.
indexes_due() {
    python3 - "$@" <<'END'
import sys
listing, log, index, lines = sys.argv[1:]
data, chunks, first = open(log, "rb").read(), [], {}
for line in open(listing, "rb"):
    word = line.split()
    if word[0] == b"chunk":
        chunks.append(b"")
    elif word[0].isdigit():
        at, number = int(word[0]), int(word[1])
        size = int.from_bytes(data[4096 + 65536 * (len(chunks) - 1) + at + 4:][:4], "little")
        refused = int(word[3]) if word[2] == b"refused" else 0
        chunks[-1] += (at << 72 | size << 56 | number << 8 | refused << 4).to_bytes(11, "big")
        first.setdefault(number, f"{number} {len(chunks) - 1} {at} {size} " + (f"refused {refused}" if refused else "text"))
open(index, "wb").write(b"".join((len(chunk) // 11).to_bytes(2, "big") + chunk for chunk in chunks))
open(lines, "w").write("\n".join(first.values()) + f"\n{max(first) + 1} none\n")
END
}

# kept_index NAME DUE LOG: the example, which writes nothing but the file beside the log, leaves there what is due.
kept_index() {
    told "$1" 0 '' "$made/shared/index" "$3"
    check "$1, what is kept" "$2" cat "$3.index"
    : >"$made/due_files"
    check "$1, nothing else is left" "$made/due_files" sh -c 'ls "$0".index.* 2>/dev/null || true' "$3"
}

sample_indexes() {
    local log name copy=$made/indexed.evtx
    for log in samples/*.evtx; do
        cp "$log" "$copy" && rm -f "$copy.index" "$copy.index.new"
        indexes_due "${log%.evtx}.listing" "$log" "$made/due_index" "$made/due_lines" || stop "the indexes of $log cannot be told"
        kept_index "indexes, $log" "$made/due_index" "$copy"
        kept_index "indexes once more, $log" "$made/due_index" "$copy"
        for name in shared static; do
            check "record numbers, $log, $name" "$made/due_lines" "$made/$name/index" "$copy" $(cut -d ' ' -f 1 "$made/due_lines")
        done
    done
    rm -f "$copy" "$copy.index"
}

# chunk_of LENGTH RECORD..: a chunk with these records, which together have so many bytes, from 512 on.
chunk_of() {
    local length=$1 record
    shift
    zeros 512 && for record in "$@"; do $record; done && zeros $((65536 - 512 - length))
}

# The record of 28 bytes, with record number 2^48.
numbered_record() {
    printf '\x2a\x2a\0\0\x1c\0\0\0\0\0\0\0\0\0\x01\0' && zeros 8 && printf '\x1c\0\0\0'
}

# A log that grows: by a record, and by a chunk. Of the kept entries only the last offset is looked at, so one that was changed stays.
grown_indexes() {
    local log=$made/grown.evtx due=$made/due_index first='\x02\0\0\x6e\0\0\0\0\0\x01\0' second='\x02\x6e\0\x1c\0\0\0\0\0\x02\x80'
    rm -f "$log.index" "$log.index.new"
    { zeros 4096 && chunk_of 110 example_record && zeros 300; } >"$log"
    printf '\0\x01'"$first" >"$due"
    kept_index "indexes of one record" "$due" "$log"
    { zeros 4096 && chunk_of 138 example_record small_record && zeros 300; } >"$log"
    printf '\0\x02'"$first$second" >"$due"
    kept_index "indexes with one record more" "$due" "$log"
    printf '%s\n' '2 0 622 28 refused 8' '1 0 512 110 text' '3 none' '18446744073709551615 none' >"$made/due"
    check "record numbers by hand" "$made/due" "$made/shared/index" "$log" 2 1 3 18446744073709551615
    printf '\0\x01\x02\0\xff\xff\0\0\0\0\0\x07\xf0' >"$log.index"
    { zeros 4096 && chunk_of 138 example_record small_record && chunk_of 0 && chunk_of 28 small_record; } >"$log"
    printf '\0\x02\x02\0\xff\xff\0\0\0\0\0\x07\xf0'"$second"'\0\0\0\x01\x02\0\0\x1c\0\0\0\0\0\x02\x80' >"$due"
    kept_index "indexes with two chunks more" "$due" "$log"
    printf '%s\n' '7 0 512 65535 refused 15' '2 0 622 28 refused 8' '1 none' >"$made/due"
    check "record numbers of what is kept" "$made/due" "$made/shared/index" "$log" 7 2 1
    : >"$due" && rm -f "$log.index" && zeros 4095 >"$log"
    kept_index "indexes of no chunk" "$due" "$log"
    echo '1 none' >"$made/due"
    check "a record number in no index" "$made/due" "$made/shared/index" "$log" 1
}

# What cannot be kept, and what is no file of indexes. The file that was there stays, and nothing is left beside it.
refused_indexes() {
    local log=$made/grown.evtx index=$made/shared/index none='no index: length no multiple of 11, or zero bits not zero'
    local large='record number of 2^48 or more, too large for an index'
    { zeros 4096 && chunk_of 56 small_record numbered_record; } >"$log"
    rm -f "$log.index"
    told "an index with a large number" 1 "index: $log: $large" "$index" "$log"
    printf '\0\x01\x02\0\0\x1c\0\0\0\0\0\x02\x80' >"$log.index" && cp "$log.index" "$made/due_index"
    told "a large number to be added" 1 "index: $log: $large" "$index" "$log"
    check "a large number, what was kept" "$made/due_index" cat "$log.index"
    printf '\0\x01\x02\0\0\x1c\0\0\0\0\0\x02\x84' >"$log.index"
    told "a zero bit, to be added to" 1 "index: $log.index: $none" "$index" "$log"
    told "a zero bit, to be asked" 1 "index: $log.index: $none" "$index" "$log" 2
    printf '\0\x02\x02\0\0\x1c\0\0\0\0\0\x02\x80' >"$log.index"
    told "too few entries" 1 "index: $log.index: not a file of indexes" "$index" "$log" 3
    { printf '\x09\x13' && zeros $((11 * 2323)); } >"$log.index"
    told "more entries than a chunk has" 1 "index: $log.index: not a file of indexes" "$index" "$log"
    printf '\0' >"$log.index"
    told "half a count" 1 "index: $log.index: not a file of indexes" "$index" "$log" 3
    rm -f "$log.index" && ln -s /dev/full "$log.index.new"
    { zeros 4096 && chunk_of 28 small_record; } >"$log"
    told "indexes on a full disk" 1 "index: $log.index.new: No space left on device" "$index" "$log"
    : >"$made/due"
    check "refused indexes, nothing is left" "$made/due" sh -c 'ls "$0".index* 2>/dev/null || true' "$log"
    told "no indexes" 1 "index: $log.index: No such file or directory" "$index" "$log" 1
    rm -f "$log"
}

# evt_header FIRST CURSOR FLAGS: the header of an EVT log, with these bytes of offsets and flags, as printf has them.
evt_header() {
    printf '\x30\0\0\0LfLe\x01\0\0\0\x01\0\0\0%b%b\x03\0\0\0\x01\0\0\0\0\0\0\0%b\0\0\0\0\x30\0\0\0' "$1\0\0" "$2\0\0" "$3\0\0\0"
}

# An EVT record of 60 bytes: number 2, written at 9, event id 7, type 4, no strings, category 1.
evt_record() {
    printf '\x3c\0\0\0LfLe\x02\0\0\0\0\0\0\0\x09\0\0\0\x07\0\0\0\x04\0\0\0\x01\0' && zeros 26 && printf '\x3c\0\0\0'
}

# evt_strings LENGTH COUNT: the front of an EVT record with so many bytes and strings, with number 1 and else the same; its strings are from 56 on.
evt_strings() {
    printf '%b\0\0LfLe\x01\0\0\0\0\0\0\0\x09\0\0\0\x07\0\0\0\x04\0%b\0\x01\0' "$1" "$2" && zeros 6 && printf '\x38\0\0\0' && zeros 16
}

# One of 68 bytes, with the strings a< and none.
evt_string_record() {
    evt_strings '\x44\0' '\x02' && printf 'a\0<\0\0\0\0\0\x44\0\0\0'
}

# evt_trailer FIRST CURSOR
evt_trailer() {
    printf '\x28\0\0\0\x11\x11\x11\x11\x22\x22\x22\x22\x33\x33\x33\x33\x44\x44\x44\x44%b%b\x03\0\0\0\x01\0\0\0\x28\0\0\0' "$1\0\0" "$2\0\0"
}

# evt_everywhere NAME LOG DUE
evt_everywhere() {
    check "EVT, $1" "$3" "$made/shared/evt" "$2"
    check "EVT over the archive, $1" "$3" "$made/static/evt" "$2"
}

# The sample is dirty, and a record of it goes on behind its end.
evt_logs() {
    local log=$made/hand.evt due=$made/due
    evt_everywhere "the sample" samples/oldpanel.evt samples/oldpanel.listing
    printf '%s\n' '1 9 7 4 1 a&lt; ' '2 9 7 4 1' >"$due"
    { evt_header '\x30\0' '\xb0\0' '\0' && evt_string_record && evt_record && evt_trailer '\x30\0' '\xb0\0'; } >"$log"
    evt_everywhere "a clean log" "$log" "$due"
    { evt_header '\x07\0' '\x07\0' '\x01' && evt_string_record && evt_record && evt_trailer '\x30\0' '\xb0\0'; } >"$made/dirty.evt"
    evt_everywhere "a dirty log" "$made/dirty.evt" "$due"
    printf '%s\n' '2 9 7 4 1' '1 9 7 4 1 a&lt; ' >"$due"
    { evt_header '\x9c\0' '\x74\0' '\0' && evt_string_record && evt_trailer '\x9c\0' '\x74\0' && evt_record &&
        printf '\x27\0\0\0%.0s' 1 2 3; } >"$made/fill.evt"
    evt_everywhere "fill words" "$made/fill.evt" "$due"
    { printf '1 9 7 4 1 ' && printf '&amp;%.0s' $(seq 20000) && echo; } >"$due"
    { evt_header '\x30\0' '\xae\x9c' '\0' && evt_strings '\x7e\x9c' '\x01' && printf '&\0%.0s' $(seq 20000) &&
        printf '\0\0\x7e\x9c\0\0' && evt_trailer '\x30\0' '\xae\x9c'; } >"$made/longtext.evt"
    evt_everywhere "a long text" "$made/longtext.evt" "$due"
    : >"$due"
    { evt_header '\x30\0' '\x30\0' '\0' && evt_trailer '\x30\0' '\x30\0'; } >"$made/empty.evt"
    evt_everywhere "no records" "$made/empty.evt" "$due"
}

# evt_ends NAME REASON LINES..: what is printed of the log ends.evt before it is refused. A run that does not end is stopped, also by what it writes.
evt_ends() {
    local name=$1 reason=$2
    shift 2
    printf '%s\n' "$@" 1 "evt: $made/ends.evt: $reason" >"$made/due"
    check "EVT, $name" "$made/due" sh -c 'ulimit -f 1000; timeout 20 "$0" "$1" 2>"$2"; echo $?; cat "$2"' \
        "$made/shared/evt" "$made/ends.evt" "$made/evt_errors"
}

evt_refusals() {
    local log=$made/ends.evt none='no record of an EVT log at the offset asked for' evt=$made/shared/evt length
    length='file header not 4,096 bytes, chunk or store not 65,536, bytes to search over 16,777,216, packet over 65,536, stream over 2^40, or '
    length+='EVT log under 48 bytes or over 16,777,216'
    { evt_header '\x30\0' '\x31\0' '\0' && evt_string_record && evt_record; } >"$log"
    evt_ends "records without an end" 'the records come again' '1 9 7 4 1 a&lt; ' '2 9 7 4 1'
    { evt_header '\x74\0' '\x31\0' '\0' && evt_string_record && evt_record && printf '\x27\0\0\0'; } >"$log"
    evt_ends "fill words without an end" 'the records come again' '2 9 7 4 1' '1 9 7 4 1 a&lt; '
    { evt_header '\x30\0' '\xb1\0' '\0' && evt_string_record && evt_record && zeros 60; } >"$log"
    evt_ends "a cursor behind the records" "$none" '1 9 7 4 1 a&lt; ' '2 9 7 4 1'
    { evt_header '\x30\0' '\xb0\0' '\x01' && evt_string_record && evt_record; } >"$log"
    told "EVT, no trailer" 1 "evt: $log: a dirty EVT log without exactly one trailer" "$evt" "$log"
    { evt_header '\x30\0' '\x31\0' '\0' && printf '\x27\0\0\0'; } >"$log"
    told "EVT, fill words alone" 1 "evt: $log: $none" timeout 20 "$evt" "$log"
    told "EVT, an EVTX log" 1 "evt: samples/panel.evtx: magic wrong" "$evt" samples/panel.evtx
    told "EVT, no bytes" 1 "evt: /dev/null: $length" "$evt" /dev/null
    cp "$made/hand.evt" "$log" && truncate -s 16777216 "$log"
    printf '%s\n' '1 9 7 4 1 a&lt; ' '2 9 7 4 1' >"$made/due"
    check "EVT, as long as a log may be" "$made/due" "$evt" "$log"
    truncate -s 16777217 "$log"
    told "EVT, a byte longer" 1 "evt: $log: $length" "$evt" "$log"
    rm -f "$log"
}

# The examples with a log as their last word. The signal of a closed pipe is set as it is by default, whatever this script was started with.
plain() {
    env --default-signal=PIPE "$@"
}

one_text() {
    plain "$made/shared/text" "$1" 0 512
}

# Beside a log by hand stands the EVT log by hand.
one_evt() {
    plain "$made/shared/evt" "${1/%.evtx/.evt}"
}

# More lines than a pipe holds, of a log whose indexes are kept; of one that has none, what is said without numbers.
many_numbers() {
    [ -e "$1.index" ] || { plain "$made/shared/index" "$1"; return; }
    plain "$made/shared/index" "$1" $(seq 10000)
}

to_full() {
    "$@" >/dev/full
}

to_closed() {
    "$@" >&-
}

# unread NAME COMMAND.. LOG: the reader of the pipe takes one byte of a longer output. The program is ended by the signal, without a word.
unread() {
    local name=$1 status
    shift
    checks=$((checks + 1))
    "$@" 2>"$made/said" | head -c 1 >/dev/null
    status=${PIPESTATUS[0]}
    if [ "$status" -ne 141 ] || [ -s "$made/said" ]; then
        head -n 4 "$made/said"
        echo "FAILED $name, closed pipe: status $status, and what stands above"
        failed=$((failed + 1))
    fi
}

# tells_failures NAME NUMBERS LONG COMMAND..: of a file that cannot be read and an output that cannot be written the example NAME says what the system
# says; Rust adds the system's NUMBERS. LONG is a log of which it writes more than a pipe holds.
tells_failures() {
    local name=$1 numbers=$2 long=$3
    shift 3
    told "$name, missing file" 1 "$name: nofile: No such file or directory${numbers:+ (os error 2)}" "$@" nofile
    told "$name, folder" 1 "$name: samples: Is a directory${numbers:+ (os error 21)}" "$@" samples
    told "$name, full disk" 1 "$name: standard output: No space left on device${numbers:+ (os error 28)}" to_full "$@" "$long"
    told "$name, full disk at the end" 1 "$name: standard output: No space left on device${numbers:+ (os error 28)}" to_full "$@" "$made/hand.evtx"
    unread "$name" "$@" "$long"
}

wrong_arguments() {
    local name=$1 words=$2
    shift 2
    told "$name, no arguments" 2 "usage: $name $words" "$@"
    told "$name, too many arguments" 2 "usage: $name $words" "$@" samples/panel.evtx 0 512 0
}

failures() {
    local long=$made/long.evtx python="python3 examples/python/list.py" name
    { cat samples/panel.evtx && for _ in $(seq 20); do tail -c +4097 samples/panel.evtx; done; } >"$long"
    tells_failures list '' "$long" plain "$made/shared/list"
    tells_failures carve '' "$long" plain "$made/shared/carve"
    tells_failures arrive '' "$long" plain "$made/shared/arrive"
    tells_failures text '' "$made/longtext.evtx" one_text
    tells_failures evt '' "$made/longtext.evt" one_evt
    : >"$long.index" && : >"$made/hand.evtx.index"
    tells_failures index '' "$long" many_numbers
    tells_failures list.py '' "$long" plain $python
    tells_failures evtx_safe numbers "$long" plain "$rust"
    for name in list carve arrive; do
        told "$name, closed output" 1 "$name: standard output: Bad file descriptor" to_closed "$made/shared/$name" "$long"
    done
    told "text, closed output" 1 "text: standard output: Bad file descriptor" to_closed one_text "$made/hand.evtx"
    told "evt, closed output" 1 "evt: standard output: Bad file descriptor" to_closed one_evt "$made/hand.evt"
    told "index, closed output" 1 "index: standard output: Bad file descriptor" to_closed many_numbers "$long"
    told "list.py, closed output" 1 "list.py: standard output: Bad file descriptor" to_closed $python "$long"
    told "evtx_safe, closed output, for which Rust puts /dev/null" 0 '' to_closed "$rust" "$long"
    wrong_arguments list LOG "$made/shared/list"
    wrong_arguments carve FILE "$made/shared/carve"
    wrong_arguments arrive FILE "$made/shared/arrive"
    wrong_arguments text 'LOG CHUNK OFFSET' "$made/shared/text"
    wrong_arguments evt LOG "$made/shared/evt"
    told "text, no number" 2 "usage: text LOG CHUNK OFFSET" "$made/shared/text" samples/panel.evtx 0 -512
    told "index, no arguments" 2 "usage: index LOG [NUMBER..]" "$made/shared/index"
    told "index, no number" 2 "usage: index LOG [NUMBER..]" "$made/shared/index" samples/panel.evtx 1 -2
    told "index, a number beyond 64 bits" 2 "usage: index LOG [NUMBER..]" "$made/shared/index" samples/panel.evtx 18446744073709551616
    wrong_arguments list.py LOG $python
    wrong_arguments evtx_safe LOG "$rust"
    told "list.py, no library" 1 "list.py: ./nolibrary.so: cannot open shared object file: No such file or directory" \
        env EVTX_LIBRARY=./nolibrary.so $python samples/panel.evtx
    rm -f "$long" "$long.index" "$made/hand.evtx.index"
}

build
linked
samples
by_hand
long_text
across_windows
sample_indexes
grown_indexes
refused_indexes
evt_logs
evt_refusals
failures
echo "examples: $checks checks, $failed failed"
[ "$failed" -eq 0 ]
