#!/usr/bin/env bash
# Runs the program that lists EVT logs. Its lines of generated logs are compared with the second reader's (second_evt), and the record numbers in
# them with those that the writer of the logs gave; lines of some logs, what is said of files that cannot be read and of outputs that cannot be
# written, and exit statuses, with what is written here by hand; and which program the front calls for which files.
#
#     evt_program.sh [PROGRAM [FRONT]]
#
# Without a PROGRAM, or where it is -, programs/evt_list.c is built over target/staticlib/libevtx_c.a. It ends in the line 'evt_program: N checks, 0 failed' and
# status 0 exactly if everything held. A missing tool is a failure.
set -u
given=${1:--}
[ "$given" = - ] || given=$(realpath -e "$given") || exit 1
front=$(realpath -e "${2:-$(dirname "$0")/../packaging/evtx}") || exit 1
cd "$(dirname "$0")/.." || exit 1
# The system's texts are due in English.
export LC_ALL=C
made=$(mktemp -d) || exit 1
trap 'rm -rf "$made"' EXIT
program=$given
[ "$given" != - ] || program=$made/evt_list
second=target/tests/release/second_evt
usage='usage: evt_list [--help | --version | FILE..]'
checks=0
failed=0

stop() {
    echo "evt_program: $1" >&2
    exit 1
}

fault() {
    echo "FAILED $1"
    failed=$((failed + 1))
}

# same NAME DUE FOUND: two texts are equal.
same() {
    checks=$((checks + 1))
    [ "$2" != "$3" ] || return 0
    diff -a <(echo "$2") <(echo "$3") | cut -c 1-200 | head -n 10
    fault "$1: < is due, > is there"
}

# A run that does not end, or that writes more than 100 MB, is stopped.
bounded() {
    (ulimit -f 100000 && exec timeout -k 5 20 env --default-signal=PIPE "$@")
}

# answers NAME STATUS OUT ERRORS COMMAND..: its exit status, and what it writes to standard output and to standard error.
answers() {
    local name=$1 status=$2 out=$3 errors=$4 found
    shift 4
    bounded "$@" </dev/null >"$made/out" 2>"$made/errors"
    found=$?
    same "$name, exit status" "$status" "$found"
    same "$name, standard output" "$out" "$(cat "$made/out")"
    same "$name, standard error" "$errors" "$(cat "$made/errors")"
}

tests_cargo() {
    cargo "$1" --quiet --release --offline --manifest-path tests/Cargo.toml --config tests/.cargo/config.toml "${@:2}"
}

build() {
    local tool
    for tool in cargo gcc python3 timeout cmp; do
        command -v "$tool" >/dev/null || stop "$tool is not installed"
    done
    [ "$given" != - ] || gcc -std=c11 -O2 -Wall -Wextra -Werror -o "$program" programs/evt_list.c target/staticlib/libevtx_c.a ||
        stop "the program is not built"
    tests_cargo build -p second_reader --bin second_evt && tests_cargo build -p log_writer --bin evt_logs || stop "the second reader is not built"
    mkdir "$made/logs" "$made/hand" && target/tests/release/evt_logs "$made/logs" || stop "no logs are written"
}

# Logs by hand, with records from the layout of EVENTLOGRECORD. What they are listed as stands below, in `by_hand`.
hand_logs() {
    python3 - "$made/hand" <<'PYTHON'
import struct
import sys

MARKS, FILL = (0x11111111, 0x22222222, 0x33333333, 0x44444444), b'\x27\0\0\0'


def record(number, strings, spare=0):
    """Generated at 1, written at 1000000000, event id 0xC0000007, type 4, category 9."""
    texts = b''.join(text.encode('utf-16-le') + b'\0\0' for text in strings)
    length = 56 + len(texts) + spare + 4
    fixed = struct.pack('<I4s4I4H6I', length, b'LfLe', number, 1, 1000000000, 0xC0000007, 4, len(strings), 9, 0, 0, 56, 0, 56, 0, 56)
    return fixed + texts + bytes(spare) + struct.pack('<I', length)


def trailer(first, cursor):
    return struct.pack('<10I', 40, *MARKS, first, cursor, 9, 1, 40)


def log(name, first, cursor, behind, flags=0):
    header = struct.pack('<I4s10I', 48, b'LfLe', 1, 1, first, cursor, 9, 1, 48 + len(behind), flags, 0, 48)
    with open(f'{sys.argv[1]}/{name}.evt', 'wb') as file:
        file.write(header + behind)


one, two, three = record(1, ['a<b', '', 'x\ny'], 2), record(2, []), record(3, ['"'], 2)
assert (len(one), len(two), len(three)) == (80, 60, 66)
both, end = one + two, 48 + 80 + 60
log('clean', 48, end, both + trailer(48, end))
log('dirty', 7, 7, both + trailer(48, end), 1)
log('dirty_without', 48, end, both, 1)
log('empty', 48, 48, trailer(48, 48))
log('nothing_behind', 48, 48, b'')
log('second_length', 48, end, both[:-1] + b'\1' + trailer(48, end))
log('behind_the_end', 48 + 20 + 40 + 60, 48 + 20, one[60:] + trailer(0, 0) + two + one[:60])
# The second record, then fill words, then the first.
turned, at, cursor = one + trailer(0, 0) + two, 48 + 80 + 40, 48 + 80
log('fill', at, cursor, turned + 13 * FILL)
log('fill_of_56', at, cursor, turned + 14 * FILL)
log('fill_odd', at, cursor, turned + FILL + b'\x27')
log('fill_wrong', at, cursor, turned + FILL + b'\x26\0\0\0')
log('fill_not_to_the_end', at, cursor, turned + FILL + bytes(4))
log('fill_at_48', 48, 60, 10 * FILL)
log('circle', 48 + 80, 49, both)
log('circle_with_fill', 48 + 80, 49, both + 3 * FILL)
log('first_in_the_header', 4, end, both + trailer(48, end))
log('first_beyond', 1000, end, both + trailer(48, end))
log('cursor_beyond', 48, 1000, both + trailer(48, end))
log('cursor_in_a_record', 48, 50, three + two + trailer(48, 174))
PYTHON
}

# listed NAME LINES: a log by hand is listed so, by the program and by the second reader.
listed() {
    answers "$1.evt" 0 "$2" '' "$program" "$made/hand/$1.evt"
    same "$1.evt, second reader" "$2" "$("$second" <"$made/hand/$1.evt")"
}

by_hand() {
    local one='1 1000000000 3221225479 4 9 a&lt;b  x&#10;y' two='2 1000000000 3221225479 4 9' three='3 1000000000 3221225479 4 9 &quot;'
    local refused='refused 18'
    listed clean "$one"$'\n'"$two"
    listed dirty "$one"$'\n'"$two"
    listed dirty_without 'refused 17'
    listed empty ''
    listed nothing_behind ''
    listed second_length "$one"$'\n'"$refused"
    listed behind_the_end "$one"
    listed fill "$two"$'\n'"$one"
    listed fill_of_56 "$two"$'\n'"$refused"
    listed fill_odd "$two"$'\n'"$refused"
    listed fill_wrong "$two"$'\n'"$refused"
    listed fill_not_to_the_end "$two"$'\n'"$refused"
    listed fill_at_48 "$refused"
    listed circle "$two"$'\n'"$one"$'\n'"$refused"
    listed circle_with_fill "$two"$'\n'"$one"$'\n'"$refused"
    listed first_in_the_header "$refused"
    listed first_beyond "$refused"
    listed cursor_beyond "$one"$'\n'"$two"$'\n'"$refused"
    listed cursor_in_a_record "$three"$'\n'"$two"$'\n'"$refused"
}

# The sample, of whose records the first 33 were given up.
sample() {
    answers "samples/oldpanel.evt" 0 "$(cat samples/oldpanel.listing)" '' "$program" samples/oldpanel.evt
    same "samples/oldpanel.listing, second reader" "$(cat samples/oldpanel.listing)" "$("$second" <samples/oldpanel.evt)"
    same "samples/oldpanel.listing, record numbers" "$(seq 34 61)" "$(cut -d ' ' -f 1 samples/oldpanel.listing)"
}

# compared LOG: both listings of a generated log, and its record numbers where they are known.
compared() {
    local log=$1 name=${1##*/} status
    checks=$((checks + 1))
    bounded "$program" "$log" >"$made/ours" 2>&1
    status=$?
    "$second" <"$log" >"$made/theirs" || stop "the second reader fails"
    [ "$status" -eq 0 ] || fault "$name: status $status"
    cmp -s "$made/ours" "$made/theirs" || fault "$name: our listing differs from the second reader's: $(cmp "$made/ours" "$made/theirs" 2>&1)"
    tail -n 1 "$made/ours" | cut -c 1-100 | grep -ax 'refused [0-9]*' >>"$made/refusals"
    [ -e "${log%.evt}.numbers" ] || return 0
    checks=$((checks + 1))
    cut -d ' ' -f 1 "$made/ours" | cmp -s - "${log%.evt}.numbers" || fault "$name: other record numbers than were written"
}

generated() {
    local log sums
    sums=$(cat "$made"/logs/*.evt | cksum)
    for log in "$made"/logs/*.evt; do
        compared "$log"
    done
    same "the logs are as they were" "$sums" "$(cat "$made"/logs/*.evt | cksum)"
    same "the refusals that were reached" $'refused 1\nrefused 17\nrefused 18\nrefused 2' "$(sort -u "$made/refusals")"
    echo "evt_program: $(find "$made/logs" -name '*.evt' | wc -l) generated logs, $(grep -c '' "$made/refusals") of them refused in the end"
}

help_due() {
    cat <<'END'
usage: evt_list [--help | --version | FILE..]

Lists the records of event logs of the older form (EVT): a line for each record,
with its number, its written time in seconds from 1970, event id, type, category
and strings. A header that is out of date is repaired from the trailer; the file
is not changed. What is refused is a line with its number.

  FILE       a log; - is standard input
  --help     writes this help
  --version  writes the version

Where there are several, the listing of each begins with the line FILE: .
What cannot be read or written is told on standard error; the exit status is
then 1, and 2 for wrong arguments. The manual page evt_list(1) says what the
numbers mean.
END
}

words() {
    local version
    version=$(sed -n 's/^VERSION = //p' Makefile)
    answers "no word" 2 '' "$usage" "$program"
    answers "--wrong" 2 '' "$usage" "$program" --wrong
    answers "a file and -x" 2 '' "$usage" "$program" "$made/hand/clean.evt" -x
    answers "--version" 0 "evt_list $version" '' "$program" --version
    answers "--version behind a file" 0 "evt_list $version" '' "$program" nofile --version --wrong
    answers "--help, closed output" 1 '' 'evt_list: standard output: Bad file descriptor' sh -c '"$0" --help >&-' "$program"
    answers "--version, full output" 1 '' 'evt_list: standard output: No space left on device' sh -c '"$0" --version >/dev/full' "$program"
    answers "--help" 0 "$(help_due)" '' "$program" --help
}

# In the folder with the logs by hand.
files() {
    local two='2 1000000000 3221225479 4 9' sample
    sample=$(realpath samples/panel.evtx)
    cd "$made/hand" && ln -s loop loop && truncate -s 1T huge && cp fill_of_56.evt ./-x && : >zero || stop "no files can be made"
    dd if=clean.evt of=huge conv=notrunc status=none || stop "no huge file can be made"
    answers "a missing file" 1 '' 'evt_list: nofile: No such file or directory' "$program" nofile
    answers "a folder" 1 '' 'evt_list: .: Is a directory' "$program" .
    answers "a link to itself" 1 '' 'evt_list: loop: Too many levels of symbolic links' "$program" loop
    answers "a file of no bytes" 0 'refused 1' '' "$program" zero
    answers "a device of no bytes" 0 'refused 1' '' "$program" /dev/null
    answers "a device without end" 0 'refused 1' '' "$program" /dev/zero
    answers "a huge file" 0 'refused 1' '' "$program" huge
    answers "an EVTX log" 0 'refused 2' '' "$program" "$sample"
    answers "a file whose name begins with -" 0 "$two"$'\nrefused 18' '' "$program" ./-x
    answers "several files" 0 $'zero:\nrefused 1\n./-x:\n'"$two"$'\nrefused 18\nempty.evt:' '' "$program" zero ./-x empty.evt
    answers "several files, some of them not read" 1 $'nofile:\nzero:\nrefused 1\n.:\nzero:\nrefused 1' \
        $'evt_list: nofile: No such file or directory\nevt_list: .: Is a directory' "$program" nofile zero . zero
    answers "one file twice" 0 $'dirty_without.evt:\nrefused 17\ndirty_without.evt:\nrefused 17' '' "$program" dirty_without.evt dirty_without.evt
    cd "$OLDPWD" || stop "no way back"
}

streams() {
    local log=$made/hand/cursor_beyond.evt lines no_output='evt_list: standard output: Bad file descriptor'
    local full='evt_list: standard output: No space left on device'
    lines=$("$second" <"$log")
    answers "standard input" 0 "$lines" '' sh -c '"$0" - <"$1"' "$program" "$log"
    answers "a pipe" 0 "$lines" '' sh -c 'cat "$1" | "$0" -' "$program" "$log"
    answers "a pipe in two pieces" 0 "$lines" '' sh -c '{ head -c 100 "$1"; sleep 0.2; tail -c +101 "$1"; } | "$0" /dev/stdin' "$program" "$log"
    answers "standard input behind a file" 0 "$log:"$'\n'"$lines"$'\n-:\n'"$lines" '' sh -c '"$0" "$1" - <"$1"' "$program" "$log"
    answers "closed input" 1 '' 'evt_list: standard input: Bad file descriptor' sh -c '"$0" - <&-' "$program"
    answers "closed input behind a file" 1 "$log:"$'\n'"$lines"$'\n-:' 'evt_list: standard input: Bad file descriptor' \
        sh -c '"$0" "$1" - <&-' "$program" "$log"
    answers "closed output" 1 '' "$no_output" sh -c '"$0" "$1" >&-' "$program" "$log"
    answers "closed output, a missing file" 1 '' $'evt_list: nofile: No such file or directory\n'"$no_output" \
        sh -c '"$0" nofile "$1" >&-' "$program" "$log"
    answers "closed output, nothing to write" 0 '' '' sh -c '"$0" "$1" >&-' "$program" "$made/hand/empty.evt"
    answers "full output" 1 '' "$full" sh -c '"$0" "$1" >/dev/full' "$program" "$log"
    answers "full output, a long listing" 1 '' "$full" sh -c '"$0" "$1" nofile >/dev/full' "$program" "$made/logs/longest-00.evt"
    answers "closed errors" 1 '' '' sh -c '"$0" nofile 2>&-' "$program"
    answers "all closed" 1 '' '' sh -c '"$0" "$1" <&- >&- 2>&-' "$program" "$log"
    answers "a pipe that nobody reads" 141 '' '' bash -c '"$0" "$1" | head -c 0; exit "${PIPESTATUS[0]}"' "$program" "$made/logs/longest-00.evt"
}

# The front beside this program and a stand-in for evtx_list, which says how it is called, and tells of a file that is not there.
lay_front() {
    mkdir "$made/front" && cp "$front" "$made/front/evtx" && cp "$program" "$made/front/evt_list" || stop "no front can be made"
    cat >"$made/front/evtx_list" <<'END' && chmod 755 "$made/front/evtx_list" || stop "no stand-in can be made"
#!/bin/sh
echo "evtx_list of $*"
for word; do
    [ "$word" != kill ] || kill -9 $$
    case $word in
        - | -?*) ;;
        *) [ -e "$word" ] || echo "evtx_list: $word: No such file or directory" >&2 ;;
    esac
done
END
}

# front_of SHELL: which program the front calls, as run by that shell, in the folder with the logs by hand. An EVT log is one by its magic alone.
front_of() {
    local shell=$1 evtx=$made/front/evtx two='2 1000000000 3221225479 4 9' one='1 1000000000 3221225479 4 9 a&lt;b  x&#10;y'
    local evt=$two$'\n'$one none='evtx_list: nofile: No such file or directory'
    cd "$made/hand" || stop "no folder $made/hand"
    answers "$shell: an EVT log" 0 "$evt" '' "$shell" "$evtx" list fill.evt
    answers "$shell: several EVT logs" 0 $'fill.evt:\n'"$evt"$'\nmagic_alone:\nrefused 1' '' "$shell" "$evtx" list fill.evt magic_alone
    answers "$shell: other files" 0 'evtx_list of zero magic_cut . /dev/null an other' '' "$shell" "$evtx" list zero magic_cut . /dev/null 'an other'
    answers "$shell: no file" 0 'evtx_list of ' '' "$shell" "$evtx" list
    answers "$shell: standard input" 0 'evtx_list of -' '' "$shell" "$evtx" list -
    answers "$shell: an option behind an EVT log" 0 'evtx_list of fill.evt --help' '' "$shell" "$evtx" list fill.evt --help
    answers "$shell: a missing file" 1 'evtx_list of nofile' "$none" "$shell" "$evtx" list nofile
    answers "$shell: both kinds" 0 $'zero:\nevtx_list of zero\nfill.evt:\n'"$evt"$'\n-:\nevtx_list of -\nan old one:\nrefused 17' '' \
        "$shell" "$evtx" list zero fill.evt - 'an old one'
    answers "$shell: both kinds, a missing file" 1 $'fill.evt:\n'"$evt"$'\nnofile:\nevtx_list of nofile\nfill.evt:\n'"$evt" "$none" \
        "$shell" "$evtx" list fill.evt nofile fill.evt
    # What the shell says of the signal is its own.
    same "$shell: both kinds, a signal" $'fill.evt:\n'"$evt"$'\nkill:\nevtx_list of kill\n137' \
        "$("$shell" "$evtx" list fill.evt kill fill.evt 2>/dev/null; echo $?)"
    answers "$shell: an EVT log, closed output" 1 '' 'evt_list: standard output: Bad file descriptor' sh -c '"$1" "$0" list fill.evt >&-' "$evtx" "$shell"
    answers "$shell: an EVT log, full output" 1 '' 'evt_list: standard output: No space left on device' \
        sh -c '"$1" "$0" list fill.evt fill.evt >/dev/full' "$evtx" "$shell"
    answers "$shell: both kinds, full output" 1 '' 'evtx: standard output cannot be written' sh -c '"$1" "$0" list zero fill.evt >/dev/full' "$evtx" "$shell"
    answers "$shell: both kinds, closed output" 1 '' 'evtx: standard output cannot be written' sh -c '"$1" "$0" list zero fill.evt >&-' "$evtx" "$shell"
    answers "$shell: an EVT log, closed errors" 0 "$evt" '' sh -c '"$1" "$0" list fill.evt 2>&-' "$evtx" "$shell"
    answers "$shell: both kinds, a pipe that nobody reads" 141 '' '' \
        bash -c '"$1" "$0" list zero "$2" zero | head -c 0; exit "${PIPESTATUS[0]}"' "$evtx" "$shell" "$made/logs/longest-00.evt"
    answers "$shell: an EVT log by a descriptor" 0 "$evt" '' sh -c '"$1" "$0" list /dev/fd/4 4<fill.evt' "$evtx" "$shell"
    answers "$shell: an EVT log as standard input" 0 'evtx_list of -' '' sh -c '"$1" "$0" list - <fill.evt' "$evtx" "$shell"
    answers "$shell: a pipe is not looked at" 0 'evtx_list of /dev/stdin' '' sh -c 'cat fill.evt | "$1" "$0" list /dev/stdin' "$evtx" "$shell"
    cd "$OLDPWD" || stop "no way back"
}

front() {
    local shell
    lay_front
    cp "$made/hand/dirty_without.evt" "$made/hand/an old one" && printf 'abcdLfLe' >"$made/hand/magic_alone" && printf 'abcdLfL' >"$made/hand/magic_cut" &&
        echo text >"$made/hand/an other" && : >"$made/hand/kill" || stop "no files can be made"
    for shell in sh bash; do
        front_of "$shell"
    done
    rm "$made/front/evt_list"
    "$made/front/evtx" list "$made/hand/fill.evt" >/dev/null 2>&1
    same "no program for EVT logs" 127 $?
}

build
hand_logs || stop "no logs are made by hand"
by_hand
sample
generated
words
files
streams
front
echo "evt_program: $checks checks, $failed failed"
[ "$failed" -eq 0 ]
