#!/usr/bin/env bash
# Compares our listing of EVT logs with the second reader's, byte by byte, and with what evtexport (Debian's libevt-utils) exports of them, record by
# record: number, written time, event id, type, category and strings.
#
#     compare_evt_log.sh LISTING_PROGRAM LOG..
#
# Exit status: 0 if all that were asked agree, 1 if one differs or cannot be asked. evtexport is left out if it is not installed. What differs from
# it by convention is counted and named; of what is damaged it exports what it can, so it is a comparison for sound logs.
set -u
[ $# -ge 2 ] || { echo "compare_evt_log.sh LISTING_PROGRAM LOG.." >&2; exit 1; }
program=$(realpath "$1") && logs=$(realpath -e "${@:2}") || exit 1
mapfile -t logs <<<"$logs"
cd "$(dirname "$0")/.." || exit 1
cargo build --quiet --release --offline --manifest-path tests/Cargo.toml --config tests/.cargo/config.toml -p second_reader --bin second_evt ||
    { echo "the second reader is not built" >&2; exit 1; }
status=0
for log in "${logs[@]}"; do
    if ! cmp -s <("$program" "$log") <(target/tests/release/second_evt <"$log"); then
        echo "$log: second reader: DIFFERENT; the first lines that differ (< ours, > the second reader's):"
        diff -a <("$program" "$log") <(target/tests/release/second_evt <"$log") | cut -c 1-300 | head -n 6
        status=1
    fi
done
[ "$status" -ne 0 ] || echo "second reader: the same listings of ${#logs[@]} logs"
command -v evtexport >/dev/null || { echo "evtexport is not installed, and was not asked" && exit "$status"; }
python3 - "$program" "${logs[@]}" <<'PYTHON' || status=1
import collections
import datetime
import re
import subprocess
import sys

PROGRAM, LOGS = sys.argv[1], sys.argv[2:]
FIELDS = ('Event number', 'Written time', 'Event identifier', 'Event type', 'Event category', 'Number of strings')
ESCAPES = {'&amp;': '&', '&lt;': '<', '&gt;': '>', '&quot;': '"', '&apos;': "'", '&#9;': '\t', '&#10;': '\n', '&#13;': '\r'}
NO_TIME = 1 << 31
conventions = collections.Counter()


def number_of(name, value):
    """A number alone, or in brackets behind its name; a time in seconds."""
    if name != 'Written time':
        return int(re.search(r'(\d+)\)?$', value)[1])
    if value == 'Not set (0)':
        return 0
    time = datetime.datetime.strptime(value, '%b %d, %Y %H:%M:%S UTC')
    return int(time.replace(tzinfo=datetime.timezone.utc).timestamp())


def strings_of(part, count):
    """The strings are written as they are, also with line feeds: each goes on to the next one's line, or to the record's end."""
    fronts = [re.search(rb'^String: %d\t+: ' % k, part, re.M) for k in range(1, count + 1)]
    ends = [front.start() - 1 for front in fronts[1:]] + [len(part.removesuffix(b'\n').removesuffix(b'\n'))]
    return [part[front.end():end].decode('utf-8', 'replace') for front, end in zip(fronts, ends)]


def exported(log):
    """The numbers and the strings of each record that evtexport writes."""
    out = subprocess.run(['evtexport', log], capture_output=True, timeout=300).stdout
    for part in re.split(rb'^(?=Event number\t+: )', out, flags=re.M)[1:]:
        values = [re.search(rb'^%s\t+: (.*)$' % name.encode(), part, re.M) for name in FIELDS]
        if None in values:
            print(f'{log}: evtexport breaks off in a record, as it does at some times from 2^31 on')
            return
        *numbers, count = [number_of(name, value[1].decode()) for name, value in zip(FIELDS, values)]
        yield numbers, strings_of(part, count)


def pattern(text):
    """What evtexport may write for our text: of surrogates it reads pairs wrongly, and one alone takes the next unit with it; a byte order mark at
    a string's front is dropped; what is no XML character is written as it is."""
    due, alone = '', False
    for character in text:
        odd = character == '\ufffd' or character == '\ufeff' or character > '\uffff'
        due += '(?s:.)?' if odd or alone else re.escape(character)
        alone = character == '\ufffd'
    return due


def agree(line, numbers, strings):
    ours, text = line.split(' ')[:5], ' '.join(line.split(' ')[5:])
    text = re.sub('&[#a-z0-9]+;', lambda escape: ESCAPES[escape[0]], text)
    if int(ours[1]) >= NO_TIME:
        conventions['a time from 2^31 on is taken for one before 1970'] += 1
        numbers[1] = int(ours[1])
    found = ' '.join(strings)
    if [int(number) for number in ours] != numbers:
        return False
    if text != found and re.search('[\ufffd\ufeff\U00010000-\U0010ffff]', text):
        conventions['surrogates, byte order marks and what is no XML character'] += 1
        return re.fullmatch(pattern(text), found) is not None
    return text == found


def stops_at_the_end(log, count):
    """Whether so many records of a clean log end where its file does, or where fill words begin."""
    with open(log, 'rb') as file:
        data = file.read()
    at = int.from_bytes(data[16:20], 'little')
    for _ in range(count):
        at += int.from_bytes(data[at:at + 4], 'little')
    return len(data) - 56 < at <= len(data) and data[at:] == b'\x27\0\0\0' * ((len(data) - at) // 4)


def compare(log):
    """How many records agree; None if something differs."""
    ours = subprocess.run([PROGRAM, log], capture_output=True).stdout.decode().removesuffix('\n').split('\n')
    ours, found = [line for line in ours if line], list(exported(log))
    if len(found) < len(ours) and stops_at_the_end(log, len(found)):
        conventions['what stands behind the header is left out where no record is cut by the end of the file'] += len(ours) - len(found)
        ours = ours[:len(found)]
    again = len(found) - len(ours)
    if again > 0 and found[len(ours):] == found[:again]:
        conventions['the first records come again where the trailer ends at the first'] += again
        found = found[:len(ours)]
    if len(ours) != len(found):
        print(f'{log}: evtexport: DIFFERENT: it has {len(found)} records, our listing {len(ours)} lines')
        return None
    for line, (numbers, strings) in zip(ours, found):
        if not agree(line, numbers, strings):
            print(f'{log}: evtexport: DIFFERENT: {numbers} {strings}, our line is {line!r}'[:700])
            return None
    return len(ours)


counts = [compare(log) for log in LOGS]
alike = [count for count in counts if count is not None]
print(f'evtexport: {len(alike)} of {len(LOGS)} logs agree, with {sum(alike)} records')
for convention, count in conventions.items():
    print(f'evtexport, by convention: {convention} ({count} records)')
sys.exit(0 if len(alike) == len(LOGS) else 1)
PYTHON
exit "$status"
