#!/usr/bin/env bash
# Compares our listing of one log with the second reader's, byte by byte, and with those of public readers, field by field.
#
#     compare_log.sh LISTING_PROGRAM LOG
#
# Exit status: 0 if all that were asked agree, 1 if one differs or cannot be asked. Public readers that are not installed are left out.
set -u
[ $# -eq 2 ] || { echo "compare_log.sh LISTING_PROGRAM LOG" >&2; exit 1; }
program=$(realpath "$1") && log=$(realpath -e "$2") || exit 1
cd "$(dirname "$0")/.." || exit 1
mkdir -p target/compare
ours=target/compare/ours.listing
second=target/compare/second.listing

"$program" <"$log" | cat >"$ours" || exit 1
cargo run --quiet --release --offline --manifest-path tests/Cargo.toml --config tests/.cargo/config.toml \
    -p second_reader --bin second_list <"$log" >"$second" || { echo "the second reader did not run" >&2; exit 1; }

status=0
lines=$(wc -l <"$ours")
refused=$(grep -c -a -E '^[0-9]+ [0-9]+ refused [0-9]+$' "$ours")
echo "$(basename "$log"): $lines lines, $refused records refused"
if cmp -s "$ours" "$second"; then
    echo "second reader: the same listing"
else
    echo "second reader: DIFFERENT; the first lines that differ (< ours, > the second reader's):"
    diff -a "$ours" "$second" | cut -c 1-300 | head -n 6
    echo "whole listings: $ours and $second"
    status=1
fi

echo "public readers; what differs by convention is counted and named:"
errors=target/compare/outside.errors
python3 tests/outside_readers.py "$program" "$log" 2>"$errors"
case $? in
    0 | 77) ;;
    *) status=1 ;;
esac
if grep -q '^Traceback' "$errors"; then
    echo "a public reader does not read this log, and was not compared: $(tail -n 1 "$errors")"
fi
exit $status
