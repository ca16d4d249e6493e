#!/usr/bin/env bash
# Holds include/evtx.h to the archive that is there: layout.c, with the names of structs, fields, calls and numbers compared with the
# header's, so that none can be added there without a check of it here.
#
#     run.sh
#
# It ends in the line 'layout of the C interface: N checks, 0 failed' and status 0 exactly if everything held.
set -u
cd "$(dirname "$0")/../.." || exit 1
made=target/c_layout
header=include/evtx.h

stop() {
    echo "layout of the C interface: $1" >&2
    exit 1
}

mkdir -p "$made" || stop "$made cannot be made"
version=$(sed -n 's/^VERSION = //p' Makefile)
[ -n "$version" ] || stop "the Makefile has no version"
gcc -std=c99 -Wall -Wextra -Werror -O2 -Iinclude -DVERSION_DUE="\"$version\"" -o "$made/layout" tests/c_layout/layout.c \
    target/staticlib/libevtx_c.a || stop "layout.c is not built"
gcc -std=c99 -E -dD -x c "$header" >"$made/preprocessed" || stop "$header cannot be read"
python3 tests/c_layout/names.py "$header" <"$made/preprocessed" >"$made/names" || stop "the names in $header cannot be told"
[ -s "$made/names" ] || stop "$header declares nothing"
"$made/layout" --covered >"$made/covered" || stop "layout does not name what it covers"
diff <(sort "$made/names") <(sort "$made/covered") || stop "the header (<) and layout.c (>) have other names"
"$made/layout" || stop "layout ended with status $?"
