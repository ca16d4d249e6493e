#!/usr/bin/env bash
# Proves the C interface and writes target/staticlib/libevtx_c.a. The calls stand in four crates, of which rt makes an archive each: those that need
# no text of a record are proved, and their wrong programs tried, without binary XML. Here they become one archive, evtx_c's.
set -eu -o pipefail
cd "$(dirname "$0")/.."
made=$(mktemp -d)
trap 'rm -rf "$made"' EXIT
for crate in records_for_c lists_c evt_c evtx_c; do
    (cd "crates/$crate" && rt lib)
    (cd "$made" && ar x "$OLDPWD/crates/$crate/out/lib$crate.a")
done
mkdir -p target/staticlib
ar rcs "$made/libevtx_c.a" "$made"/*.o
mv "$made/libevtx_c.a" target/staticlib/
