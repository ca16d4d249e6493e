#!/usr/bin/env bash
# Proves static libraries and copies the archive that rt makes of each, crates/NAME/out/libNAME.a, to target/staticlib.
#
#     static.sh NAME..
set -eu
cd "$(dirname "$0")/.."
mkdir -p target/staticlib
for crate; do
    (cd "crates/$crate" && rt lib)
    cp "crates/$crate/out/lib$crate.a" target/staticlib/
done
