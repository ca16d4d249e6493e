#!/usr/bin/env bash
# Proves the program that lists, carves and indexes, and puts it into target/bin. rt builds a program only to run it, so it says its version once.
set -eu
cd "$(dirname "$0")/.."
(cd crates/evtx_list && rt run -- --version </dev/null)
mkdir -p target/bin
cp crates/evtx_list/out/evtx_list target/bin/
