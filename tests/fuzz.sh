#!/usr/bin/env bash
# Compares both readers for so many minutes on inputs that libFuzzer makes, guided by the edges of the second reader that they reach:
# fuzz.sh MINUTES. The last line says how many inputs were compared and how many edges reached. It stops at the first input on which the
# readers differ, or that ends the program, with status 1 and the name of the file that keeps the input, to be given to
# target/tests/release/fuzz. target/fuzz/inputs keeps the inputs that reached something new, with which the next run begins.
set -u
cd "$(dirname "$0")/.." || exit 1
minutes=${1:?minutes are wanted}
folder=target/fuzz
log=$folder/log

fail() {
    echo "fuzz: $1" >&2
    exit 1
}

# build FOLDER ARGUMENTS..
build() {
    cargo build --quiet --release --offline --manifest-path tests/Cargo.toml --target-dir "$@" || fail "the program cannot be built"
}

[[ $minutes =~ ^[1-9][0-9]*$ ]] || fail "minutes are wanted, 1 or more"
[ -f target/staticlib/libevtx_c.a ] || fail "no archive in target/: run make test"
command -v clang >/dev/null 2>&1 || fail "clang is not installed: libFuzzer comes with it (Debian: clang, libclang-rt-14-dev)"
build target/tests -p fuzz
RUSTC_WRAPPER=$PWD/tests/fuzz/rustc.sh build $folder/build -p fuzz --features libfuzzer --bin guided
rm -rf $folder/seeds
mkdir -p $folder/inputs
target/tests/release/fuzz --seeds $folder/seeds || fail "the inputs to begin with cannot be made"

# A text that is written again and again up to the limits takes seconds, hence the long timeout.
$folder/build/release/guided -max_len=4096 -dict=tests/fuzz/dictionary -max_total_time=$((60 * minutes)) -timeout=300 -print_final_stats=1 \
    -artifact_prefix=$folder/ $folder/inputs $folder/seeds >"$log" 2>&1
status=$?
inputs=$(sed -nE 's/^stat::number_of_executed_units: +([0-9]+)$/\1/p' "$log")
reached=$(sed -nE 's/^#[0-9]+.* cov: ([0-9]+) .*/\1/p' "$log" | tail -n 1)
edges=$(sed -nE 's/.*Loaded 1 modules +\(([0-9]+) inline 8-bit counters\).*/\1/p' "$log")
kept=$(sed -nE 's/.*Test unit written to (.*)$/\1/p' "$log" | tail -n 1)
told="fuzz: ${inputs:-0} inputs compared, edges not yet counted"
[ -n "$reached" ] && told="fuzz: $inputs inputs compared, $reached of $edges edges of the second reader reached"
if [ $status -ne 0 ] || [ -n "$kept" ] || [ "${inputs:-0}" -eq 0 ]; then
    what="stopped with status $status"
    grep -q '^DIFFERENCE' "$log" && what="1 differs"
    sed -nE '/^DIFFERENCE|panicked|ERROR: libFuzzer/,/ #0 /p' "$log" | grep -v ' #0 '
    echo "$told, $what; $log has more; the input is kept in ${kept:-no file}"
    exit 1
fi
echo "$told, none differs"
