#!/usr/bin/env bash
# Compares both readers over and over, each time on inputs that follow from another seed: soak.sh MINUTES, or once: soak.sh 0 SEED.
# It stops at the first difference, with the seed to give again; the program that found it says where it left the input.
# It compares what stands in target/: the archive, and the listing program.
set -u
cd "$(dirname "$0")" || exit 1
minutes=${1:?minutes are wanted}
given=${2:-}
programs=../target/tests/release
[ -f ../target/staticlib/libevtx_c.a ] && [ -x ../target/bin/evtx_list ] || { echo "soak: no archive or program in target/: run make test" >&2; exit 1; }
cargo build --quiet --release --offline -p compare -p compare_text || exit 1

log=$(mktemp) || exit 1
trap 'rm -f "$log"' EXIT
calls=0
passes=0

# One comparison of all calls but the text, or of texts and listings, by a seed.
pass() {
    "$programs/$1" --seed "$2" >"$log" || { cat "$log"; echo "soak: stopped by seed $2; again: make soak SEED=$2"; exit 1; }
    calls=$((calls + $(sed -nE 's/.* ?\b([0-9]+) answers, no difference$/\1/p' "$log")))
}

end=$(($(date +%s) + 60 * minutes))
while :; do
    seed=${given:-0x$(od -An -N8 -tx8 /dev/urandom | tr -d ' ')}
    pass compare "$seed"
    pass compare_text "$seed"
    passes=$((passes + 1))
    echo "seed $seed agrees; $passes passes, $calls answers so far"
    { [ -n "$given" ] || [ "$(date +%s)" -ge "$end" ]; } && break
done
echo "soak: $passes passes, $calls answers, no difference"
