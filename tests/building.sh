#!/usr/bin/env bash
# What make shows while it builds, and how it then calls the programs, with a stand-in for rt in a folder outside the repository, where rt ci
# would refuse its crates. What is due is written here by hand.
#
#     building.sh
#
# It ends in the line 'building: N checks, 0 failed' and status 0 exactly if everything held.
set -u
cd "$(dirname "$0")/.." || exit 1
made=$(mktemp -d) || exit 1
trap 'rm -rf "$made"' EXIT
first='make: the proofs are made first, which takes some minutes the first time'
checks=0
failed=0

stop() {
    echo "building: $1" >&2
    exit 1
}

# same NAME DUE FOUND: two texts are equal.
same() {
    checks=$((checks + 1))
    [ "$2" != "$3" ] || return 0
    diff -a <(echo "$2") <(echo "$3") | cut -c 1-200 | head -n 10
    echo "FAILED $1: < is due, > is there"
    failed=$((failed + 1))
}

# A repository of two crates whose rt proves the first one, and the second one unless there is a file `fails` at the top. A line of rt has no
# line feed at its end, as where it is ended.
lay_out() {
    mkdir -p "$made/bin" "$made/tree/crates/a/src" "$made/tree/crates/evtx_list/src" "$made/tree/packaging" &&
        : >"$made/tree/crates/a/src/lib.rt" && cp Makefile "$made/tree/" &&
        cp packaging/progress.sh packaging/program.sh "$made/tree/packaging/" && echo 'a:' >"$made/tree/crates.txt" || return
    cat >"$made/bin/rt" <<'END' && chmod +x "$made/bin/rt"
#!/bin/sh
echo 'fn a::f: proved'
echo 'crate a: modules loaded=0 checked=3'
echo 'logic=proved functions=1'
echo 'crate b: modules loaded=3 checked=0'
echo 'logic=proved functions=1'
if [ -e ../../fails ]; then
    echo 'crate c: modules loaded=0 checked=3'
    echo 'logic=not-proved'
    exit 1
fi
mkdir -p out
printf '#!/bin/sh\necho "${0##*/} of $*"\n' >out/evtx_list
chmod +x out/evtx_list
echo 'crate c: modules loaded=1 checked=2'
printf 'logic=proved functions=1'
END
}

# answers NAME STATUS OUT ERRORS COMMAND..: in that repository.
answers() {
    local name=$1 status=$2 out=$3 errors=$4 found
    shift 4
    (cd "$made/tree" && PATH=$made/bin:$PATH timeout 60 "$@" >"$made/out" 2>"$made/errors")
    found=$?
    same "$name, exit status" "$status" "$found"
    same "$name, standard output" "$out" "$(cat "$made/out")"
    same "$name, standard error" "$errors" "$(grep -v '^make: \*\*\*' "$made/errors")"
}

slowly() {
    echo 'crate a: modules loaded=0 checked=3'
    echo 'logic=proved functions=1'
    sleep 3
    echo 'crate b: modules loaded=0 checked=3'
    echo 'logic=proved functions=1'
}

lay_out || stop "$made cannot be laid out"
: >"$made/tree/fails"
answers "a proof that fails" 2 '' "$first"$'\nmake: a is proved\nfn a::f: proved\ncrate a: modules loaded=0 checked=3
logic=proved functions=1\ncrate b: modules loaded=3 checked=0\nlogic=proved functions=1\ncrate c: modules loaded=0 checked=3
logic=not-proved' make list LOG=x
rm "$made/tree/fails"
answers "make list" 0 'evtx_list of x' "$first"$'\nmake: a is proved\nmake: c is proved' make list LOG=x
answers "make list once more" 0 'evtx_list of x' '' make list LOG=x
same "the names of the program" $'evtx_carve -> evtx_list\nevtx_index -> evtx_list\nevtx_list' \
    "$(cd "$made/tree/target/bin" && find . -type l -printf '%P -> %l\n' -o -type f -printf '%P\n' | LC_ALL=C sort)"
answers "make carve" 0 'evtx_carve of x' '' make carve LOG=x
answers "make index" 0 'evtx_index of x y' '' make index LOG='x y'
answers "make index, a number" 0 'evtx_index of 7 samples/panel.evtx' '' make index NUMBER=7
same "all that rt said is in the log" 7 "$(grep -c '' "$made/tree/target/program.log")"
# Whether a second pause ends before the last line comes is by chance.
same "a long proof" $'make: a is proved\nmake: still proving\nmake: b is proved' \
    "$(slowly | bash packaging/progress.sh 2 2>&1 | sed 's/proving, [0-9]* s so far/proving/' | uniq)"
same "no word of a long proof where none is" $'make: a is proved\nmake: b is proved' "$(slowly | bash packaging/progress.sh 2>&1)"
same "a closed standard error" 0 "$({ slowly | bash packaging/progress.sh 2>&-; echo "${PIPESTATUS[0]}"; } 2>&1)"
echo "building: $checks checks, $failed failed"
[ "$failed" -eq 0 ]
