#!/usr/bin/env bash
# Says on standard error which crates are proved anew, out of what rt says on standard input. Where that takes long, a line says so every
# 20 s, or as many as are given: the longest proof takes a minute or two. It reads to the end whether standard error takes the lines or
# not, so that rt is not ended by a closed pipe.
#
#     progress.sh [SECONDS]
pause=${1:-20}
begin=$SECONDS
shown=$SECONDS
line=
crate=
anew=0

show() {
    printf '%s\n' "$1" >&2
    shown=$SECONDS
}

# What rt says last of a check is a line of the crate's modules and then one of its verdict. Of modules that are kept none is checked.
while true; do
    IFS= read -r -t 1 part
    status=$?
    line+=$part
    # Above 128 no line has come in time.
    if [ "$status" -le 128 ]; then
        if [[ $line =~ ^crate\ ([^\ ]+):\ modules\ loaded=[0-9]+\ checked=([0-9]+) ]]; then
            crate=${BASH_REMATCH[1]} anew=${BASH_REMATCH[2]}
        elif [[ $line == 'logic=proved '* && $anew -gt 0 ]]; then
            show "make: $crate is proved"
            anew=0
        fi
        line=
        [ "$status" -eq 0 ] || break
    fi
    [ $((SECONDS - shown)) -lt "$pause" ] || show "make: still proving, $((SECONDS - begin)) s so far"
done
exit 0
