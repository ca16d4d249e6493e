#!/usr/bin/env bash
# Runs the listing, the carving and the indexing program as a user would, by themselves and by their front as `evtx list`, `evtx carve` and
# `evtx index`, and compares what they write to standard output and standard error, and the front's status, with what is due. That is
# samples/*.listing and samples/*.index, which the second reader wrote, samples/*.carving, which a search by the paper's rule wrote (carving.sh),
# and lines worked out by hand; never what a program wrote before.
#
#     program.sh [PROGRAM [FRONT]]
#
# PROGRAM is the one file of all three programs.
# It ends in the line 'program: N checks, 0 failed' and status 0 exactly if everything held. A missing tool is a failure.
set -u
root=$(realpath "$(dirname "$0")/..") || exit 1
program=$(realpath -e "${1:-$root/target/bin/evtx_list}") && front=$(realpath -e "${2:-$root/packaging/evtx}") || exit 1
cd "$root" || exit 1
# The system's texts are due in English.
export LC_ALL=C made=target/program_test
bin=$PWD/$made/bin
version=$(sed -n 's/^VERSION = //p' Makefile)
checks=0
failed=0

# run_as list|carve|index: which of the programs the functions below run. Its lines of a log x.evtx stand in x.$lines; of an empty input it writes $none.
run_as() {
    as=$1
    name=evtx_$1
    usage="usage: $name [--help | --version | FILE..]"
    closed_input="$name: standard input: Bad file descriptor"
    no_space="$name: standard output: No space left on device"
    no_utf8='Invalid or incomplete multibyte or wide character'
    case $1 in
        list) lines=listing none=$'header refused 1\n' ;;
        carve) lines=carving none= ;;
        index) lines=index none= usage="usage: $name [--help | --version | [NUMBER] [FILE..]]" ;;
    esac
}

stop() {
    echo "program: $1" >&2
    exit 1
}

# by NAME STATUS COMMAND WORD..: the command, with the words as "$@", leaves what is due. Where it does not end in time, its status is 124 or 137.
by() {
    local name=$1 due=$2 command=$3 status found=
    shift 3
    checks=$((checks + 1))
    timeout -k 5 20 env --default-signal=PIPE bash -c "$command" bash "$@" </dev/null >"$made/out" 2>"$made/error"
    status=$?
    [ "$status" -eq "$due" ] || found+=" status $status where $due is due;"
    cmp -s "$made/out" "$made/due_out" || found+=" other standard output (<) than is due (>);"
    cmp -s "$made/error" "$made/due_error" || found+=" other standard error (<) than is due (>);"
    [ -n "$found" ] || return
    diff -a "$made/out" "$made/due_out" | cut -c 1-200 | head -n 4
    diff -a "$made/error" "$made/due_error" | cut -c 1-200 | head -n 4
    echo "FAILED $name:${found%;}"
    failed=$((failed + 1))
}

# holds CASE STATUS ERROR COMMAND: due on standard output is what stands on this function's standard input. STATUS is the front's; the program
# has no status of its own, and ends with 0 where the front ends with 1.
holds() {
    local case=$1 status=$2 error=$3 command=$4
    cat >"$made/due_out"
    printf '%s' "${error:+$error$'\n'}" >"$made/due_error"
    by "$case, $name" $((status == 1 ? 0 : status)) "$command" "$bin/$name"
    by "$case, evtx $as" "$status" "$command" "$bin/evtx" "$as"
}

# says CASE STATUS ERROR COMMAND: as holds, with nothing on standard output.
says() {
    holds "$@" </dev/null
}

# What is listed of each word where there are several: of a word without lines of its own, its line alone.
headed() {
    local log
    for log; do
        echo "$log:"
        [ ! -f "${log%.evtx}.$lines" ] || cat "${log%.evtx}.$lines"
    done
}

# terminal TYPED COMMAND: a command in a terminal, where these characters have been typed. The pipe has no end as long as it is open here: at
# an end script would type a Ctrl-D of its own.
terminal() {
    exec 9<>"$made/typed"
    printf "$1" >&9
    SHELL=$BASH script -qec "$2" /dev/null <&9 | tr -d '\r'
    return "${PIPESTATUS[0]}"
}

# from_terminal TYPED WORD..: the words with standard input alone from a terminal, which shows what is typed.
from_terminal() {
    local typed=$1
    shift
    terminal "$typed" "${*@Q} >&7 2>&6" 7>&1 6>&2 >/dev/null
}

# as_nobody PROGRAM WORD..: in the folder that everyone may enter. Root may read everything; so there the words are run by another user.
as_nobody() {
    local other=()
    [ "$(id -u)" -ne 0 ] || other=(setpriv --reuid=65534 --regid=65534 --clear-groups)
    cd "$open" && "${other[@]}" "$open/${1##*/}" "${@:2}"
}

# The first line of the text that --help writes, and which of the words it then names.
help_of() {
    local status
    "$@" >"$made/help"
    status=$?
    head -n 1 "$made/help"
    sed 1d "$made/help" >"$made/help_rest"
    grep -q -e '--version' "$made/help_rest" && echo version
    grep -q -e 'FILE' "$made/help_rest" && echo file
    grep -qE -e '(^|[^-[:alnum:]])-([^-[:alnum:]]|$)' "$made/help_rest" && echo standard input
    return "$status"
}

# A path of panel.evtx of so many bytes, an odd number.
long_path() {
    printf './%.0s' $(seq $((($1 - 18) / 2)))
    echo '/samples/panel.evtx'
}

set_up() {
    local tool
    for tool in timeout script setpriv cmp diff mkfifo python3; do
        command -v "$tool" >/dev/null || stop "$tool is not installed"
    done
    rm -rf "$made"
    mkdir -p "$bin" && mkfifo "$made/typed" || stop "$made cannot be made"
    install -m 755 "$program" "$bin/evtx_list" && ln -s evtx_list "$bin/evtx_carve" && ln -s evtx_list "$bin/evtx_index" &&
        install -m 755 "$front" "$bin/evtx" || stop "the programs cannot be laid beside their front"
    { cat samples/panel.evtx && for _ in {1..300}; do tail -c +4097 samples/panel.evtx; done; } >"$made/long.evtx" || stop "no long log"
    ln -s ../../samples/panel.evtx "$made/link.evtx" && ln -s loop "$made/loop" && : >"$made/empty.evtx" || stop "no links"
    # Not where TMPDIR says: that may be a folder of root's own.
    open=$(mktemp -d /tmp/program_test.XXXXXX) || stop "no temporary folder can be made"
    trap 'rm -rf "$open" "$made/long.evtx"' EXIT
    chmod 755 "$open" && install -m 755 "$bin"/* "$open" && install -m 644 samples/panel.evtx "$open" || stop "$open takes no files"
    install -m 000 samples/panel.evtx "$open/unreadable.evtx" || stop "$open takes no files"
    export open
    export -f terminal from_terminal as_nobody help_of long_path
}

files() {
    local log
    for log in samples/*.evtx; do
        holds "$log" 0 '' "\"\$@\" $log" <"${log%.evtx}.$lines"
        holds "$log as standard input" 0 '' "\"\$@\" <$log" <"${log%.evtx}.$lines"
    done
    holds 'two files' 0 '' '"$@" samples/panel.evtx samples/windows.evtx' < <(headed samples/panel.evtx samples/windows.evtx)
    holds 'the same file twice' 0 '' '"$@" samples/powercut.evtx samples/powercut.evtx' < <(headed samples/powercut.evtx samples/powercut.evtx)
    holds 'a symbolic link' 0 '' '"$@" $made/link.evtx' <samples/panel.$lines
    holds 'an empty file' 0 '' '"$@" $made/empty.evtx' < <(printf '%s' "$none")
    holds '/dev/null' 0 '' '"$@" /dev/null' < <(printf '%s' "$none")
    holds 'a pipe by its name' 0 '' '"$@" <(cat samples/panel.evtx)' <samples/panel.$lines
    holds 'more files than may be open at a time' 0 '' 'ulimit -n 64; "$@" $(printf "/dev/null %.0s" {1..200})' \
        < <(for _ in {1..200}; do printf '/dev/null:\n%s' "$none"; done)
}

standard_input() {
    holds '-' 0 '' '"$@" - <samples/panel.evtx' <samples/panel.$lines
    holds '- between two files' 0 '' '"$@" samples/panel.evtx - samples/windows.evtx <samples/powercut.evtx' \
        < <(headed samples/panel.evtx; echo -:; cat samples/powercut.$lines; headed samples/windows.evtx)
    holds '- twice' 0 '' '"$@" - - <samples/panel.evtx' < <(echo -:; cat samples/panel.$lines; printf -- '-:\n%s' "$none")
    holds 'a pipe in small pieces' 0 '' '{ for n in {1..100}; do head -c 1500; sleep 0.01; done <samples/panel.evtx; } | "$@"' <samples/panel.$lines
    holds '- from a pipe in small pieces' 0 '' '{ for n in {1..100}; do head -c 1500; sleep 0.01; done <samples/panel.evtx; } | "$@" -' \
        <samples/panel.$lines
    says 'a folder as standard input' 1 "$name: standard input: Is a directory" '"$@" <samples'
    says 'a folder as -' 1 "$name: standard input: Is a directory" '"$@" - <samples'
    says 'closed input' 1 "$closed_input" '"$@" <&-'
    says 'closed input as -' 1 "$closed_input" '"$@" - <&-'
    holds 'closed input and a file' 0 '' '"$@" samples/panel.evtx <&-' <samples/panel.$lines
    holds 'closed input after a file' 1 "$closed_input" '"$@" samples/panel.evtx - <&-' < <(headed samples/panel.evtx -)
    holds 'closed input before a file' 1 "$closed_input" '"$@" - samples/panel.evtx <&-' < <(headed - samples/panel.evtx)
}

options() {
    local word
    holds '--help' 0 '' 'help_of "$@" --help' < <(printf '%s\n' "$usage" version file 'standard input')
    holds '--help after a file' 0 '' 'help_of "$@" samples/panel.evtx --help' < <(printf '%s\n' "$usage" version file 'standard input')
    holds '--help before an unknown option' 0 '' 'help_of "$@" --help -x' < <(printf '%s\n' "$usage" version file 'standard input')
    holds '--version' 0 '' '"$@" --version' < <(echo "$name $version")
    holds '--version after a file' 0 '' '"$@" nofile --version' < <(echo "$name $version")
    for word in -x --list -- --helpp --hel --versio --version= -h --help\ ; do
        says "'$word'" 1 "$usage" "\"\$@\" '$word'"
        says "'$word' after a file" 1 "$usage" "\"\$@\" samples/panel.evtx '$word'"
        says "'$word' before a file" 1 "$usage" "\"\$@\" '$word' samples/panel.evtx"
    done
    says 'an unknown option before --help' 1 "$usage" '"$@" -x --help'
    says 'an option of 5,001 bytes' 1 "$usage" '"$@" "-$(long_path 5000)"'
    says 'an option of 5,001 bytes before --help' 1 "$usage" '"$@" "-$(long_path 5000)" --help'
}

# refused NAME REASON: the one line for a word that is not listed.
refused() {
    says "$1" 1 "$name: $1: $2" "\"\$@\" '$1'"
}

failures() {
    refused nofile 'No such file or directory'
    refused '' 'No such file or directory'
    refused samples 'Is a directory'
    refused / 'Is a directory'
    refused samples/panel.evtx/x 'Not a directory'
    refused "$made/loop" 'Too many levels of symbolic links'
    refused "$(printf 'x%.0s' {1..256})" 'File name too long'
    # A path may have 4,095 bytes. A word of more than 4,096 is not taken in, and not repeated.
    holds 'a name of 4,095 bytes' 0 '' '"$@" "$(long_path 4095)"' <samples/panel.$lines
    says 'a name of 4,096 bytes' 1 "$name: /$(long_path 4095): File name too long" '"$@" "/$(long_path 4095)"'
    says 'a name of 4,097 bytes' 1 "$name: an argument: File name too long" '"$@" "$(long_path 4097)"'
    says 'a name of 99,999 bytes' 1 "$name: an argument: File name too long" '"$@" "$(long_path 99999)"'
    says 'an unreadable file' 1 "$name: unreadable.evtx: Permission denied" 'as_nobody "$@" unreadable.evtx'
    holds 'a readable file beside it' 0 '' 'as_nobody "$@" panel.evtx' <samples/panel.$lines
    holds 'a file that gives an error' 1 "$name: /proc/self/mem: Input/output error" '"$@" /proc/self/mem' < <(printf '%s' "$none")
    holds 'a missing file between two' 1 "$name: nofile: No such file or directory" '"$@" samples/panel.evtx nofile samples/windows.evtx' \
        < <(headed samples/panel.evtx nofile samples/windows.evtx)
    holds 'a folder between two' 1 "$name: samples: Is a directory" '"$@" samples/panel.evtx samples samples/windows.evtx' \
        < <(headed samples/panel.evtx samples samples/windows.evtx)
    holds 'two failures' 1 "$name: nofile: No such file or directory"$'\n'"$name: samples: Is a directory" '"$@" nofile samples' \
        < <(headed nofile samples)
}

# A file works by any name of UTF-8, alone and under a line with the very bytes of its name. An option can be a name with a folder before it.
names() {
    local given
    for given in 'two words' $'two\nlines' $'Br\xc3\xbccke \xe2\x82\xac' './-x' 'ends in :' '$HOME * "' '%s%n'; do
        cp samples/panel.evtx "$made/$given"
        export given
        holds "the name ${given@Q}" 0 '' '"$@" "$made/$given"' <samples/panel.$lines
        holds "the name ${given@Q} and another" 0 '' 'cd $made && "$@" "$given" empty.evtx' \
            < <(printf '%s:\n' "$given"; cat samples/panel.$lines; printf 'empty.evtx:\n%s' "$none")
        rm "$made/$given"
    done
    # A path of the language's library is UTF-8: another name cannot be opened, which is told, and the next file follows.
    given=$'not UTF-8 \xff\xfe'
    cp samples/panel.evtx "$made/$given"
    export given
    says "the name ${given@Q}" 1 "$name: $made/$given: $no_utf8" '"$@" "$made/$given"'
    holds "the name ${given@Q} and another" 1 "$name: $given: $no_utf8" 'cd $made && "$@" "$given" empty.evtx' \
        < <(printf '%s:\nempty.evtx:\n%s' "$given" "$none")
    rm "$made/$given"
    # The indexing program takes such a word for a number (names_of_digits).
    [ "$as" != index ] || return
    cp samples/panel.evtx "$made/40112"
    holds 'the name 40112' 0 '' 'cd $made && "$@" 40112' <samples/panel.$lines
    rm "$made/40112"
}

failing_output() {
    says 'closed output' 1 "$name: standard output: Bad file descriptor" '"$@" samples/panel.evtx >&-'
    says 'closed output, standard input' 1 "$name: standard output: Bad file descriptor" '"$@" <samples/panel.evtx >&-'
    says 'closed output, two files' 1 "$name: standard output: Bad file descriptor" '"$@" samples/panel.evtx samples/windows.evtx >&-'
    says 'a full disk' 1 "$no_space" '"$@" samples/panel.evtx >/dev/full'
    says 'a full disk, two files' 1 "$no_space" '"$@" samples/panel.evtx samples/windows.evtx >/dev/full'
    says 'a full disk, two long files' 1 "$no_space" '"$@" $made/long.evtx $made/long.evtx >/dev/full'
    holds 'output that fails within a listing, two files' 1 "$name: standard output: File too large" \
        '(trap "" XFSZ; ulimit -f 4; "$@" samples/panel.evtx samples/windows.evtx >$made/cut); status=$?; cat $made/cut; exit $status' \
        < <(headed samples/panel.evtx | head -c 4096)
    says 'a full disk, --help' 1 "$no_space" '"$@" --help >/dev/full'
    says 'a full disk, --version' 1 "$no_space" '"$@" --version >/dev/full'
    # Where nobody reads a pipe any more the program ends without a word, and its front with it, as the signal ends other programs. The start of a
    # program of this language ignores that signal, so that it cannot tell whether it was ignored before.
    holds 'the head of a long listing' 141 '' '"$@" $made/long.evtx | head -n 1; exit "${PIPESTATUS[0]}"' < <(head -n 1 "samples/panel.$lines")
    holds 'the head of a long listing, the signal ignored' 141 '' \
        'trap "" PIPE; "$@" $made/long.evtx | head -n 1; exit "${PIPESTATUS[0]}"' < <(head -n 1 "samples/panel.$lines")
}

# The second failure comes when the first one has long been told: a front that no longer takes it would end the program.
failing_error() {
    local where late='{ sleep 0.5; cat samples/panel.evtx; } | "$@" nofile - nofile samples/windows.evtx'
    for where in '2>&-' '2>/dev/full'; do
        holds "$where" 0 '' "\"\$@\" samples/panel.evtx $where" <samples/panel.$lines
        says "$where, a missing file" 1 '' "\"\$@\" nofile $where"
        holds "$where, two failures" 1 '' "$late $where" \
            < <(headed nofile -; cat samples/panel.$lines; headed nofile samples/windows.evtx)
    done
}

# \4 is Ctrl-D. In a line that has begun it only hands over what has been typed of it; so there it takes two.
terminals() {
    says 'a terminal, no argument' 1 "$usage" 'from_terminal "" "$@"'
    holds 'a terminal, - and Ctrl-D' 0 '' 'from_terminal "\4" "$@" -' < <(printf '%s' "$none")
    holds 'a terminal, -, a line and Ctrl-D' 0 '' 'from_terminal "a line\n\4" "$@" -' < <(printf '%s' "$none")
    holds 'a terminal, -, the front of a line and Ctrl-D twice' 0 '' 'from_terminal "a line\4\4" "$@" -' < <(printf '%s' "$none")
    holds 'a terminal, - after a file' 0 '' 'from_terminal "\4" "$@" samples/panel.evtx -' \
        < <(headed samples/panel.evtx -; printf '%s' "$none")
    holds 'a terminal, - twice' 0 '' 'from_terminal "\4\4" "$@" - -' < <(for _ in 1 2; do printf -- '-:\n%s' "$none"; done)
    holds 'a terminal and a file' 0 '' 'from_terminal "" "$@" samples/panel.evtx' <samples/panel.$lines
    holds 'everything on a terminal' 0 '' 'terminal "" "${*@Q} samples/panel.evtx"' <samples/panel.$lines
    holds 'everything on a terminal, a missing file' 1 '' 'terminal "" "${*@Q} nofile"' < <(echo "$name: nofile: No such file or directory")
}

# What a listing is for.
largest_position() {
    holds 'the largest position' 0 '' \
        "\"\$@\" samples/panel.evtx | grep -ao '<Position>[0-9]*' | tr -dc '0-9\n' | sort -n | tail -n 1" < <(echo 65397)
}

# The smallest record, with this number. It has no binary XML: its text is refused with 8.
record() {
    local bit
    printf '**\0\0\x1c\0\0\0'
    for bit in 0 8 16 24 32 40 48 56; do
        printf "\\x$(printf '%02x' $(($1 >> bit & 255)))"
    done
    printf '\0\0\0\0\0\0\0\0\x1c\0\0\0'
}

# A chunk of such records, with these numbers.
chunk() {
    local number
    head -c 512 /dev/zero
    for number; do
        record "$number"
    done
    head -c $((65536 - 512 - 28 * $#)) /dev/zero
}

# Two logs, whose file headers are zero, and what their indexes say: one whose chunks all have an index; and one with chunks that have none, since
# of 5 and 2^48, and of 2^64 - 1 and 5, one is too large for an entry, and 65,535 bytes are left over.
make_logs() {
    { head -c 4096 /dev/zero; chunk 5 9 5; chunk 0 5 281474976710655; } >"$made/numbers.evtx" || return
    { head -c 4096 /dev/zero; chunk 5; chunk 5 281474976710656; chunk 281474976710655 5; chunk -1 5; chunk 5 | head -c 65535; } >"$made/refused.evtx" ||
        return
    cat >"$made/numbers.index" <<'END'
index 0 ok
0 512 28 5 8
0 540 28 9 8
0 568 28 5 8
index 1 ok
1 512 28 0 8
1 540 28 5 8
1 568 28 281474976710655 8
END
    cat >"$made/refused.index" <<'END'
index 0 ok
0 512 28 5 8
index 1 refused 15
index 2 ok
2 512 28 281474976710655 8
2 540 28 5 8
index 3 refused 15
index 4 refused 1
END
}

# What is told of the second log where a number is given, by the name of the input.
without_index() {
    local refused
    for refused in '1 refused 15' '3 refused 15' '4 refused 1'; do
        echo "$name: $1: index $refused"
    done
}

# number WORD LINE..: the lines due of the first log where this number is given.
number() {
    local word=$1 due=
    shift
    [ $# -eq 0 ] || due=$(printf '%s\n' "$@" x)
    holds "NUMBER ${word:0:50} of ${#word} digits" 0 '' "\"\$@\" $word \$made/numbers.evtx" < <(printf '%s' "${due%x}")
}

numbers_given() {
    local fives=('0 512 28 5 8' '0 568 28 5 8' '1 540 28 5 8') zero='1 512 28 0 8' largest='1 568 28 281474976710655 8' word
    for word in 5 05 00000000000000000000000000000005; do
        number "$word" "${fives[@]}"
    done
    number 9 '0 540 28 9 8'
    for word in 0 000 00000000000000000000000000000000; do
        number "$word" "$zero"
    done
    number 281474976710655 "$largest"
    number 0281474976710655 "$largest"
    # Cut to 32, 48, 64 or 128 bits, the numbers of the first line would be 5, and those of the second 0; and those of the third the largest one.
    for word in 4294967301 281474976710661 18446744073709551621 340282366920938463463374607431768211461 \
        4294967296 281474976710656 18446744073709551616 340282366920938463463374607431768211456 \
        562949953421311 18446744073709551615 36893488147419103231 1 8 28 50 55 59 512; do
        number "$word"
    done
    for word in 100 4096; do
        number "$(head -c "$word" /dev/zero | tr '\0' 5)"
        number "$(head -c $((word - 1)) /dev/zero | tr '\0' 0)5" "${fives[@]}"
    done
}

numbers_and_files() {
    local line='1 3846 91 298 0'
    holds 'NUMBER and a sample' 0 '' '"$@" 298 samples/panel.evtx' < <(echo "$line")
    holds 'NUMBER alone, standard input' 0 '' '"$@" 298 <samples/panel.evtx' < <(echo "$line")
    holds 'NUMBER and -' 0 '' '"$@" 298 - <samples/panel.evtx' < <(echo "$line")
    holds 'NUMBER and a pipe in small pieces' 0 '' '{ for n in {1..100}; do head -c 1500; sleep 0.01; done <samples/panel.evtx; } | "$@" 298' \
        < <(echo "$line")
    says 'NUMBER and an empty file' 0 '' '"$@" 0 $made/empty.evtx'
    says 'NUMBER alone, an empty standard input' 0 '' '"$@" 0'
    holds 'NUMBER and two files' 0 '' '"$@" 298 samples/panel.evtx samples/windows.evtx' \
        < <(printf '%s\n' samples/panel.evtx: "$line" samples/windows.evtx:)
    holds 'NUMBER, a file and -' 0 '' '"$@" 298 samples/windows.evtx - <samples/panel.evtx' < <(printf '%s\n' samples/windows.evtx: -: "$line")
    says 'NUMBER and a missing file' 1 "$name: nofile: No such file or directory" '"$@" 298 nofile'
    says 'NUMBER and the empty name' 1 "$name: : No such file or directory" '"$@" 298 ""'
    says 'NUMBER, closed input' 1 "$closed_input" '"$@" 298 <&-'
    holds 'NUMBER, a folder and a file' 1 "$name: samples: Is a directory" '"$@" 298 samples samples/panel.evtx' \
        < <(printf '%s\n' samples: samples/panel.evtx: "$line")
    says 'NUMBER, a full disk' 1 "$no_space" '"$@" 298 samples/panel.evtx >/dev/full'
    says 'NUMBER, a terminal' 1 "$usage" 'from_terminal "" "$@" 298'
    says 'NUMBER, a terminal and -' 0 '' 'from_terminal "\4" "$@" 298 -'
    holds 'NUMBER, a terminal and a file' 0 '' 'from_terminal "" "$@" 298 samples/panel.evtx' < <(echo "$line")
    holds 'NUMBER and --help' 0 '' 'help_of "$@" 298 --help' < <(printf '%s\n' "$usage" version file 'standard input')
    holds 'NUMBER and --version' 0 '' '"$@" 298 --version' < <(echo "$name $version")
    says 'NUMBER and an unknown option' 1 "$usage" '"$@" 298 -x'
    says 'a number with a sign' 1 "$usage" '"$@" -5 samples/panel.evtx'
}

# A file whose name has digits alone is one behind the first word, and with a folder before it.
names_of_digits() {
    local line='1 3846 91 298 0' word
    cp samples/panel.evtx "$made/40112"
    holds 'the file ./40112' 0 '' 'cd $made && "$@" ./40112' <samples/panel.index
    holds 'the file 40112 by its path' 0 '' '"$@" $PWD/$made/40112' <samples/panel.index
    says '40112 alone is a NUMBER' 0 '' 'cd $made && "$@" 40112'
    says '40112 and the file 40112' 0 '' 'cd $made && "$@" 40112 40112'
    holds 'NUMBER and the file 40112' 0 '' 'cd $made && "$@" 298 40112' < <(echo "$line")
    holds 'NUMBER and the file ./40112' 0 '' 'cd $made && "$@" 298 ./40112' < <(echo "$line")
    holds 'the file 40112 after another' 0 '' 'cd $made && "$@" empty.evtx 40112' < <(printf '%s\n' empty.evtx: 40112:; cat samples/panel.index)
    holds 'the file 40112 after -' 0 '' 'cd $made && "$@" - 40112' < <(printf '%s\n' -: 40112:; cat samples/panel.index)
    holds 'NUMBER and two files of digits' 1 "$name: 5: No such file or directory" 'cd $made && "$@" 298 40112 5' \
        < <(printf '%s\n' 40112: "$line" 5:)
    for word in +5 5x x5 5. 5,000 0x5 1e3 ' 5' '5 ' $'5\n' $'\xd9\xa5' 5/ /5 5:; do
        refused "$word" 'No such file or directory'
    done
    refused "$(printf '5%.0s' {1..256})x" 'File name too long'
    says '5,000 digits and a letter' 1 "$name: an argument: File name too long" '"$@" "$(printf "5%.0s" {1..5000})x"'
    rm "$made/40112"
}

# The answer to a number is not whole where a chunk has no index; without a number the lines say so themselves.
chunks_without_index() {
    local where given=$'odd\xff: name' other=$'odd \xc3\xbf: name'
    holds 'all numbers of a log' 0 '' '"$@" $made/numbers.evtx' <"$made/numbers.index"
    holds 'chunks without an index' 0 '' '"$@" $made/refused.evtx' <"$made/refused.index"
    holds 'chunks without an index, standard input' 0 '' '"$@" <$made/refused.evtx' <"$made/refused.index"
    holds 'chunks without an index, two files' 0 '' '"$@" $made/refused.evtx $made/numbers.evtx' < <(headed $made/refused.evtx $made/numbers.evtx)
    holds 'NUMBER, chunks without an index' 1 "$(without_index "$made/refused.evtx")" '"$@" 5 $made/refused.evtx' \
        < <(printf '%s\n' '0 512 28 5 8' '2 540 28 5 8')
    holds 'NUMBER, chunks without an index, standard input' 1 "$(without_index 'standard input')" '"$@" 5 <$made/refused.evtx' \
        < <(printf '%s\n' '0 512 28 5 8' '2 540 28 5 8')
    holds 'the largest number, chunks without an index, -' 1 "$(without_index 'standard input')" '"$@" 281474976710655 - <$made/refused.evtx' \
        < <(echo '2 512 28 281474976710655 8')
    says 'a number that is too large for an entry' 1 "$(without_index "$made/refused.evtx")" '"$@" 281474976710656 $made/refused.evtx'
    says 'a number that is nowhere, chunks without an index' 1 "$(without_index "$made/refused.evtx")" '"$@" 7 $made/refused.evtx'
    holds 'NUMBER, chunks without an index between others' 1 "$(without_index "$made/refused.evtx")" \
        '"$@" 9 $made/numbers.evtx $made/refused.evtx samples/panel.evtx' \
        < <(printf '%s\n' "$made/numbers.evtx:" '0 540 28 9 8' "$made/refused.evtx:" samples/panel.evtx: '0 1367 83 9 0')
    cp "$made/refused.evtx" "$made/$given"
    cp "$made/refused.evtx" "$made/$other"
    export given other
    says 'a number that is nowhere, a name that is not UTF-8' 1 "$name: $given: $no_utf8" 'cd $made && "$@" 7 "$given"'
    says 'a number that is nowhere, an odd name' 1 "$(without_index "$other")" 'cd $made && "$@" 7 "$other"'
    rm "$made/$given" "$made/$other"
    for where in '2>&-' '2>/dev/full'; do
        holds "$where, NUMBER, chunks without an index" 1 '' "\"\$@\" 5 $made/refused.evtx $where" < <(printf '%s\n' '0 512 28 5 8' '2 540 28 5 8')
    done
    # A file header that is cut off, and one byte and all but one of a chunk behind it.
    for where in 4095 4096; do
        says "NUMBER, $where bytes" 0 '' "head -c $where samples/panel.evtx | \"\$@\" 1"
        says "$where bytes" 0 '' "head -c $where samples/panel.evtx | \"\$@\""
    done
    for where in 4097 69631; do
        says "NUMBER, $where bytes" 1 "$name: standard input: index 0 refused 1" "head -c $where samples/panel.evtx | \"\$@\" 1"
        holds "$where bytes" 0 '' "head -c $where samples/panel.evtx | \"\$@\"" < <(echo 'index 0 refused 1')
    done
}

# The lines of the first chunk are there while the second one has not come.
chunk_by_chunk() {
    local due
    due=$(sed '/^index 1 /,$d' samples/panel.index)
    export first=$((${#due} + 1))
    holds 'the lines of a chunk before the next one' 0 '' ': >$made/come; { head -c 69632 samples/panel.evtx
        for n in {1..100}; do [ "$(stat -c %s $made/come)" -lt $first ] || break; sleep 0.1; done
        cp $made/come $made/came; tail -c +69633 samples/panel.evtx; } | "$@" >$made/come; cat $made/came $made/come' \
        < <(echo "$due"; cat samples/panel.index)
}

# breaks_off COUNT WORD..: the words with standard input that has the first bytes of panel.evtx, and then an error in place of an end: a pipe
# that is not closed, whose reads do not wait.
breaks_off() {
    python3 -c 'import fcntl, os, sys
end, begin = os.pipe()
fcntl.fcntl(begin, 1031, 1 << 18)  # F_SETPIPE_SZ
with open("samples/panel.evtx", "rb") as log:
    os.write(begin, log.read(int(sys.argv[1])))
os.set_blocking(end, False)
os.set_inheritable(begin, True)
os.dup2(end, 0)
os.execv(sys.argv[2], sys.argv[2:])' "$@"
}

# What was read is indexed.
broken_inputs() {
    local count again="$name: standard input: Resource temporarily unavailable"
    export -f breaks_off
    for count in 0 4095 4096; do
        says "an input that breaks off after $count bytes" 1 "$again" "breaks_off $count \"\$@\""
    done
    holds 'an input that breaks off in a chunk' 1 "$again" 'breaks_off 80000 "$@"' < <(sed '/^index 1 /,$d' samples/panel.index; echo 'index 1 refused 1')
    holds 'an input that breaks off after a chunk' 1 "$again" 'breaks_off 69632 "$@" -' < <(sed '/^index 1 /,$d' samples/panel.index)
}

# The two chunks of panel.evtx 301 times.
long_index() {
    awk '{ line[NR] = $0 } END { for (turn = 0; turn < 301; turn++) for (n = 1; n <= NR; n++) { $0 = line[n]; $(/^index/ ? 2 : 1) += 2 * turn; print } }' \
        samples/panel.index
}

long_logs() {
    holds 'a long log' 0 '' '"$@" $made/long.evtx' < <(long_index)
    holds 'NUMBER and a long log' 0 '' '"$@" 298 $made/long.evtx' < <(for k in {1..601..2}; do echo "$k 3846 91 298 0"; done)
}

# What an index is for: the logs of a folder that have a record, its text by the listing, and its bytes.
found_record() {
    local text
    text=$(grep -a '^3846 298 ' samples/panel.listing)
    holds 'a record in a folder of logs' 0 "$name: ./powercut.evtx: index 2 refused 1" "cd samples && \"\$@\" 298 ./*.evtx | grep -a -B 1 '^[0-9]'" \
        < <(printf '%s\n' ./panel.evtx: '1 3846 91 298 0' ./powercut.evtx: '1 3846 91 298 0')
    export bin
    holds 'the text of a record that was found' 0 '' 'read -r k offset size number rest < <("$@" 298 samples/panel.evtx)
        "$bin/evtx_list" samples/panel.evtx | sed -n "/^chunk $k /,/^chunk $((k + 1)) /p" | grep -a "^$offset $number "' < <(echo "$text")
    holds 'the bytes of a record that was found' 0 '' 'read -r k offset size rest < <("$@" 298 samples/panel.evtx)
        tail -c +$((4096 + 65536 * k + offset + 1)) samples/panel.evtx | head -c "$size"' < <(tail -c +73479 samples/panel.evtx | head -c 91)
}

# called_as NAME LINES: panel.evtx by the program under another name, which decides what is done; the file is the same one.
called_as() {
    head -n 1 "samples/panel.$2" >"$made/due_out"
    : >"$made/due_error"
    by "called as ${1:0:40}" 0 '(exec -a "$1" "$2" samples/panel.evtx) | head -n 1' "$1" "$bin/evtx_list"
}

# called_by NAME LINES: the names by which the program writes these lines, and some that are not quite one of them.
called_by() {
    local given path
    for given in "$1" "./$1" "/$1" "/a/b/$1" "evtx_list/$1" "evtx_carve/$1" "evtx_index/$1" "//$1" $'a\nb/'"$1" " /$1"; do
        called_as "$given" "$2"
    done
    for given in "my_$1" "_$1" "$1/" "${1}s" "$1/x" "${1/_/-}" "${1^^}" "$1 " "${1#evtx_}" "${1#e}" "${1%?}"; do
        called_as "$given" listing
    done
    # As long as the memory for a name, and longer: that is no path of a file.
    path=$(printf '/%.0s' {1..4086})
    called_as "$path$1" "$2"
    called_as "/$path$1" listing
    cp "samples/panel.$2" "$made/due_out"
    ln "$bin/evtx_list" "$made/$1" || stop "no second name"
    by "a hard link, $1" 0 '"$made/$1" samples/panel.evtx' "$1"
    by "found by PATH, $1" 0 'PATH="$2:$PATH" && "$1" samples/panel.evtx' "$1" "$bin"
    by "a copy, $1" 0 '"$open/$1" samples/panel.evtx' "$1"
}

called() {
    local given
    called_by evtx_carve carving
    called_by evtx_index index
    for given in evtx_list '' / x evtx_carve/evtx_list evtx_index/evtx_list evtx_carveevtx_index evtx_index/evtx_carve_; do
        called_as "$given" listing
    done
    cp samples/panel.listing "$made/due_out"
    ln -s "$bin/evtx_list" "$made/bin/other_name" || stop "no second name"
    by 'a link of another name' 0 '"$made/bin/other_name" samples/panel.evtx'
}

set_up
make_logs || stop "no logs can be made"
for which in list carve index; do
    run_as "$which"
    files
    standard_input
    options
    failures
    names
    failing_output
    failing_error
    terminals
done
numbers_given
numbers_and_files
names_of_digits
chunks_without_index
chunk_by_chunk
broken_inputs
long_logs
found_record
run_as list
largest_position
called
echo "program: $checks checks, $failed failed"
[ "$failed" -eq 0 ]
