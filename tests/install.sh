#!/usr/bin/env bash
# Installs into folders under target/, looks at what then stands there, calls the front from its place, and takes everything away again.
# What is due is written here by hand, or is samples/panel.listing, samples/oldpanel.listing or samples/panel.index, which the second reader wrote,
# or samples/panel.carving (carving.sh).
#
#     install.sh
#
# It ends in the line 'install: N checks, 0 failed' and status 0 exactly if everything held. A missing tool is a failure; the man pages
# are looked at if groff is installed.
set -u
cd "$(dirname "$0")/.." || exit 1
mkdir -p target || exit 1
made=$(realpath target)/install
root="$made/a root"
tree="$root/opt/evtx"
evtx="$tree/bin/evtx"
library="$tree/lib/libevtx_c.so.0.6.0"
completions="$tree/share/bash-completion/completions"
usage='usage: evtx_list [--help | --version | FILE..]'
carve_usage='usage: evtx_carve [--help | --version | FILE..]'
index_usage='usage: evtx_index [--help | --version | [NUMBER] [FILE..]]'
front_usage='usage: evtx [--help | --version | help | list [FILE..] | carve [FILE..] | index [NUMBER] [FILE..]]'
listing=$(cat samples/panel.listing)
carving=$(cat samples/panel.carving)
indexing=$(cat samples/panel.index)
evt_listing=$(cat samples/oldpanel.listing)
checks=0
failed=0

stop() {
    echo "install: $1" >&2
    exit 1
}

# same NAME DUE FOUND: two texts are equal.
same() {
    checks=$((checks + 1))
    [ "$2" != "$3" ] || return 0
    diff -a <(echo "$2") <(echo "$3") | cut -c 1-200 | head -n 10
    echo "FAILED $1: < is due, > is there"
    failed=$((failed + 1))
}

# answers NAME STATUS OUT ERRORS COMMAND..: its exit status, and what it writes to standard output and to standard error.
answers() {
    local name=$1 status=$2 out=$3 errors=$4 found
    shift 4
    timeout 20 "$@" >"$made/out" 2>"$made/errors"
    found=$?
    same "$name, exit status" "$status" "$found"
    same "$name, standard output" "$out" "$(cat "$made/out")"
    same "$name, standard error" "$errors" "$(cat "$made/errors")"
}

# Calls make install or make uninstall. What is installed is for everyone to read, whatever the files are that this user makes.
make_target() {
    (umask 077 && make --silent "$1" DESTDIR="$root" PREFIX=/opt/evtx) || stop "make $1 failed"
}

tree_due() {
    cat <<'END'
d 755 bin
d 755 include
d 755 lib
d 755 lib/pkgconfig
d 755 share
d 755 share/bash-completion
d 755 share/bash-completion/completions
d 755 share/man
d 755 share/man/man1
f 644 include/evtx.h
f 644 lib/libevtx_c.a
f 644 lib/libevtx_c.so.0.6.0
f 644 lib/pkgconfig/evtx.pc
f 644 share/bash-completion/completions/evtx
f 644 share/man/man1/evt_list.1
f 644 share/man/man1/evtx.1
f 644 share/man/man1/evtx_carve.1
f 644 share/man/man1/evtx_index.1
f 644 share/man/man1/evtx_list.1
f 755 bin/evt_list
f 755 bin/evtx
f 755 bin/evtx_list
link bin/evtx_carve -> evtx_list
link bin/evtx_index -> evtx_list
link lib/libevtx_c.so -> libevtx_c.so.0
link lib/libevtx_c.so.0 -> libevtx_c.so.0.6.0
link share/bash-completion/completions/evt_list -> evtx
link share/bash-completion/completions/evtx_carve -> evtx
link share/bash-completion/completions/evtx_index -> evtx
link share/bash-completion/completions/evtx_list -> evtx
END
}

calls_due() {
    cat <<'END'
evtx_check_chunk
evtx_check_file_header
evtx_close
evtx_evt_header
evtx_evt_record
evtx_evt_text
evtx_feed
evtx_free_space_offset
evtx_index_add
evtx_index_build
evtx_index_entry
evtx_index_find
evtx_next_in_bytes
evtx_next_in_chunk
evtx_record_fields
evtx_record_stretch
evtx_record_text
evtx_search_bytes
evtx_search_chunk
evtx_size_in_bytes
evtx_size_in_chunk
evtx_text_length
END
}

installed_files() {
    same "the installed files" "$(tree_due)" \
        "$(cd "$tree" && find . -mindepth 1 \( -type l -printf 'link %P -> %l\n' -o -printf '%y %m %P\n' \) | LC_ALL=C sort)"
    same "the link of the soname leads to the library" "$library" "$(realpath "$tree/lib/libevtx_c.so.0")"
    same "the link for the linker leads to the library" "$library" "$(realpath "$tree/lib/libevtx_c.so")"
    same "the soname" 'Library soname: [libevtx_c.so.0]' "$(readelf -d "$library" | grep -o 'Library soname: .*')"
    same "the calls of the shared library" "$(calls_due)" "$(nm -D --defined-only "$library" | awk '{ print $NF }' | LC_ALL=C sort)"
    same "the prefix that pkg-config tells" /opt/evtx "$(PKG_CONFIG_PATH="$tree/lib/pkgconfig" pkg-config --variable=prefix evtx)"
}

versions() {
    same "the version of pkg-config" 0.6.0 "$(PKG_CONFIG_PATH="$tree/lib/pkgconfig" pkg-config --modversion evtx)"
    same "the version of the header" '"0.6.0"' "$(printf '#include <evtx.h>\nEVTX_VERSION\n' | gcc -E -P -I "$tree/include" - | tail -n 1)"
    same "the version of the page evtx.1" '.TH EVTX 1 "" "evtx 0.6.0"' "$(grep '^\.TH' "$tree/share/man/man1/evtx.1")"
    same "the version of the page evtx_list.1" '.TH EVTX_LIST 1 "" "evtx 0.6.0"' "$(grep '^\.TH' "$tree/share/man/man1/evtx_list.1")"
    same "the version of the page evtx_carve.1" '.TH EVTX_CARVE 1 "" "evtx 0.6.0"' "$(grep '^\.TH' "$tree/share/man/man1/evtx_carve.1")"
    same "the version of the page evtx_index.1" '.TH EVTX_INDEX 1 "" "evtx 0.6.0"' "$(grep '^\.TH' "$tree/share/man/man1/evtx_index.1")"
    same "the version of the page evt_list.1" '.TH EVT_LIST 1 "" "evtx 0.6.0"' "$(grep '^\.TH' "$tree/share/man/man1/evt_list.1")"
    answers "evt_list --version" 0 'evt_list 0.6.0' '' "$tree/bin/evt_list" --version
    answers "evtx --version" 0 'evtx 0.6.0' '' "$evtx" --version
    answers "evtx list --version" 0 'evtx_list 0.6.0' '' "$evtx" list --version
    answers "evtx carve --version" 0 'evtx_carve 0.6.0' '' "$evtx" carve --version
    answers "evtx index --version" 0 'evtx_index 0.6.0' '' "$evtx" index --version
}

man_pages() {
    local page
    command -v groff >/dev/null || { echo "install: groff is not installed, and the man pages were not looked at" && return; }
    for page in evtx evtx_list evtx_carve evtx_index evt_list; do
        same "what groff says of $page.1" '' "$(groff -t -man -ww -b -Tutf8 "$tree/share/man/man1/$page.1" 2>&1 >/dev/null)"
    done
}

# completed NAME DUE WORD..: what is offered for the last of the words. That files are offered is told by the option that is set for it.
completed() {
    local name=$1 due=$2
    shift 2
    same "completion of $name" "$due" "$(bash -c '
        compopt() { echo "compopt $*"; }
        . "$0"
        COMP_WORDS=("$@") COMP_CWORD=$(($# - 1))
        $(complete -p "$1" | sed -E "s/^complete -F ([^ ]*) .*/\1/")
        echo "${COMPREPLY[*]}"' "$completions/$1" "$@")"
}

completion() {
    completed "evtx" 'list carve index help --help --version' evtx ''
    completed "evtx l" list evtx l
    completed "evtx c" carve evtx c
    completed "evtx carve --" '--help --version' evtx carve --
    completed "evtx carve sam" 'compopt -o default' evtx carve sam
    completed "evtx_carve --v" --version evtx_carve --v
    completed "evtx_carve sam" 'compopt -o default' evtx_carve sam
    completed "evtx i" index evtx i
    completed "evtx index --" '--help --version' evtx index --
    completed "evtx index sam" 'compopt -o default' evtx index sam
    completed "evtx index 5 sam" 'compopt -o default' evtx index 5 sam
    completed "evtx_index --v" --version evtx_index --v
    completed "evtx_index 5 sam" 'compopt -o default' evtx_index 5 sam
    completed "evtx list --" '--help --version' evtx list --
    completed "evtx list sam" 'compopt -o default' evtx list sam
    completed "evtx help sam" '' evtx help sam
    completed "evt_list --v" --version evt_list --v
    completed "evt_list a sam" 'compopt -o default' evt_list a sam
    completed "evtx_list --v" --version evtx_list --v
    completed "evtx_list a sam" 'compopt -o default' evtx_list a sam
}

front_help() {
    cat <<'END'
usage: evtx [--help | --version | help | list [FILE..] | carve [FILE..] | index [NUMBER] [FILE..]]

Reads Windows XML event logs (EVTX), and lists the older EVT logs too.

  evtx list [FILE..]   lists the records of each FILE, or of standard input (-);
                       evtx list --help says more, of EVT logs evt_list --help
  evtx carve [FILE..]  finds the whole records in bytes of any size and origin;
                       evtx carve --help says more
  evtx index [NUMBER] [FILE..]
                       writes where the records of each FILE stand, or only
                       those with this NUMBER; evtx index --help says more
  evtx help, --help    writes this text
  evtx --version       writes the version

Exit status: 1 if anything was said on standard error, else 0; 2 for wrong
arguments of evtx itself; 128 and the signal's number if a signal ended it.
END
}

list_help() {
    cat <<'END'
usage: evtx_list [--help | --version | FILE..]

Lists Windows XML event logs (EVTX): a line for the file header, one for each
chunk, and one for each record, with its offset in the chunk, its number, and
its text or the number of its refusal.

  FILE       a log; - is standard input, which is also listed without a FILE
  --help     writes this help
  --version  writes the version

Where there are several, the listing of each begins with the line FILE: .
What cannot be read or written is told on standard error. The manual page
evtx_list(1) says what the numbers mean.
END
}

carve_help() {
    cat <<'END'
usage: evtx_carve [--help | --version | FILE..]

Finds the whole records of Windows XML event logs (EVTX) in bytes of any size
and origin, as a disk image or what a power cut left: a line for each record,
with its place in the input and its size, as soon as later bytes cannot undo it.

  FILE       what is searched; - is standard input, which is also searched
             without a FILE
  --help     writes this help
  --version  writes the version

Where there are several, the lines of each begin with the line FILE: .
What cannot be read or written is told on standard error. The manual page
evtx_carve(1) says what a whole record is.
END
}

index_help() {
    cat <<'END'
usage: evtx_index [--help | --version | [NUMBER] [FILE..]]

Builds the index of each chunk of Windows XML event logs (EVTX): a line for each
index, and one for each entry, with the number of the chunk and the record's
offset in it, size and number, and the number of its text's refusal or 0.

  NUMBER     only the entries of records with this number are written
  FILE       a log; - is standard input, which is also read without a FILE
  --help     writes this help
  --version  writes the version

Where there are several, the lines of each begin with the line FILE: .
What cannot be read or written is told on standard error, and so is, where a
NUMBER is given, a chunk that has no index. The manual page evtx_index(1) says
what the numbers mean.
END
}

words_of_the_front() {
    answers "evtx" 2 '' "$front_usage" "$evtx"
    answers "evtx lists" 2 '' 'evtx: lists: no such subcommand; evtx help lists them' "$evtx" lists samples/panel.evtx
    answers "evtx -x" 2 '' 'evtx: -x: no such subcommand; evtx help lists them' "$evtx" -x
    answers "evtx help" 0 "$(front_help)" '' "$evtx" help
    answers "evtx --help" 0 "$(front_help)" '' "$evtx" --help
    answers "evtx list --help" 0 "$(list_help)" '' "$evtx" list --help
    answers "evtx list --wrong" 1 '' "$usage" "$evtx" list --wrong
    answers "evtx carve --help" 0 "$(carve_help)" '' "$evtx" carve --help
    answers "evtx carve --wrong" 1 '' "$carve_usage" "$evtx" carve --wrong
    answers "evtx index --help" 0 "$(index_help)" '' "$evtx" index --help
    answers "evtx index --wrong" 1 '' "$index_usage" "$evtx" index --wrong
    answers "evtx indexes" 2 '' 'evtx: indexes: no such subcommand; evtx help lists them' "$evtx" indexes samples/panel.evtx
    answers "evtx carver" 2 '' 'evtx: carver: no such subcommand; evtx help lists them' "$evtx" carver samples/panel.evtx
}

listings() {
    answers "evtx list" 0 "$listing" '' "$evtx" list samples/panel.evtx
    answers "evtx found by PATH" 0 "$listing" '' env PATH="$tree/bin:$PATH" evtx list samples/panel.evtx
    ln -s "$evtx" "$made/link" && ln -s link "$made/second link" || stop "no links can be made"
    answers "evtx by a symbolic link" 0 "$listing" '' "$made/link" list samples/panel.evtx
    answers "evtx by a link to a link, found by PATH" 0 "$listing" '' env PATH="$made:$PATH" "second link" list samples/panel.evtx
    answers "evtx list of descriptor 4" 0 "$listing" '' sh -c '"$0" list /dev/fd/4 4<samples/panel.evtx' "$evtx"
    answers "evtx list of descriptor 3" 1 '' 'evtx_list: /dev/fd/3: No such file or directory' \
        sh -c '"$0" list /dev/fd/3 3<samples/panel.evtx' "$evtx"
    answers "evtx list of standard input" 0 "$listing" '' sh -c '"$0" list <samples/panel.evtx' "$evtx"
    answers "evtx list of a pipe" 0 "$listing" '' sh -c 'cat samples/panel.evtx | "$0" list -' "$evtx"
    answers "evtx list of a missing file" 1 '' 'evtx_list: nofile: No such file or directory' "$evtx" list nofile
    answers "evtx list of a folder and a log" 1 $'samples:\nsamples/panel.evtx:\n'"$listing" 'evtx_list: samples: Is a directory' \
        "$evtx" list samples samples/panel.evtx
}

# EVT logs, and files of both kinds. tests/evt_program.sh tries the front on more of them, beside a stand-in for evtx_list.
evt_listings() {
    local mixed=$'samples/oldpanel.evt:\n'"$evt_listing"$'\nsamples/panel.evtx:\n'"$listing"
    answers "evtx list of an EVT log" 0 "$evt_listing" '' "$evtx" list samples/oldpanel.evt
    answers "evt_list found by PATH" 0 "$evt_listing" '' env PATH="$tree/bin:$PATH" evt_list samples/oldpanel.evt
    answers "evtx list of an EVT log by a symbolic link" 0 "$evt_listing" '' "$made/link" list samples/oldpanel.evt
    answers "evtx list of both kinds" 0 "$mixed" '' "$evtx" list samples/oldpanel.evt samples/panel.evtx
    answers "evtx list of both kinds and a missing file" 1 "$mixed"$'\nnofile:' 'evtx_list: nofile: No such file or directory' \
        "$evtx" list samples/oldpanel.evt samples/panel.evtx nofile
    answers "evtx list of an EVT log, full output" 1 '' 'evt_list: standard output: No space left on device' \
        sh -c '"$0" list samples/oldpanel.evt >/dev/full' "$evtx"
}

carvings() {
    answers "evtx carve" 0 "$carving" '' "$evtx" carve samples/panel.evtx
    answers "evtx carve found by PATH" 0 "$carving" '' env PATH="$tree/bin:$PATH" evtx carve samples/panel.evtx
    answers "evtx_carve found by PATH" 0 "$carving" '' env PATH="$tree/bin:$PATH" evtx_carve samples/panel.evtx
    answers "evtx carve of a pipe" 0 "$carving" '' sh -c 'cat samples/panel.evtx | "$0" carve -' "$evtx"
    answers "evtx carve of a missing file" 1 '' 'evtx_carve: nofile: No such file or directory' "$evtx" carve nofile
    answers "evtx carve, closed input" 1 '' 'evtx_carve: standard input: Bad file descriptor' sh -c '"$0" carve <&-' "$evtx"
    answers "evtx carve, full output" 1 '' 'evtx_carve: standard output: No space left on device' \
        sh -c '"$0" carve samples/panel.evtx >/dev/full' "$evtx"
}

# powercut.evtx ends in bytes of a third chunk, which has no index: where a number is looked for, the answer is not whole.
indexings() {
    answers "evtx index" 0 "$indexing" '' "$evtx" index samples/panel.evtx
    answers "evtx index found by PATH" 0 "$indexing" '' env PATH="$tree/bin:$PATH" evtx index samples/panel.evtx
    answers "evtx_index found by PATH" 0 "$indexing" '' env PATH="$tree/bin:$PATH" evtx_index samples/panel.evtx
    answers "evtx index of a pipe" 0 "$indexing" '' sh -c 'cat samples/panel.evtx | "$0" index -' "$evtx"
    answers "evtx index of a number" 0 '1 3846 91 298 0' '' "$evtx" index 298 samples/panel.evtx
    answers "evtx index of a number in standard input" 0 '1 3846 91 298 0' '' sh -c '"$0" index 298 <samples/panel.evtx' "$evtx"
    answers "evtx index of a number that is not there" 0 '' '' "$evtx" index 521 samples/panel.evtx
    answers "evtx index of a log that was cut" 0 "$(cat samples/powercut.index)" '' "$evtx" index samples/powercut.evtx
    answers "evtx index of a number in a log that was cut" 1 '1 3846 91 298 0' 'evtx_index: samples/powercut.evtx: index 2 refused 1' \
        "$evtx" index 298 samples/powercut.evtx
    answers "evtx index of a missing file" 1 '' 'evtx_index: nofile: No such file or directory' "$evtx" index nofile
    answers "evtx index, closed input" 1 '' 'evtx_index: standard input: Bad file descriptor' sh -c '"$0" index 298 <&-' "$evtx"
    answers "evtx index, full output" 1 '' 'evtx_index: standard output: No space left on device' \
        sh -c '"$0" index samples/panel.evtx >/dev/full' "$evtx"
}

# broken_streams SHELL: the front as run by that shell, which differ in what becomes of a closed stream beside a pipe.
broken_streams() {
    local shell=$1
    answers "closed input, $shell" 1 '' 'evtx_list: standard input: Bad file descriptor' sh -c '"$1" "$0" list <&-' "$evtx" "$shell"
    answers "closed output, $shell" 1 '' 'evtx_list: standard output: Bad file descriptor' sh -c '"$1" "$0" list samples/panel.evtx >&-' "$evtx" "$shell"
    answers "full output, $shell" 1 '' 'evtx_list: standard output: No space left on device' \
        sh -c '"$1" "$0" list samples/panel.evtx >/dev/full' "$evtx" "$shell"
    answers "closed errors, $shell" 1 '' '' sh -c '"$1" "$0" list nofile 2>&-' "$evtx" "$shell"
    answers "closed errors, nothing to say, $shell" 0 "$listing" '' sh -c '"$1" "$0" list samples/panel.evtx 2>&-' "$evtx" "$shell"
    answers "full errors, $shell" 1 '' '' sh -c '"$1" "$0" list nofile 2>/dev/full' "$evtx" "$shell"
    answers "closed input and errors, $shell" 1 '' '' sh -c '"$1" "$0" list <&- 2>&-' "$evtx" "$shell"
    answers "all closed, $shell" 1 '' '' sh -c '"$1" "$0" list <&- >&- 2>&-' "$evtx" "$shell"
}

# The program sees the terminal that the front was given: it asks for a file in place of reading.
at_terminal() {
    python3 - "$evtx" <<'END'
import pty, subprocess, sys
_, end = pty.openpty()
try:
    done = subprocess.run([sys.argv[1], "list"], stdin=end, capture_output=True, timeout=20)
    print(done.returncode, (done.stdout + done.stderr).decode())
except subprocess.TimeoutExpired:
    print("it waits")
END
}

# The reader of the pipe takes one byte of a listing that is longer than a pipe holds.
closed_pipe() {
    local long=$made/long.evtx status
    { cat samples/panel.evtx && for _ in $(seq 20); do tail -c +4097 samples/panel.evtx; done; } >"$long"
    env --default-signal=PIPE "$evtx" list "$long" 2>"$made/errors" | head -c 1 >/dev/null
    status=${PIPESTATUS[0]}
    same "a closed pipe, exit status" 141 "$status"
    same "a closed pipe, standard error" '' "$(cat "$made/errors")"
}

# What the program says of its first file is there while it still waits for the second.
as_it_comes() {
    local job
    mkfifo "$made/pipe" || stop "no pipe can be made"
    "$evtx" list nofile - <"$made/pipe" >/dev/null 2>"$made/errors" &
    job=$!
    exec 8>"$made/pipe"
    for _ in $(seq 100); do
        [ ! -s "$made/errors" ] || break
        sleep 0.1
    done
    same "standard error as it comes" 'evtx_list: nofile: No such file or directory' "$(cat "$made/errors")"
    exec 8>&-
    wait "$job"
    same "standard error as it comes, exit status" 1 $?
}

# The front beside another program, of the lines given.
stand_in() {
    mkdir -p "$made/front" && cp "$evtx" "$made/front/evtx" || stop "no second front can be made"
    printf '%s\n' '#!/bin/sh' "$@" >"$made/front/evtx_list" && chmod 755 "$made/front/evtx_list"
}

other_programs() {
    stand_in 'kill -9 $$'
    "$made/front/evtx" list >/dev/null 2>&1
    same "a program that a signal ended" 137 $?
    stand_in 'printf "a line without its end" >&2'
    answers "a line without its end" 1 '' 'a line without its end' "$made/front/evtx" list
    stand_in 'for i in $(seq 20000); do echo "$i" >&2; done' 'echo listed'
    answers "more errors than a pipe holds" 1 listed "$(seq 20000)" "$made/front/evtx" list
    answers "more errors than a pipe holds, and a full disk" 1 listed '' sh -c '"$0" list 2>/dev/full' "$made/front/evtx"
    rm "$made/front/evtx_list"
    "$made/front/evtx" list >/dev/null 2>&1
    same "no program" 127 $?
}

left_due() {
    cat <<'END'
.
./opt
./opt/evtx
./opt/evtx/include
./opt/evtx/share
./opt/evtx/share/man
./opt/evtx/share/man/man1
./opt/evtx/share/man/man1/foreign.1
END
}

# A folder that was there before stays, empty or not, and so does what others put there.
uninstalled() {
    make_target uninstall
    same "what is left of an installation" absent "$([ -e "$root" ] && find "$root" || echo absent)"
    mkdir -p "$tree/share/man/man1" "$tree/include" && echo foreign >"$tree/share/man/man1/foreign.1" || stop "$tree cannot be made"
    make_target install
    make_target install
    same "the page of others beside ours" $'evt_list.1\nevtx.1\nevtx_carve.1\nevtx_index.1\nevtx_list.1\nforeign.1' "$(ls "$tree/share/man/man1")"
    make_target uninstall
    same "what is left where others are" "$(left_due)" "$(cd "$root" && find . | LC_ALL=C sort)"
    make_target uninstall
    same "what a second make uninstall leaves" "$(left_due)" "$(cd "$root" && find . | LC_ALL=C sort)"
    same "the page of others" foreign "$(cat "$tree/share/man/man1/foreign.1")"
}

rm -rf "$made" && mkdir -p "$made" || stop "$made cannot be made"
make_target install
installed_files
versions
man_pages
completion
words_of_the_front
listings
evt_listings
carvings
indexings
broken_streams sh
broken_streams bash
same "a terminal as standard input" "1 $usage" "$(at_terminal)"
closed_pipe
as_it_comes
other_programs
uninstalled
rm -rf "$made"
echo "install: $checks checks, $failed failed"
[ "$failed" -eq 0 ]
