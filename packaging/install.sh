#!/usr/bin/env bash
# Installs the files of a list, or removes them again. It is called by make install and make uninstall, which have the list.
#
#     install.sh install|uninstall ROOT PLACE:MODE:SOURCE..
#
# A PLACE is a path below ROOT. Where MODE is the word link, SOURCE is what a symbolic link there holds. Which folders were made for it
# is noted in target/installed-folders: only these are removed, and only if they are empty. Without the note the folders stay.
set -u
note=target/installed-folders

stop() {
    echo "install.sh: $1" >&2
    exit 1
}

# Makes a folder, those above it first.
make_folder() {
    [ ! -d "$1" ] || return 0
    make_folder "$(dirname "$1")"
    mkdir -m 755 "$1" || stop "$1 is not made"
    realpath "$1" >>"$note" || stop "$1 is not noted"
}

# put PLACE MODE SOURCE
put() {
    make_folder "$(dirname "$1")"
    if [ "$2" = link ]; then
        ln -sfn "$3" "$1"
    else
        install -m "$2" "$3" "$1"
    fi || stop "$1 is not installed"
}

# The folders of this ROOT and those above it, the lowest first. The note keeps the folders that are still there.
remove_folders() {
    local folder root
    [ -f "$note" ] || return 0
    root=$(realpath -m "$1")
    LC_ALL=C sort -ru "$note" | while IFS= read -r folder; do
        if [[ $folder/ == "$root"/* || $root/ == "$folder"/* ]]; then
            rmdir "$folder" 2>/dev/null
        fi
        [ ! -d "$folder" ] || echo "$folder"
    done >"$note.left" && mv "$note.left" "$note"
}

[ $# -ge 2 ] || stop "wants install or uninstall, a folder and a list"
act=$1 root=$2
shift 2
for entry; do
    IFS=: read -r place mode source <<<"$entry"
    case $act in
        install) put "$root/$place" "$mode" "$source" ;;
        uninstall) rm -f "$root/$place" || stop "$root/$place is not removed" ;;
        *) stop "$act is neither install nor uninstall" ;;
    esac
done
[ "$act" = install ] || remove_folders "$root"
