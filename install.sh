#!/bin/sh
usage() {
    cat <<'END'
PREFIX=FOLDER ./install.sh [--unproved]

Installs below FOLDER (/usr/local) what is beside this file. In a release: the programs in bin, the headers and the
library, if there are any, in include and lib, and manual pages, completion for bash, zsh and fish, pages, examples and
the scripts of the pages in share. Before, it compares each file with its sum in SHA256SUMS. In a checkout: the programs
of out/ alone, if tools/build.py proved them, or with --unproved those that tools/build.py --unproved built. Files of an
earlier install that are not in this one are taken away. FOLDER/share/g1pause/uninstall.sh takes away what was
installed.
Statuses: 0 done; 1 a file is not there, is not as it was made, or can't be written; 2 usage.
END
}

refuse() {
    echo "install.sh: $1" >&2
    exit 1
}

set -eu
umask 022 # what root installs is for all users
start=$PWD
cd "$(dirname "$0")"
case "${1:-}" in
    '' | --unproved) built=${1:-} ;;
    --help) usage; exit 0 ;;
    *) usage >&2; exit 2 ;;
esac
case ${PREFIX:=/usr/local} in
    /*) prefix=$PREFIX ;;
    *) prefix=$start/$PREFIX ;;
esac
room=$(mktemp -d)
trap 'rm -rf "$room"' EXIT

# What tools/build.py made, in the order of a release.
if [ ! -f SHA256SUMS ]; then
    stamp=out/PROVED
    if [ ! -f out/PROVED ]; then
        [ -f out/UNPROVED ] || refuse "out/ has no programs: call tools/build.py, or unpack a release"
        [ -n "$built" ] || refuse "out/ has no proved programs: call tools/build.py, or unpack a release, or ./install.sh --unproved"
        stamp=out/UNPROVED
    fi
    mkdir -p "$room/release/bin" "$room/release/share/g1pause"
    sed -n 's/^\(g1[a-z]*\) \([0-9a-f]*\)$/\2  bin\/\1/p' "$stamp" >"$room/release/SHA256SUMS"
    cp out/g1pause out/g1heap "$room/release/bin"
    cp uninstall.sh "$room/release/share/g1pause"
    cd "$room/release"
    find bin share -type f >"$room/files"
    echo share/g1pause/files >>"$room/files"
    mv "$room/files" share/g1pause/files
fi

sha256sum --check --quiet SHA256SUMS || refuse "a file is not as it was made: fetch or build it anew"
[ -d "$prefix" ] || echo . >"$room/made"
if ! mkdir -p "$prefix" 2>/dev/null || [ ! -w "$prefix" ]; then
    refuse "$prefix can't be written: call it as a user who may, or name a folder: PREFIX=\$HOME/.local ./install.sh"
fi

# The folders that are made here are taken away again by uninstall.sh.
make_folder() {
    [ -d "$prefix/$1" ] && return
    case $1 in */*) make_folder "${1%/*}" ;; esac
    mkdir "$prefix/$1"
    printf '%s\n' "$1" >>"$room/folders"
}
touch "$room/folders"
[ ! -f "$room/made" ] || cat "$room/made" >>"$room/folders"
list=$prefix/share/g1pause
[ ! -f "$list/folders" ] || cat "$list/folders" >>"$room/folders"
# The list of an earlier install is written over: its files that are not in this one would be in no list.
[ ! -f "$list/files" ] || grep -vxFf share/g1pause/files "$list/files" | while read -r name; do
    rm -f "$prefix/$name"
done
while read -r name; do
    make_folder "${name%/*}"
    rm -f "$prefix/$name"
    cp "$name" "$prefix/$name"
    touch -r "$name" "$prefix/$name"
done <share/g1pause/files
cp "$room/folders" "$list/folders"
echo "installed below $prefix: $(ls bin | tr '\n' ' ')"
[ "${stamp:-}" != out/UNPROVED ] || echo "nothing is proved of them: tools/build.py proves them"
case ":$PATH:" in
    *":$prefix/bin:"*) ;;
    *) echo "$prefix/bin is not on the path: PATH=$prefix/bin:\$PATH" ;;
esac
