#!/bin/sh
usage() {
    cat <<'END'
PREFIX=FOLDER uninstall.sh

Takes away what install.sh installed below FOLDER (/usr/local, or where this file was installed): each file of the
release, and each folder that install.sh made and that is empty now, FOLDER itself too.
Statuses: 0 done; 1 nothing is installed there; 2 usage.
END
}

set -eu
case "${1:-}" in
    '') ;;
    --help) usage; exit 0 ;;
    *) usage >&2; exit 2 ;;
esac
here=$(cd "$(dirname "$0")" && pwd)
case $here in
    */share/g1pause) prefix=${PREFIX:-${here%/share/g1pause}} ;;
    *) prefix=${PREFIX:-/usr/local} ;;
esac
case $prefix in
    /*) ;;
    *) prefix=$PWD/$prefix ;;
esac

list=$prefix/share/g1pause
if [ ! -f "$list/files" ] || [ ! -f "$list/folders" ]; then
    echo "uninstall.sh: nothing is installed below $prefix: name the folder, as in PREFIX=\$HOME/.local" >&2
    exit 1
fi
names=$(cat "$list/files")
folders=$(sort -r "$list/folders")
for name in $names share/g1pause/folders; do
    rm -f "$prefix/$name"
done
for folder in $folders; do
    [ "$folder" = . ] || rmdir "$prefix/$folder" 2>/dev/null || true
done
! printf '%s\n' "$folders" | grep -qx '[.]' || rmdir "$prefix" 2>/dev/null || true
echo "taken away from $prefix"
