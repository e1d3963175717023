#!/bin/sh
# judge.sh [DEPTH]: judges OCaml's minor collection, major collection and compaction on the heap of judge.ml.
set -eu
if [ "${1:-}" = --help ]; then
    cat <<'END'
judge.sh [DEPTH]

Judges OCaml's minor collection, major collection and compaction on the heap of judge.ml, with trees of DEPTH levels
(3 to 18, by default 16). It needs ocamlopt (4.13 or later 4.x) and g1heap on the path.
Statuses: 0 done; 1 a collection changed what the program can see, none moved an object, or the change that the program
itself makes at the end is not found; 2 usage, no such ocamlopt or no g1heap.
END
    exit 0
fi
stop() {
    echo "judge.sh: $1" >&2
    exit 2
}
depth=${1:-16}
case $depth in
    [3-9] | 1[0-8]) ;;
    *) stop "DEPTH is '$depth', and has to be from 3 to 18" ;;
esac
command -v ocamlopt > /dev/null || stop "no ocamlopt on the path"
command -v g1heap > /dev/null || stop "no g1heap on the path: tools/build.py --unproved builds out/g1heap"
version=$(ocamlopt -version)
case $version in
    4.1[3-9].*) ;;
    *) stop "ocamlopt is $version, and the walk is for 4.13 and later 4.x" ;;
esac
here=$(cd "$(dirname "$0")" && pwd)
room=$(mktemp -d)
trap 'rm -rf "$room"' EXIT
cp "$here/walk_stubs.c" "$here/judge.ml" "$room"
cd "$room"
ocamlopt -ccopt -O2 -o judge walk_stubs.c judge.ml
./judge "$depth"

# The walk writes the objects in the same order each time, so line N of both files is the same object. Its name is its
# address.
moved() {
    paste -d ' ' "$1.names" "$2.names" | awk '$1 != $2' | wc -l
}
for name in before minor major compact changed; do
    awk '$1 == "object" { print $2 }' "$name.txt" > "$name.names"
done

# Each heap is compared with the one before it: so a collection's moves are its own.
status=0
last=before
moves=0
for name in minor major compact; do
    verdict=$(g1heap same "$last.txt" "$name.txt") || status=1
    count=$(moved "$last" "$name")
    moves=$((moves + count))
    echo "$name: $count objects moved: $verdict"
    last=$name
done
if [ $moves -eq 0 ]; then
    echo "judged nothing: no collection moved an object"
    status=1
fi
found=0
verdict=$(g1heap same before.txt changed.txt) || found=$?
echo "changed: $verdict"
[ $found -eq 1 ] || status=1
exit $status
