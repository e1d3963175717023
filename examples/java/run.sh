#!/bin/sh
# run.sh PROGRAM SIZE W K N [FOLDER]: dumps the heap of a Java program, makes an image of it, and runs pauses.
usage() {
    cat <<'END'
run.sh [--image IMAGE] PROGRAM SIZE W K N [FOLDER]

Compiles examples/java/PROGRAM.java (CacheAndQueue or TreeAndIndex), runs it with SIZE entries (at most 999999), dumps its
heap by jcmd, and makes an image of N regions of W words and cards of K words. Then for three budgets (a twentieth, a fifth
and a half of what all regions together cost) it pauses the image, asks whether the answer is covered, pauses the
answer again by the same budget, and asks each time by g1heap, where it was built, whether both heaps are the same to
the program. Last it makes a page with the pictures of the heap before and after the second budget.

The images and the page are kept in FOLDER, if one is named. With --image it begins at this image, and so it does
with the small one that lies here where there is no java, javac or jcmd. The
programs are those of out/, which tools/build.py --unproved builds, or of the release, or of the variables G1PAUSE and
G1HEAP.
Statuses: 0 done; 1 something was not as it must be; 2 usage.
END
}

set -eu
here=$(cd "$(dirname "$0")" && pwd)
top=$(cd "$here/../.." && pwd)
bin=$top/out
[ -x "$bin/g1pause" ] || [ ! -x "$top/../../../bin/g1pause" ] || bin=$top/../../../bin # in a release
program=${G1PAUSE:-$bin/g1pause}
heap=${G1HEAP:-$bin/g1heap}

image=
case "${1:-}" in
    --help) usage; exit 0 ;;
    --image) image=${2:-}; shift; [ $# -gt 0 ] && shift ;;
esac
if [ -z "$image" ] && { [ $# -lt 5 ] || [ ! -f "$here/$1.java" ]; }; then
    usage >&2
    exit 2
fi
if [ ! -x "$program" ]; then
    echo "run.sh: $program is not there: tools/build.py --unproved builds it, or name it by G1PAUSE=FILE" >&2
    exit 2
fi

stop() {
    echo "run.sh: $1" >&2
    exit 2
}

# What would be refused only after the JVM has run.
check_words() {
    case $2 in
        '' | *[!0-9]* | ???????*) stop "SIZE is '$2', and has to be a number of entries, at most 999999" ;;
    esac
    status=0
    refusal=$("$top/tools/hprof2image.py" /dev/null "$3" "$4" "$5" 2>&1 >/dev/null) || status=$?
    [ $status -ne 2 ] || stop "$(printf '%s' "$refusal" | tail -n 1)"
}

[ -n "$image" ] || check_words "$@"
room=$(mktemp -d)
java_process=
signs_process=
clean() {
    [ -z "$java_process" ] || kill "$java_process" 2>/dev/null || true
    [ -z "$signs_process" ] || kill "$signs_process" 2>/dev/null || true
    rm -rf "$room"
}
trap clean EXIT
trap 'exit 1' INT TERM

# Says every few seconds what is done, and for how long.
signs() {
    begun=$(date +%s)
    while sleep 4 >/dev/null 2>&1; do
        echo "run.sh: $(cat "$room/step"), $(($(date +%s) - begun)) s" >&2
    done
}

step() {
    echo "$1" >"$room/step"
}
step begins
signs &
signs_process=$!

# Runs the program until it says that it is ready, and dumps its heap, dead objects included. Threads have no buffers
# of their own to allocate from, since the JVM would fill what is left of them with dead arrays.
dump() {
    step "java: $1"
    javac -d "$room/classes" "$here/$1.java"
    mkfifo "$room/hold"
    # The file is opened before the pipe. So it is there when `exec` has opened the pipe's other end.
    java -Xmx1g -XX:+UseSerialGC -XX:-UseTLAB -cp "$room/classes" "$1" "$2" >"$room/said" <"$room/hold" &
    java_process=$!
    exec 3>"$room/hold"
    until grep -q ready "$room/said"; do
        kill -0 "$java_process"
        sleep 0.1
    done
    jcmd "$java_process" GC.heap_dump -all "\"$room/heap.hprof\"" >"$room/jcmd"
    exec 3>&-
    wait "$java_process"
    java_process=
}

has_java() {
    command -v java >/dev/null && command -v javac >/dev/null && command -v jcmd >/dev/null
}

make_image() {
    if [ -n "$image" ]; then
        cp "$image" "$room/before.img"
    elif has_java; then
        dump "$1" "$2"
        echo "dump of $1 with $2 entries: $(wc -c <"$room/heap.hprof") bytes"
        step "image of the dump"
        # The counts are printed, the image is kept.
        # shellcheck disable=SC2069
        "$top/tools/hprof2image.py" "$room/heap.hprof" "$3" "$4" "$5" 2>&1 >"$room/before.img"
    else
        echo "there is no java, javac or jcmd here: small.img is a dump of CacheAndQueue with 300 entries"
        gunzip -c "$here/small.img.gz" >"$room/before.img"
    fi
    covered=$("$program" check <"$room/before.img")
    echo "image: $(wc -c <"$room/before.img") bytes, $covered"
}

# Is the heap the same to the program that runs on it?
same() {
    if [ -x "$heap" ]; then
        "$heap" same "$1" "$2"
    else
        echo "g1heap was not built, so before and after are not compared"
    fi
}

regions_free() {
    "$program" show <"$1" | grep -c ' free ' || true
}

# One pause by a budget, judged. Without room for it the heap stays as it was, and that is no error.
pause_once() {
    status=0
    "$program" pause --budget "$3" <"$1" >"$2" 2>"$room/said" || status=$?
    if [ $status -ne 0 ]; then
        sed 's/^/  /' "$room/said"
        rm "$2"
        [ $status -eq 5 ] || exit 1
        return 1
    fi
    covered=$("$program" check <"$2") || exit 1
    echo "  pause: $(regions_free "$1") regions were free, $(regions_free "$2") are; $covered"
    same "$1" "$2" >"$room/said" || status=$?
    sed 's/^/  /' "$room/said"
    [ $status -eq 0 ] || exit 1
}

two_pauses() {
    echo "budget $1"
    step "pauses by the budget $1"
    pause_once "$room/before.img" "$room/after$2.img" "$1" || return 0
    pause_once "$room/after$2.img" "$room/again$2.img" "$1" || return 0
}

make_image "$@"
all=$("$program" choose --budget 18446744073709551615 <"$room/before.img" | sed -n 's/^total //p')
echo "to collect all regions with garbage costs $all"
two_pauses $((all / 20)) 1
two_pauses $((all / 5)) 2
two_pauses $((all / 2)) 3
step "picture"
after=$room/after2.img
[ -s "$after" ] || after= # there was no room for it
"$top/tools/picture.py" --program "$program" --budget $((all / 5)) --html "$room/before.img" ${after:+"$after"} \
    >"$room/pause.html"
shift $(($# < 5 ? $# : 5))
if [ $# -gt 0 ]; then
    mkdir -p "$1"
    cp "$room"/*.img "$room/pause.html" "$1"
    echo "images and pause.html are in $1"
fi
