#!/usr/bin/env bash
# cpp.sh [ARCHIVE]: how many instructions a call takes from C++ and from C, on an object that the program keeps by its
# handle and on one that it names at each call, and beside them Boost's, where Boost is installed (Debian's
# libboost1.81-dev). Counted by valgrind's callgrind, so the same at each run of one program; the loop round the calls,
# and the comparison of each answer, are some ten of them. A segment has 100 names beside a vector of 1,000 numbers and
# two maps. ARCHIVE is what `rt lib` makes of crates/segment_c; where it is not given it is made, proved. It works in a
# folder of its own, which it removes.
set -euo pipefail
cd "$(dirname "$0")/.."
room=$(mktemp -d -p "${TMPDIR:-/dev/shm}")
trap 'rm -rf "$room"' EXIT
archive=()
[ $# -lt 1 ] || archive=(--archive "$(realpath "$1")")
crates/segment_c/c/build.sh "${archive[@]}" "$room/lib" > "$room/messages" 2>&1 || { cat "$room/messages" >&2; exit 1; }

# counted SIDE: a line WHAT|HOW|INSTRUCTIONS A CALL for each kind of call of that side's program
counted() {
    valgrind --tool=callgrind --callgrind-out-file="$room/$1.out" "$room/$1" "$room/segment" > "$room/messages" 2>&1 ||
        { cat "$room/messages" >&2; exit 1; }
    awk -F '|' '/^desc: Trigger: Client Request: / { sub(/^desc: Trigger: Client Request: /, ""); what = $1 "|" $2; calls = $3 }
        /^summary: / && calls { sub(/^summary: /, ""); printf "%s|%d\n", what, $0 / calls + 0.5; calls = 0 }' \
        $(ls -v "$room/$1.out".*)
}
g++ -std=c++17 -O2 -DNDEBUG -DOURS -I "$room/lib" -o "$room/ours" bench/boost/instructions.cpp "$room/lib/libzaluxhoni.a"
counted ours > "$room/counts"
if echo '#include <boost/interprocess/managed_mapped_file.hpp>' | g++ -std=c++17 -E -x c++ - > "$room/messages" 2>&1; then
    g++ -std=c++17 -O2 -DNDEBUG -o "$room/theirs" bench/boost/instructions.cpp
    counted theirs >> "$room/counts"
else
    echo 'Boost is not installed' >&2
fi
awk -F '|' '!($1 in seen) { order[++n] = $1; seen[$1] = 1 } { took[$1, $2] = $3 }
    END {
        columns = split("C++ by handle|C++ by name|C by handle|C by name|Boost by pointer|Boost by name", column, "|")
        printf "| Instructions of a call |"; for (j = 1; j <= columns; j++) printf " %s |", column[j]
        printf "\n|---|"; for (j = 1; j <= columns; j++) printf "---|"
        print ""
        for (i = 1; i <= n; i++) {
            printf "| %s |", order[i]
            for (j = 1; j <= columns; j++) printf " %s |", took[order[i], column[j]]
            print ""
        } }' "$room/counts"
