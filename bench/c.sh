#!/usr/bin/env bash
# c.sh [ARCHIVE [PROGRAM]]: calls of a program in C++ on the library, by zaluxhoni.hpp, and the same on Boost's
# managed_mapped_file, where Boost is installed (Debian's libboost1.81-dev): processor nanoseconds a call, the least of
# five rounds. A second table has elements read and written where they stand beside those of a plain array, rows beside
# memcpy, and mapped files beside Boost's and beside the check by PROGRAM: the least of seven rounds of each of five
# processes, in turn, since where the system puts a mapping decides a third of its cost. ARCHIVE is what `rt lib` makes of
# crates/segment_c; where it is not given it is made, proved. It works in a folder of its own, which it removes.
set -euo pipefail
cd "$(dirname "$0")/.."
room=$(mktemp -d -p "${TMPDIR:-/dev/shm}")
trap 'rm -rf "$room"' EXIT
archive=()
[ $# -lt 1 ] || archive=(--archive "$(realpath "$1")")
program=()
[ $# -lt 2 ] || program=("$(realpath "$2")")
crates/segment_c/c/build.sh "${archive[@]}" "$room/lib" > "$room/messages" 2>&1 || { cat "$room/messages" >&2; exit 1; }

g++ -std=c++17 -O2 -DNDEBUG -DOURS -I "$room/lib" -o "$room/ours" bench/boost/calls.cpp "$room/lib/libzaluxhoni.a"
"$room/ours" "$room/segment" > "$room/times"
g++ -std=c++17 -O2 -DNDEBUG -DOURS -I "$room/lib" -o "$room/our_places" bench/boost/places.cpp \
    "$room/lib/libzaluxhoni.a"
if echo '#include <boost/interprocess/managed_mapped_file.hpp>' | g++ -std=c++17 -E -x c++ - > "$room/messages" 2>&1; then
    g++ -std=c++17 -O2 -DNDEBUG -o "$room/theirs" bench/boost/calls.cpp
    "$room/theirs" "$room/segment" >> "$room/times"
    g++ -std=c++17 -O2 -DNDEBUG -o "$room/their_places" bench/boost/places.cpp
else
    echo 'Boost is not installed' >&2
fi
for _ in 1 2 3 4 5; do
    "$room/our_places" "$room/segment" "${program[@]}" >> "$room/places"
    [ ! -x "$room/their_places" ] || "$room/their_places" "$room/segment" >> "$room/places"
done
awk -F '|' '!($2 in calls) { order[++n] = $2; calls[$2] = $3 } { took[$1, $2] = $4 }
    function shown(side, what) { return (side, what) in took ? sprintf("%.0f", took[side, what]) : "" }
    END {
        print "| Calls | How many | Nanoseconds a call | of Boost, by name | of Boost, by pointer |"
        print "|---|---|---|---|---|"
        for (i = 1; i <= n; i++) {
            what = order[i]
            printf "| %s | %d | %s | %s | %s |\n", what, calls[what], shown("ours", what), shown("by name", what), shown("by pointer", what)
        } }' "$room/times"

awk -F '|' '!($2 in steps) { order[++n] = $2; steps[$2] = $3 }
    !(($1, $2) in took) || $4 + 0 < took[$1, $2] + 0 { took[$1, $2] = $4 }
    function shown(side, what) { return (side, what) in took ? sprintf("%.2f", took[side, what]) : "" }
    END {
        print ""
        print "| Steps | How many | Nanoseconds a step | of a plain array, by memcpy | of Boost | of the check |"
        print "|---|---|---|---|---|---|"
        for (i = 1; i <= n; i++) {
            what = order[i]
            printf "| %s | %d | %s | %s |", what, steps[what], shown("ours", what), shown("plain", what)
            printf " %s | %s |\n", shown("Boost", what), shown("check", what)
        } }' "$room/places"
