#!/usr/bin/env bash
# How many instructions the program takes for a line of a script, of six kinds: what a script of twice as many lines takes
# more, by the lines that it has more. Counted by valgrind's callgrind, so the same at each run of one program. Run it at the
# top of the repository, once `rt run` has built crates/segment/out/segment; it writes into a folder of its own, which it removes.
set -euo pipefail
cd "$(dirname "$0")/.."
program=${1:-$PWD/crates/segment/out/segment}
room=$(mktemp -d)
trap 'rm -rf "$room"' EXIT
cd "$room"

# the scripts of so many objects, elements or pairs
size() { seq "$1" | sed 's/.*/size/'; }
pushes_and_gets() {
  echo 'construct vec<i64> v'
  seq "$1" | awk '{ print "push v", $1 }'
  seq 2 5 "$1" | awk '{ print "get v", $1; print "get v", $1 - 2 }'
}
pairs() {
  local word
  echo 'construct map<i64,i64> m'
  for word in put lookup remove; do
    awk -v n="$1" -v word="$word" 'BEGIN { for (i = 0; i < n; i++) print word, "m", (i * 7919) % n, word == "put" ? i : "" }'
  done
}
strings() {
  seq "$1" | awk '{ printf "construct string s%d \"%s\"\n", $1, substr("a text of some forty bytes, more or less", 1, $1 % 40) }'
  seq "$1" | awk '{ printf "destroy s%d\n", $1 }'
}
vectors() {
  seq "$1" | awk '{ printf "construct vec<i64> v%d %d %d %d\n", $1, $1, $1 + 1, $1 + 2 }'
  seq "$1" | awk '{ printf "destroy v%d\n", $1 }'
}
texts() {
  seq "$1" | awk '{ printf "construct vec<string> t%d \"a\" \"bc\"\n", $1 }'
  seq "$1" | awk '{ printf "destroy t%d\n", $1 }'
}

# counted FILE: the instructions of a run of the script
counted() {
  rm -f segment.seg
  valgrind --tool=callgrind --callgrind-out-file=/dev/null "$program" run segment.seg --mode create_only --size 33554432 \
    < "$1" 2>&1 > answers | sed -n 's/.*Collected : *//p'
}

for kind in size pushes_and_gets pairs strings vectors texts; do
  $kind 4000 > once
  $kind 8000 > twice
  lines=$(($(wc -l < twice) - $(wc -l < once)))
  echo "$kind: $((($(counted twice) - $(counted once)) / lines)) instructions a line"
done
