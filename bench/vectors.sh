#!/usr/bin/env bash
# How long the program takes to push a million numbers into one vector, to open its image and read each of them again, and to do the same
# to two vectors in turn, whose storage stands in each other's way. Run it at the top of the repository, once `rt run` has built
# crates/segment/out/segment; it writes into a folder of its own, which it removes.
set -euo pipefail
cd "$(dirname "$0")/.."
program=$PWD/crates/segment/out/segment
room=$(mktemp -d)
trap 'rm -rf "$room"' EXIT

timed() { # what, mode, size, script
  local start end
  start=$(date +%s%N)
  "$program" run "$room/bench.seg" --mode "$2" --size "$3" < "$4" > "$room/out"
  end=$(date +%s%N)
  printf '%-60s %8d ms\n' "$1" $(((end - start) / 1000000))
  if grep -q -m 1 '^error' "$room/out"; then
    grep -m 1 '^error' "$room/out" >&2
    exit 1
  fi
}

for n in 125000 250000 500000 1000000; do
  rm -f "$room/bench.seg"
  # the places are doubled, and the block is lengthened in place: 8 bytes for each of at most 1,048,576 numbers
  { echo 'construct vec<i64> v'; awk -v n="$n" 'BEGIN { for (i = 0; i < n; i++) print "push v " i }'; } > "$room/script"
  timed "$n pushes" create_only 16777216 "$room/script"
  awk -v n="$n" 'BEGIN { for (i = 0; i < n; i++) print "get v " i }' > "$room/script"
  timed "the image opened, $n gets" open_only 0 "$room/script"
  # what is read is what was pushed
  awk -v n="$n" '$0 != NR - 1 { wrong = 1 } END { exit wrong || NR != n }' "$room/out" || { echo "other numbers are read" >&2; exit 1; }
  echo 'show v' > "$room/script"
  timed "the image opened, $n numbers shown" open_only 0 "$room/script"
done
for n in 125000 250000 500000 1000000; do
  rm -f "$room/bench.seg"
  { echo 'construct vec<i64> v'; echo 'construct vec<i64> w'; awk -v n="$n" 'BEGIN { for (i = 0; i < n / 2; i++) { print "push v " i; print "push w " i } }'; } > "$room/script"
  timed "$n pushes into two vectors in turn" create_only 67108864 "$room/script"
done
