#!/usr/bin/env bash
# The check of an image, `segment check`, beside two walks over all objects of Boost's managed_mapped_file after the
# same script, 200,000 objects of four kinds in 32 MiB: one that looks over Boost's own structure and spells each name
# and value, and one that adds up what is there, with nothing checked. Both go by name. Of three images the first is a
# mixture in an order of chance: three fifths numbers, a fifth strings, and vectors of eight numbers and maps of four
# pairs. In the second, of more blocks, names rise as objects were made, and so lie in the file; in the third they go on
# by 7919 from object to object. The check is measured a second time with large pages, for which the C library asks where
# GLIBC_TUNABLES says so. Instructions, counted by valgrind's callgrind; and the least of so many runs as RUNS
# says (15), taken in turn: seconds of the processor in the program itself, in the system for it, and as time passes.
# Run it at the top of the repository, once `rt run` has built crates/segment/out/segment, or with the program's path in
# PROGRAM; it needs g++, valgrind and Boost (Debian's libboost1.81-dev), and writes into a folder of its own, which it
# removes.
set -euo pipefail
cd "$(dirname "$0")/.."
program=${PROGRAM:-$PWD/crates/segment/out/segment}
peer=$PWD/bench/boost/script.cpp
room=$(mktemp -d -p "${TMPDIR:-/dev/shm}")
trap 'rm -rf "$room"' EXIT
cd "$room"
g++ -std=c++17 -O2 -DNDEBUG -o peer "$peer"

# script STEP: names go on by so many from object to object
script() {
  awk -v step="$1" 'BEGIN { text = "abcdefghijklmnopqrstuvwxyz"
  for (i = 0; i < 200000; i++) {
    name = sprintf("n%06d", (i * step) % 200000)
    if (i % 4 == 0) print "construct i64", name, i
    if (i % 4 == 1) print "construct string", name, "\"" substr(text, 1, i % 26 + 1) "\""
    if (i % 4 == 2) { print "construct vec<i64>", name; for (k = 0; k < 4; k++) print "push", name, i + k }
    if (i % 8 == 3) { print "construct map<i64,i64>", name; for (k = 0; k < 2; k++) print "put", name, k, i }
    if (i % 8 == 7) print "construct i64", name, i } }'
}
# mixed: names in an order of chance
mixed() {
  awk 'BEGIN { srand(1); n = 200000; text = sprintf("%60s", ""); gsub(/ /, "y", text)
  for (i = 0; i < n; i++) order[i] = i
  for (i = n - 1; i > 0; i--) { k = int(rand() * (i + 1)); other = order[i]; order[i] = order[k]; order[k] = other }
  for (i = 0; i < n; i++) {
    name = sprintf("n%06d", order[i]); kind = rand()
    if (kind < 0.6) print "construct i64", name, order[i]
    else if (kind < 0.8) print "construct string", name, "\"" substr(text, 1, int(rand() * 59) + 1) "\""
    else if (kind < 0.95) {
      print "construct vec<i64>", name; for (k = 0; k < 8; k++) print "push", name, int(rand() * 1000)
    } else {
      print "construct map<i64,i64>", name; at = int(rand() * 100)
      for (k = 0; k < 4; k++) print "put", name, (at + 37 * k) % 100, k
    }
  } }'
}
# images WORD..: those of the script that the words make, one of each program
images() {
  rm -f ours.seg theirs.seg
  "$@" > script
  "$program" run ours.seg --mode create_only --size 33554432 < script > ours.answers
  ./peer theirs.seg 33554432 < script > theirs.answers
  if grep -q '^error' ours.answers theirs.answers; then echo 'a line was refused' >&2; exit 1; fi
}

check_ours() { "${before[@]}" "$program" check ours.seg; }
check_ours_in_large_pages() { GLIBC_TUNABLES=glibc.malloc.hugetlb=1 check_ours; }
spell_theirs() { "${before[@]}" ./peer theirs.seg spell; }
add_theirs() { "${before[@]}" ./peer theirs.seg sum; }

# instructions WHOSE
instructions() {
  local before=(valgrind --tool=callgrind --callgrind-out-file=/dev/null)
  "$1" 2>&1 > /dev/null | sed -n 's/.*Collected : *//p'
}

# seconds WHOSE: of one run, those of the program, of the system, and as time passes
seconds() {
  local before=() TIMEFORMAT='%3U %3S %3R'
  { time "$1" > /dev/null; } 2>&1
}

# least COLUMN WHOSE
least() { awk -v column="$1" '{ print $column }' "$2.seconds" | sort -n | head -n 1; }

# table: a row of each
table() {
  rm -f ./*.seconds
  for _ in $(seq "${RUNS:-15}"); do
    for whose in check_ours check_ours_in_large_pages spell_theirs add_theirs; do seconds $whose >> $whose.seconds; done
  done
  echo '| | Instructions | Seconds of the program | of the system | as time passes |'
  echo '|---|---|---|---|---|'
  for whose in check_ours check_ours_in_large_pages spell_theirs add_theirs; do
    awk -v whose="$whose" -v count="$(instructions $whose)" -v own="$(least 1 $whose)" -v kernel="$(least 2 $whose)" \
      -v whole="$(least 3 $whose)" \
      'BEGIN { printf "| %s | %.0f million | %.3f | %.3f | %.3f |\n", whose, count / 1e6, own, kernel, whole }'
  done
}

images mixed
echo "a mixture, names in an order of chance"
echo
table
for step in 1 7919; do
  images script $step
  echo
  echo "names that go on by $step"
  echo
  table
done
