#!/usr/bin/env bash
# The program beside Boost.Interprocess's managed_mapped_file on the same scripts: instructions, counted by valgrind's
# callgrind, and seconds of the processor, user and system together, the least of so many runs as RUNS says (7), taken
# in turn. Run it at the top of the repository, once `rt run` has built crates/segment/out/segment, or with the program's
# path in PROGRAM; it needs g++, valgrind and Boost (Debian's libboost1.81-dev), makes Boost's side of
# bench/boost/script.cpp, and writes into a folder of its own, which it removes. Words pick some of the scripts.
set -euo pipefail
cd "$(dirname "$0")/.."
program=${PROGRAM:-$PWD/crates/segment/out/segment}
peer=$PWD/bench/boost/script.cpp
room=$(mktemp -d -p "${TMPDIR:-/dev/shm}")
trap 'rm -rf "$room"' EXIT
cd "$room"
g++ -std=c++17 -O2 -DNDEBUG -o peer "$peer"

# the scripts of so many elements, pairs or objects, in orders of chance; of strings some 20,000 are there at a time, most
# of them of up to 40 bytes and a few of up to 600
chance='function mixed(  i, k, it) {
    for (i = n - 1; i > 0; i--) { k = int(rand() * (i + 1)); it = of[i]; of[i] = of[k]; of[k] = it }
  }
  BEGIN { srand(1); for (i = 0; i < n; i++) of[i] = i; mixed() }'
pushes_and_gets() {
  echo 'construct vec<i64> v'
  awk -v n="$1" "$chance"'BEGIN { for (i = 0; i < n; i++) print "push v", i % 1000
    for (i = 0; i < n * 2 / 5; i++) print "get v", of[i] }'
}
pairs() {
  echo 'construct map<i64,i64> m'
  awk -v n="$1" "$chance"'BEGIN { for (i = 0; i < n; i++) print "put m", 4 * of[i] + of[i] % 4, i
    for (word = 1; word <= 2; word++) {
      mixed()
      for (i = 0; i < n; i++) print word == 1 ? "lookup" : "remove", "m", i % 4 ? 4 * of[i] + of[i] % 4 : 4 * (n + of[i])
    } }'
}
names() {
  awk -v n="$1" "$chance"'BEGIN { for (i = 0; i < n; i++) printf "construct i64 n%06d %d\n", of[i], i
    mixed(); for (i = 0; i < n; i++) printf "find i64 n%06d\n", of[i]
    mixed(); for (i = 0; i < n; i++) printf "destroy n%06d\n", of[i]
    print "num_named" }'
}
strings() {
  awk -v n="$1" 'BEGIN { srand(1); text = sprintf("%600s", ""); gsub(/ /, "x", text); most = n / 8 < 20000 ? n / 8 : 20000
    for (i = 0; i < n; i++) {
      if (live == 0 || rand() < (live < most ? 0.8 : 0.5)) {
        kind = rand(); long = kind < 0.7 ? 1 + int(rand() * 40) : kind < 0.95 ? 41 + int(rand() * 110) : 151 + int(rand() * 450)
        printf "construct string n%06d \"%s\"\n", made, substr(text, 1, long); there[live++] = made++
      } else {
        k = int(rand() * live); printf "destroy n%06d\n", there[k]; there[k] = there[--live]
      }
    }
    print "num_named" }'
}
sizes() { awk -v n="$1" 'BEGIN { for (i = 0; i < n; i++) print "size" }'; }

# of_program FILE, of_peer FILE: a run of the script on a new segment
of_program() { "${before[@]}" "$program" run segment.seg --mode create_only --size 33554432 < "$1"; }
of_peer() { "${before[@]}" ./peer segment.seg 33554432 < "$1"; }

# instructions WHOSE FILE
instructions() {
  local before=(valgrind --tool=callgrind --callgrind-out-file=/dev/null)
  rm -f segment.seg
  "$1" "$2" 2>&1 > "$1.answers" | sed -n 's/.*Collected : *//p'
}

# seconds WHOSE FILE: of one run
seconds() {
  local before=() TIMEFORMAT='%3U %3S'
  rm -f segment.seg
  { time "$1" "$2" > /dev/null; } 2>&1 | awk '{ printf "%.3f\n", $1 + $2 }'
}

echo '| Script | Instructions | of Boost | Ratio | Seconds | of Boost | Ratio |'
echo '|---|---|---|---|---|---|---|'
for kind in ${*:-sizes pushes_and_gets pairs names strings}; do
  case $kind in
    sizes) count=1000000 ;;
    pushes_and_gets) count=1000000 ;;
    names) count=25000 ;;
    *) count=200000 ;;
  esac
  $kind $count > script
  ours=$(instructions of_program script) theirs=$(instructions of_peer script)
  # a handle is a number of the one program's own
  cmp -s <(sed 's/^#[0-9]*/#/' of_program.answers) <(sed 's/^#[0-9]*/#/' of_peer.answers) || echo "the answers to $kind differ" >&2
  for _ in $(seq "${RUNS:-7}"); do seconds of_program script >> ours.$kind; seconds of_peer script >> theirs.$kind; done
  awk -v kind="$kind" -v lines="$(wc -l < script)" -v a="$ours" -v b="$theirs" \
    -v s="$(sort -n ours.$kind | head -n 1)" -v t="$(sort -n theirs.$kind | head -n 1)" 'BEGIN {
      printf "| %s, %d lines | %.0f million | %.0f million | %.2f | %.3f | %.3f | %.2f |\n", kind, lines, a / 1e6, b / 1e6, a / b, s, t, s / t }'
done
