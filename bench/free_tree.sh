#!/usr/bin/env bash
# How long the program takes to make anonymous numbers, to list their blocks, and to destroy them in another order. Run it at the top of the
# repository, once `rt run` has built crates/segment/out/segment; it writes into a folder of its own, which it removes.
set -euo pipefail
cd "$(dirname "$0")/.."
program=$PWD/crates/segment/out/segment
room=$(mktemp -d)
trap 'rm -rf "$room"' EXIT

# a block of a number takes 48 bytes, and the first handle is 144
constructs() { awk -v n="$1" 'BEGIN { for (i = 0; i < n; i++) print "construct i64 - " i }'; }
destroys() {
  awk -v n="$1" 'BEGIN {
    srand(1)
    for (i = 0; i < n; i++) at[i] = i
    for (i = n - 1; i > 0; i--) { j = int(rand() * (i + 1)); h = at[i]; at[i] = at[j]; at[j] = h }
    for (i = 0; i < n; i++) print "destroy_ptr #" 144 + 48 * at[i]
  }'
}

timed() { # what, size, script
  local start end
  start=$(date +%s%N)
  "$program" run "$room/bench.seg" --mode create_only --size "$2" < "$3" > "$room/out"
  end=$(date +%s%N)
  rm -f "$room/bench.seg"
  printf '%-40s %8d ms\n' "$1" $(((end - start) / 1000000))
}

for n in 5000 10000 20000 100000; do
  size=$(((144 + 48 * n + 64 + 15) / 16 * 16))
  constructs "$n" > "$room/script"
  timed "$n constructs" "$size" "$room/script"
done
for n in 5000 10000 20000 100000; do
  size=$(((144 + 48 * n + 64 + 15) / 16 * 16))
  { constructs "$n"; destroys "$n"; } > "$room/script"
  timed "$n constructs, destroyed in random order" "$size" "$room/script"
done
for n in 5000 10000 20000 100000; do
  size=$(((144 + 48 * n + 64 + 15) / 16 * 16))
  { constructs "$n"; echo blocks; } > "$room/script"
  timed "$n constructs, and their blocks listed" "$size" "$room/script"
done
