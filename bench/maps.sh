#!/usr/bin/env bash
# How long the program takes to put pairs under random keys into one map, to open its image and look each of them up in another order, to
# show them all, and to remove them. Run it at the top of the repository, once `rt run` has built crates/segment/out/segment; it writes into a
# folder of its own, which it removes.
set -euo pipefail
cd "$(dirname "$0")/.."
program=$PWD/crates/segment/out/segment
room=$(mktemp -d)
trap 'rm -rf "$room"' EXIT

# n keys, no two of them the same, each with its number, in the order of the numbers; and the same lines in another order
keys() {
  awk -v n="$1" 'BEGIN {
    srand(1)
    while (i < n) {
      key = sprintf("%.0f", (rand() - 0.5) * 9007199254740992)
      if (!(key in seen)) { seen[key] = 1; print key, i++ }
    }
  }'
}
mixed() { awk 'BEGIN { srand(2) } { printf "%.9f %s\n", rand(), $0 }' "$1" | sort -n | cut -d ' ' -f 2-; }

timed() { # what, mode, size, script
  local start end
  start=$(date +%s%N)
  "$program" run "$room/bench.seg" --mode "$2" --size "$3" < "$4" > "$room/out"
  end=$(date +%s%N)
  printf '%-60s %8d ms\n' "$1" $(((end - start) / 1000000))
  if grep -q -m 1 '^error' "$room/out"; then
    grep -m 1 '^error' "$room/out" >&2
    exit 1
  fi
}
want() { # what is wanted, beside what was written
  cmp -s "$1" "$room/out" || { echo "other answers than $1" >&2; exit 1; }
}

for n in 25000 50000 100000 200000; do
  rm -f "$room/bench.seg"
  keys "$n" > "$room/keys"
  mixed "$room/keys" > "$room/mixed"
  # a block of a pair takes 48 bytes
  size=$(((144 + 48 + 64 + 48 * n + 15) / 16 * 16))
  { echo 'construct map<i64,i64> m'; awk '{ print "put m", $1, $2 }' "$room/keys"; } > "$room/script"
  { echo '#192'; awk '{ print "true" }' "$room/keys"; } > "$room/wanted"
  timed "$n puts" create_only "$size" "$room/script"
  want "$room/wanted"
  awk '{ print "lookup m", $1 }' "$room/mixed" > "$room/script"
  awk '{ print $2 }' "$room/mixed" > "$room/wanted"
  timed "the image opened, $n look-ups in another order" open_only 0 "$room/script"
  want "$room/wanted"
  echo 'show m' > "$room/script"
  { printf 'map<i64,i64>'; sort -n "$room/keys" | awk '{ printf " %s=%s", $1, $2 }'; echo; } > "$room/wanted"
  timed "the image opened, $n pairs shown" open_only 0 "$room/script"
  want "$room/wanted"
  { awk '{ print "remove m", $1 }' "$room/mixed"; echo 'show m'; } > "$room/script"
  { awk '{ print "true" }' "$room/mixed"; echo 'map<i64,i64>'; } > "$room/wanted"
  timed "the image opened, $n removes in another order" open_only 0 "$room/script"
  want "$room/wanted"
done
