#!/usr/bin/env bash
# How long a heap takes to make blocks, to look for them by number in another order and to give them back, and links to move. It makes a crate of
# bench/heap_bench.rt.in in a copy of the repository, with what earlier checks kept, so that no library is proved again, and runs it. The times are of
# the processor.
set -euo pipefail
cd "$(dirname "$0")/.."
room=$(mktemp -d)
trap 'rm -rf "$room"' EXIT

mkdir -p "$room/crates/heap_bench/src"
for crate in raw_region offset_link link_tree block_tags best_fit; do
  cp -a "crates/$crate" "$room/crates"
  grep "^$crate:" crates.txt >> "$room/crates.txt"
done
cp HANDLES "$room"
cp bench/heap_bench.rt.in "$room/crates/heap_bench/src/main.rt"
echo 'heap_bench: raw_region offset_link block_tags best_fit' >> "$room/crates.txt"
cd "$room/crates/heap_bench"
rt run 2> "$room/messages" || { cat "$room/messages" >&2; exit 1; }
