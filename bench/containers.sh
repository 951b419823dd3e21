#!/usr/bin/env bash
# How long the library takes to push a million numbers into one vector and to read them in another order; and to put 200,000 pairs into one map, to
# look their keys up, to go from each key to the next, to open the image and to erase them. It makes a crate of bench/containers_bench.rt.in in a copy of the
# repository, with what earlier checks kept, so that no library is proved again, and runs it. The times are of the processor.
set -euo pipefail
cd "$(dirname "$0")/.."
room=$(mktemp -d)
trap 'rm -rf "$room"' EXIT

cp -a crates crates.txt HANDLES "$room"
mkdir -p "$room/crates/containers_bench/src"
cp bench/containers_bench.rt.in "$room/crates/containers_bench/src/main.rt"
echo 'containers_bench: raw_region seg_types segment_manager image_check' >> "$room/crates.txt"
cd "$room/crates/containers_bench"
rt run 2> "$room/messages" || { cat "$room/messages" >&2; exit 1; }
