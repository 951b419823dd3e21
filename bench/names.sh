#!/usr/bin/env bash
# How long the library takes to make numbers under names, to find them, to read them, to open their image and to destroy them. It makes a crate of bench/names_bench.rt.in in a
# copy of the repository, with what earlier checks kept, so that no library is proved again, and runs it. The times are of the processor.
set -euo pipefail
cd "$(dirname "$0")/.."
room=$(mktemp -d)
trap 'rm -rf "$room"' EXIT

cp -a crates crates.txt HANDLES "$room"
mkdir -p "$room/crates/names_bench/src"
cp bench/names_bench.rt.in "$room/crates/names_bench/src/main.rt"
echo 'names_bench: raw_region seg_types segment_manager image_check' >> "$room/crates.txt"
cd "$room/crates/names_bench"
rt run 2> "$room/messages" || { cat "$room/messages" >&2; exit 1; }
