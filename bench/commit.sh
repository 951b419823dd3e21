#!/usr/bin/env bash
# commit.sh [ARCHIVE [FOLDER [COUNT [ROW..]]]]: times changes with their durable commit, beside LMDB and SQLite where they are
# installed (liblmdb-dev, libsqlite3-dev): one number, a number in each of 1,000 pages, and 3,000 bytes in each of them, in
# 32 MiB and in 256 MiB. Each library commits once in turn. Then openings with a log and without, and a transaction of one
# number in 1, 64 and 200 MB, by copy, mapped and durable, kept and undone. FOLDER is on the disk to measure. It prints
# medians of COUNT commits in milliseconds, and of commits the processor's time too. Without a ROW it takes all: one32,
# numbers32, rows32, whole32, the same with 256, opening, steps1, steps64 and steps200.
set -euo pipefail
cd "$(dirname "$0")/.."
archive=${1:-crates/segment_c/out/libsegment_c.a}
folder=${2:-.}
count=${3:-100}
shift $(($# < 3 ? $# : 3))
room=$(mktemp -d -p "$folder")
trap 'rm -rf "$room"' EXIT
crates/segment_c/c/build.sh --archive "$archive" "$room/lib" > /dev/null
flags=()
libraries=()
if echo '#include <lmdb.h>' | gcc -E -x c - > /dev/null 2>&1; then flags+=(-DHAS_LMDB) libraries+=(-llmdb); fi
if echo '#include <sqlite3.h>' | gcc -E -x c - > /dev/null 2>&1; then flags+=(-DHAS_SQLITE) libraries+=(-lsqlite3); fi
gcc -std=gnu11 -O2 -Wall -Wextra "${flags[@]}" -I "$room/lib" -o "$room/commit" bench/commit.c "$room/lib/libzaluxhoni.a" \
    "${libraries[@]}" -pthread
"$room/commit" "$room" "$count" "$@"
