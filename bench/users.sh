#!/usr/bin/env bash
# users.sh ARCHIVE: what users of C++ and of Python measured first, beside Boost's managed_mapped_file and SQLite:
# nanoseconds a call, the least of three rounds, of the processor; of transactions and caches as time passes. It needs
# g++, Boost (Debian's libboost-dev) and libsqlite3-dev, and sqlite3 in Python. ARCHIVE is what .ci/archive makes. It
# works in a folder of its own, in memory, which it removes. It prints lines SIDE|WHAT|HOW MANY|NANOSECONDS.
set -euo pipefail
cd "$(dirname "$0")/.."
room=$(mktemp -d -p "${TMPDIR:-/dev/shm}")
trap 'rm -rf "$room"' EXIT
crates/segment_c/c/build.sh --archive "$(realpath "$1")" "$room/lib" > "$room/messages" 2>&1 || { cat "$room/messages" >&2; exit 1; }
g++ -std=c++17 -O2 -DNDEBUG -DOURS -DSQLITE -I "$room/lib" -o "$room/ours" bench/boost/users.cpp "$room/lib/libzaluxhoni.a" -lsqlite3
g++ -std=c++17 -O2 -DNDEBUG -o "$room/theirs" bench/boost/users.cpp
"$room/ours" "$room/segment"
"$room/theirs" "$room/segment"
PYTHONPATH=$room/lib python3 bench/beside_sqlite.py | awk -F ' *[|] *' 'NR > 2 {
    print "Python|" $2 "|" $3 "|" $4; print $5 "|" $2 "|" $3 "|" $6 }'
