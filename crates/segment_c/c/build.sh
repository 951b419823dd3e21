#!/usr/bin/env bash
# build.sh [--archive FILE] [--packed] [FOLDER]: makes the library for C, C++ and Python in a folder, `out` beside this
# script where none is given: the archive libzaluxhoni.a, the shared object libzaluxhoni.so, the headers, the package for
# Python, and the examples, ready to run. It takes the archive that it is given, or the one that the gate or `rt lib`
# left, where no source of what is in it is younger; otherwise `rt lib` proves what is missing first. With --packed the
# shared object is that of a package: stripped, and its name and its calls have a version. It needs a C and a C++
# compiler for Linux, and binutils; CC, CXX and AR say which.
set -euo pipefail
here=$(cd "$(dirname "$0")" && pwd)
crate=$(dirname "$here")
folder=$here/out
archive=
soname=libzaluxhoni.so calls= flags=()
while [ $# -gt 0 ]; do
    case $1 in
        --archive) archive=$(realpath "$2") && shift 2 ;;
        --packed) soname=libzaluxhoni.so.1 calls=ZALUXHONI_1 flags=(-s -Wl,--build-id=none) && shift ;;
        *) folder=$1 && shift ;;
    esac
done
if [ -z "$archive" ]; then
    archive=$crate/out/libsegment_c.a
    if "$crate/../../.ci/is-stale" segment_c "$archive"; then
        (cd "$crate" && rt lib)
    fi
fi
cc=${CC:-gcc} cxx=${CXX:-g++} ar=${AR:-ar}

mkdir -p "$folder"
cd "$folder"
cp "$here/zaluxhoni.h" "$here/zaluxhoni_files.h" "$here/zaluxhoni_rows.h" "$here/zaluxhoni.hpp" .
mkdir -p zaluxhoni
cp "$here"/zaluxhoni/*.py "$here/zaluxhoni/py.typed" zaluxhoni

"$cc" -std=c11 -O2 -fPIC -Wall -Wextra -fvisibility=hidden -c -o heap.o "$here/heap.c"
"$cc" -std=c11 -O2 -fPIC -Wall -Wextra -c -o files.o "$here/files.c"
"$cc" -std=c11 -O2 -fPIC -Wall -Wextra -c -o rows.o "$here/rows.c"
"$cc" -std=c11 -O2 -fPIC -Wall -Wextra -c -o python.o "$here/python.c"
"$cc" -std=c11 -O2 -fPIC -Wall -Wextra ${ZX_STATE:+"-DZX_STATE=\"$ZX_STATE\""} -c -o state.o "$here/state.c"
cp "$archive" libzaluxhoni.a
chmod u+w libzaluxhoni.a
"$ar" rs libzaluxhoni.a heap.o files.o rows.o python.o state.o

# the shared object shows the calls of the header and nothing else
echo "$calls { global: zx_*; local: *; };" > shown.map
"$cc" -shared -pthread "${flags[@]}" -o "$soname" -Wl,-soname,"$soname" -Wl,--version-script=shown.map \
    -Wl,--whole-archive libzaluxhoni.a -Wl,--no-whole-archive
[ "$soname" = libzaluxhoni.so ] || ln -sf "$soname" libzaluxhoni.so
rm heap.o files.o rows.o python.o state.o shown.map

# what a program links from the archive is for that program alone: a shared object with the archive in it shows none of
# these calls again. A name that is hidden in one of two objects is hidden in what `ld -r` makes of both
mkdir hidden
(cd hidden && "$ar" x ../libzaluxhoni.a)
for member in hidden/*; do
    {
        nm -g --defined-only "$member" | sed -n 's/^[0-9a-f]* [A-Z] \(.*\)$/.globl \1\n.hidden \1/p'
        echo '.section .note.GNU-stack,"",%progbits'
    } | "$cc" -x assembler -c -o hides.o -
    "$cc" -r -nostdlib -o "$member.o" "$member" hides.o
    mv "$member.o" "$member"
done
rm libzaluxhoni.a
"$ar" rcs libzaluxhoni.a hidden/*
rm -r hidden hides.o

for file in "$here"/examples/*; do
    name=$(basename "$file")
    case $name in
        *.c) "$cc" -std=c11 -O2 -Wall -Wextra -I . -o "${name%.c}_c" "$file" libzaluxhoni.a ;;
        *.cpp) "$cxx" -std=c++17 -O2 -Wall -Wextra -I . -o "${name%.cpp}_cpp" "$file" libzaluxhoni.a ;;
        *.py) cp "$file" . ;;
    esac
done
echo "made in $folder: libzaluxhoni.a libzaluxhoni.so zaluxhoni.h zaluxhoni_files.h zaluxhoni_rows.h zaluxhoni.hpp, the"
echo "package zaluxhoni for Python, and examples"
