#!/usr/bin/env bash
# How the costs of the program grow with the number of names, gaps, pairs, blocks and bytes: scripts that become twice
# as long, and beside them Boost's managed_mapped_file, where g++ and Boost are installed (Debian's libboost1.81-dev).
# Of each script it prints the instructions of a line, counted by valgrind's callgrind, without those of a script of
# no lines; and seconds of the processor, user and system together, the least of three runs. Behind them, over segments
# of 10,000 objects to ten times as many up to 10 to the power of DECADES (7), what each command of the program costs an
# object, without what it costs for one object: instructions up to COUNTED objects (100,000), and nanoseconds of the
# processor, the least of three runs. The last column is how many times the cost an object is that of the row before, by
# instructions where both rows have them. Run it at the top of the repository, once `rt run` has built
# crates/segment/out/segment, or with the program's path in PROGRAM; it writes into a folder of its own, which it
# removes. Words pick some of the scripts and commands.
set -euo pipefail
cd "$(dirname "$0")/.."
program=${PROGRAM:-$PWD/crates/segment/out/segment}
peer=$PWD/bench/boost/script.cpp
room=$(mktemp -d -p "${TMPDIR:-/dev/shm}")
trap 'rm -rf "$room"' EXIT
cd "$room"
g++ -std=c++17 -O2 -DNDEBUG -o peer "$peer" 2> messages || rm -f peer

# names made in an order that jumps about, and destroyed in another one: n is no multiple of the two primes
names() {
  awk -v n="$1" 'BEGIN { for (i = 0; i < n; i++) printf "construct i64 n%07d %d\n", (i * 7919) % n, i
    for (i = 0; i < n; i++) printf "destroy n%07d\n", (i * 1299709) % n }'
}
# strings of up to 150 bytes under rising names, of which an eighth is alive at a time: the others leave gaps
gaps() {
  awk -v n="$1" 'BEGIN { text = sprintf("%200s", ""); gsub(/ /, "x", text); live = int(n / 8)
    for (i = 0; i < n; i++) {
      printf "construct string n%07d \"%s\"\n", i, substr(text, 1, (i * 7919) % 150 + 1)
      if (i >= live) printf "destroy n%07d\n", i - live } }'
}
# pairs of one map, put, looked up and removed
pairs() {
  local word
  echo 'construct map<i64,i64> m'
  for word in put lookup remove; do
    awk -v n="$1" -v word="$word" 'BEGIN { for (i = 0; i < n; i++) print word, "m", (i * 7919) % n, word == "put" ? i : "" }'
  done
}
# numbers without a name, each looked for by its number and destroyed; a script for Boost has no such numbers
blocks() {
  awk -v n="$1" 'BEGIN { for (i = 0; i < n; i++) print "construct i64 -", i
    for (i = 0; i < n; i++) print "destroy_ptr #" 144 + 48 * ((i * 1299709) % n) }'
}
# numbers pushed into one vector, which moves as it grows
bytes() {
  echo 'construct vec<i64> v'
  awk -v n="$1" 'BEGIN { for (i = 0; i < n; i++) print "push v", i % 1000 }'
}

ours() { "${before[@]}" "$program" run segment.seg --mode create_only --size 33554432 < "$1"; }
theirs() { "${before[@]}" ./peer segment.seg 33554432 < "$1"; }

# counted WHOSE FILE: the instructions of a run of the script
counted() {
  local before=(valgrind --tool=callgrind --callgrind-out-file=/dev/null)
  rm -f segment.seg
  "$1" "$2" 2>&1 > answers | sed -n 's/.*Collected : *//p'
}

# least WHOSE FILE: of three runs, in seconds of the processor
least() {
  local before=() TIMEFORMAT='%3U %3S'
  for _ in 1 2 3; do
    rm -f segment.seg
    { time "$1" "$2" > answers; } 2>&1
  done | awk '{ t = $1 + $2; if (NR == 1 || t < least) least = t } END { printf "%.3f\n", least }'
}

: > nothing
start=$(counted ours nothing)
if [ -x peer ]; then their_start=$(counted theirs nothing); fi
echo '| Script | n | Instructions a line | of Boost | Seconds | of Boost | Ratio |'
echo '|---|---|---|---|---|---|---|'
all=${*:-names gaps pairs blocks bytes load load_names load_behind check stat draw dump grow shrink migrate
  check_names stat_names draw_names dump_names list lint}
for kind in $all; do
  case $kind in
    load* | check* | stat* | draw* | dump* | grow | shrink | migrate | list | lint) continue ;;
    names) first=5000 ;;
    blocks) first=25000 ;;
    bytes) first=125000 ;;
    *) first=12500 ;;
  esac
  for n in $first $((2 * first)) $((4 * first)) $((8 * first)); do
    $kind $n > script
    lines=$(wc -l < script)
    a_line=$((($(counted ours script) - start) / lines)) seconds=$(least ours script) their_line=- boost=-
    if [ -x peer ] && [ "$kind" != blocks ]; then
      their_line=$((($(counted theirs script) - their_start) / lines)) boost=$(least theirs script)
    fi
    awk -v kind="$kind" -v n="$n" -v a="$a_line" -v b="$their_line" -v s="$seconds" -v t="$boost" 'BEGIN {
      printf "| %s | %d | %s | %s | %s | %s | %s |\n", kind, n, a, b, s, t, (t > 0 ? sprintf("%.2f", s / t) : "-") }'
  done
done

# the dump of n objects: without a name, with names, or half of them without a name and a vector of as many numbers
objects() {
  awk -v kind="$1" -v n="$2" 'BEGIN { print "segment dump 1"; print "size", 64 * n + 512
    small = kind == "behind" ? int(n / 2) : n
    print "indexes", (kind == "names" ? n : 0), 0
    for (i = 0; i < small; i++)
      if (kind == "names") printf "named n%07d i64 1\n  %d\n", i, i; else printf "anonymous i64 1\n  %d\n", i
    if (kind == "behind") { print "anonymous vec<i64>", n - small; for (i = small; i < n; i++) print "  " i }
    print "end" }'
}
# a script of n lines, of which every tenth is no command
lines() { awk -v n="$1" 'BEGIN { for (i = 0; i < n; i++) print (i % 10 ? "push v " : "psh v ") i }'; }

# prepared COMMAND N: what the command needs, in this folder
prepared() {
  local kind=anonymous
  case $1 in *_names | list) kind=names ;; *_behind) kind=behind ;; lint) lines "$2" > script; return ;; esac
  objects $kind "$2" > text
  case $1 in load*) return ;; esac
  rm -f whole.seg
  "$program" load whole.seg < text
  if [ "$1" = shrink ]; then "$program" grow whole.seg 4096 > answers; fi
}
# done_once COMMAND: the command, behind what is in `before`
done_once() {
  case $1 in
    load*) "${before[@]}" "$program" load new.seg < text ;;
    grow) "${before[@]}" "$program" grow new.seg 4096 ;;
    list) "${before[@]}" "$program" run new.seg --mode open_read_only < <(echo list) ;;
    lint) "${before[@]}" "$program" lint < script || [ $? = 1 ] ;;
    *) "${before[@]}" "$program" "${1%_names}" new.seg ;;
  esac
}
fresh() {
  rm -f new.seg
  case $1 in load* | lint) ;; grow | shrink | migrate) cp whole.seg new.seg ;; *) ln -f whole.seg new.seg ;; esac
}
# instructions COMMAND, and nanoseconds COMMAND
instructions() {
  local before=(valgrind --tool=callgrind --callgrind-out-file=/dev/null)
  fresh "$1"
  done_once "$1" 2>&1 > answers | sed -n 's/.*Collected : *//p'
}
nanoseconds() {
  local before=() TIMEFORMAT='%3U %3S'
  for _ in 1 2 3; do
    fresh "$1"
    { time done_once "$1" > answers; } 2>&1
  done | awk '{ t = $1 + $2; if (NR == 1 || t < least) least = t } END { printf "%.0f\n", least * 1e9 }'
}

echo
echo '| Command | Objects | Instructions an object | Nanoseconds an object | Times the row before |'
echo '|---|---|---|---|---|'
for command in $all; do
  case $command in names | gaps | pairs | blocks | bytes) continue ;; esac
  prepared "$command" 2
  start_count=$(instructions "$command") start_time=$(nanoseconds "$command") last_count= last_time=
  for ((power = 4; power <= ${DECADES:-7}; power++)); do
    n=$((10 ** power)) count=
    prepared "$command" $n
    if [ $n -le "${COUNTED:-100000}" ]; then count=$((($(instructions "$command") - start_count) / n)); fi
    time=$((($(nanoseconds "$command") - start_time) / n))
    awk -v c="$command" -v n=$n -v i="$count" -v t=$time -v j="$last_count" -v u="$last_time" 'BEGIN {
      times = j != "" && i != "" ? i / j : u > 0 ? t / u : 0
      printf "| %s | %d | %s | %d | %s |\n", c, n, (i == "" ? "-" : i), t, (times ? sprintf("%.2f", times) : "-") }'
    last_count=$count last_time=$time
  done
done
