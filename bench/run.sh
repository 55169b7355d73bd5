#!/usr/bin/env bash
# Compares `root` with the straightforward Rust program baseline.rs on the same record files, by the instructions that each
# executes (callgrind), and checks that both print the same. What a program costs on a file of one variable, mostly its
# start, is taken off. Not part of the gate.
#   bench/run.sh [FILE.rec ..]        by default the examples and the larger files of the conformance data
set -eu
cd "$(dirname "$0")/.."
data=crates/conformance/data
root=crates/root/out/root
(cd crates/root && rt run < /dev/null > /dev/null 2>&1) # builds it where it is not built yet
work=$(mktemp -d)
trap 'rm -rf "$work"' EXIT
rustc -O -o "$work/baseline" bench/baseline.rs
if [ $# -eq 0 ]; then
    set -- examples/*.rec "$data"/{t-400-records,t-32-variables,t-wide,w-table-big,s-64-sums,s-32-variables,w-sums}-00.rec
fi
count() { # PROGRAM FILE: instructions executed
    valgrind --tool=callgrind --callgrind-out-file=/dev/null "$1" < "$2" 2>&1 > /dev/null | sed -n 's/.*Collected : //p'
}
a0=$(count "$root" "$data/one-value.rec")
b0=$(count "$work/baseline" "$data/one-value.rec")
printf '%-24s %10s %10s %6s\n' "file" root baseline ratio
printf '%-24s %10d %10d\n' "(one variable)" "$a0" "$b0"
for file in "$@"; do
    cmp -s <("$root" < "$file") <("$work/baseline" < "$file") || { echo "$file: the two print different reports"; exit 1; }
    a=$(($(count "$root" "$file") - a0))
    b=$(($(count "$work/baseline" "$file") - b0))
    printf '%-24s %10d %10d %6s\n' "$(basename "$file")" "$a" "$b" "$(awk "BEGIN { printf \"%.2f\", $a / $b }")"
done
