#!/usr/bin/env bash
# Compares `replay` over several stacks with the straightforward Rust program stack_baseline.rs (held nodes as copies in a vector)
# on the same record files and the same script of calls as a search makes them, by the instructions that each executes
# (callgrind), and checks that all print the same. What a script of one call costs is taken off. Not part of the gate.
#   bench/spaces.sh [FILE.rec ..]
set -eu
cd "$(dirname "$0")/.."
data=crates/conformance/data
replay=crates/replay/out/replay
(cd crates/replay && rt run -- < /dev/null > /dev/null 2>&1) # builds it where it is not built yet
work=$(mktemp -d)
trap 'rm -rf "$work"' EXIT
rustc -O -o "$work/baseline" bench/stack_baseline.rs
if [ $# -eq 0 ]; then
    set -- examples/wheels.rec "$data"/{t-400-records,t-32-variables,t-medium,s-64-sums,s-32-variables,s-held-32}-00.rec
fi
echo status > "$work/one"
awk 'BEGIN { for (round = 0; round < 40; round++) { for (i = 0; i < 9; i++) print "status\nmark\ncommit 0"; for (i = 0; i < 8; i++) print "status\nbound\nrestore\nforget\ncommit 1" } }' > "$work/calls"
count() { # FILE PROGRAM WORDS..: instructions executed
    local file=$1
    shift
    valgrind --tool=callgrind --callgrind-out-file=/dev/null "$@" < "$file" 2>&1 > /dev/null | sed -n 's/.*Collected : //p'
}
printf '%-24s %12s' file baseline
stacks='copying:32 trailing:32 recomputing:4/trailing:8 recomputing:4/copying:8'
for stack in $stacks; do printf ' %24s' "$stack"; done
echo
for file in "$@"; do
    b=$(($(count "$file" "$work/baseline" "$work/calls") - $(count "$file" "$work/baseline" "$work/one")))
    printf '%-24s %12d' "$(basename "$file")" "$b"
    "$work/baseline" "$work/calls" < "$file" | sed 's/^refused 16 layer .*/refused 16/' > "$work/expected"
    for stack in $stacks; do
        "$replay" "$stack" 1000000 "$work/calls" < "$file" | sed 's/^refused 16 layer .*/refused 16/' | cmp -s - "$work/expected" || { echo "$file $stack: the two print different answers"; exit 1; }
        a=$(($(count "$file" "$replay" "$stack" 1000000 "$work/calls") - $(count "$file" "$replay" "$stack" 1000000 "$work/one")))
        printf ' %16d (%5s)' "$a" "$(awk "BEGIN { printf \"%.2f\", $a / $b }")"
    done
    echo
done
