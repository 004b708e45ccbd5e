#!/usr/bin/env bash
# Times crates/benchmarks and, where libbdd-dev is installed, BuDDy on the same functions, in one run: each
# function five times by both in turn, and of each the fastest time.
# Run `rt run` in crates/benchmarks once before: it builds the program.
cd "$(dirname "$0")/.." || exit 1
ours=crates/benchmarks/out/benchmarks
theirs=$(mktemp)
lines=$(mktemp)
trap 'rm -f "$theirs" "$lines"' EXIT
cc -O2 bench/buddy.c -lbdd -o "$theirs" 2>/dev/null || theirs=

# The line with the fewest microseconds among those that begin with a word.
fastest() {
    sed -n "s/^$1 \(.* \([0-9]*\) us.*\)/\2 $1 \1/p" "$lines" | sort -n | head -1 | cut -d ' ' -f 2-
}

for name in queens parity adder hidden; do
    sizes="16 18 20"
    [ $name = queens ] && sizes="6 7 8 9 10"
    for size in $sizes; do
        : >"$lines"
        "$ours" $name $size 2>/dev/null
        for _ in 1 2 3 4 5; do
            "$ours" $name $size 2>&1 >/dev/null | sed "s/^/ours /" >>"$lines"
            [ -n "$theirs" ] && "$theirs" $name $size >>"$lines"
        done
        fastest ours
        [ -n "$theirs" ] && fastest buddy
    done
done
