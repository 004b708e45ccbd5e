#!/usr/bin/env bash
# Status 8 of `rewrite`: a text of 2 KB with one loop of 2,097,154 gates, a chain of buffers between two selections, whose
# rewritten netlist would have 4,194,309 gates. It is no line of `crates/cases`,
# since a call takes some ten seconds of a processor, and each program of the gate runs twice.
#
#   bench/too_large.sh
#
# CYC=PROGRAM in the environment takes that program in place of ./cyc.
set -eu
top=$(cd "$(dirname "$0")/.." && pwd)
cyc=${CYC:-$top/cyc}
dir=$(mktemp -d)
trap 'rm -rf "$dir"' EXIT

# A model of 32 buffers in a row, and then models of two of the one before each.
chains() {
    echo ".model chain_0"
    echo ".inputs i"
    echo ".outputs o"
    local last=i
    for n in $(seq 1 31) o; do
        echo ".names $last $n"
        echo "1 1"
        last=$n
    done
    echo ".end"
    for k in $(seq 1 16); do
        echo ".model chain_$k"
        echo ".inputs i"
        echo ".outputs o"
        echo ".subckt chain_$((k - 1)) i=i o=m"
        echo ".subckt chain_$((k - 1)) i=m o=o"
        echo ".end"
    done
}

{
    printf '%s\n' ".model long_chain" ".inputs s x y" ".outputs v"
    printf '%s\n' ".names s x v u" "11- 1" "0-1 1" ".subckt chain_16 i=u o=w" ".names s w y v" "11- 1" "0-1 1" ".end"
    chains
} >"$dir/long_chain.blif"

status=0
told=$("$cyc" rewrite "$dir/long_chain.blif" 2>&1) || status=$?
[ "$status" -eq 8 ] && [ "$told" = "too large 4194309" ] || { echo "status $status: $told"; exit 1; }
echo "too large, as it has to be"
