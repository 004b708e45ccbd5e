#!/usr/bin/env bash
# Each accepted example under `cyc equal`: beside what `cyc flat` and `cyc rewrite` write of it and what abc and, where it
# is installed, Yosys make of the rewritten one, which are equal to it, and beside a version of it with one gate changed,
# which isn't. Each answer stands beside abc's on the rewritten netlists, which know no care set: `dsec` where there are
# latches, else `cec`.
#
#   recipes/equal.sh [FILE.blif..]     (needs berkeley-abc)
#
# CYC=PROGRAM in the environment takes that program in place of ./cyc.
set -eu -o pipefail
top=$(cd "$(dirname "$0")/.." && pwd)
cyc=${CYC:-$top/cyc}
command -v berkeley-abc >/dev/null || { echo "equal.sh: berkeley-abc isn't installed" >&2; exit 1; }
dir=$(mktemp -d)
trap 'rm -rf "$dir"' EXIT

# Runs a command, its output into a file, and keeps its time in milliseconds.
timed() {
    local told=$1 start
    start=$(date +%s%N)
    shift
    "$@" >"$told" 2>&1 || true
    ms=$((($(date +%s%N) - start) / 1000000))
}

# The flat netlist with its gate of the first output that one drives complemented, else with its last gate so.
change() {
    awk '
        $1 == ".outputs" { for (i = 2; i <= NF; i++) wanted[$i] = i }
        $1 == ".names" { gates++; at[gates] = NR; if ($NF in wanted && (!best || wanted[$NF] < rank)) { best = gates; rank = wanted[$NF] } }
        { line[NR] = $0 }
        END {
            if (!best) best = gates
            for (n = 1; n <= NR; n++) {
                print line[n]
                if (n != at[best]) continue
                if (line[n + 1] ~ /^\./) print ends(line[n]) "1"
                while (line[n + 1] !~ /^\./) { n++; bit = substr(line[n], length(line[n])); print substr(line[n], 1, length(line[n]) - 1) (1 - bit) }
            }
        }
        function ends(text,   k, words, dashes) { k = split(text, words, " "); while (k-- > 2) dashes = dashes "-"; return dashes == "" ? "" : dashes " " }
    ' "$1"
}

# What abc says of two netlists without loops.
abc_says() {
    local command=cec
    grep -q '^\.latch' "$1" && command=dsec
    timed "$dir/abc" berkeley-abc -q "$command $1 $2"
    if grep -q 'Networks are equivalent' "$dir/abc"; then said=equal; elif grep -q 'NOT EQUIVALENT' "$dir/abc"; then said=differ; else said="no answer"; fi
    said="abc's $command $said in $ms ms"
}

# Compares a netlist with another one, whose rewritten form this is.
pair() {
    local name=$1 wanted=$2 other=$3 open=$4
    shift 4
    timed "$dir/told" "$cyc" equal "$file" "$other" "$@"
    local told
    told="$(cut -c 1-60 "$dir/told") in $ms ms"
    said="abc not asked"
    [ ! -s "$open" ] || abc_says "$dir/open.blif" "$open"
    echo "$(basename "$file" .blif) and $name: $told; $said"
    case $wanted in
    other) [ "$(cat "$dir/told")" != equal ] ;;
    *) [ "$(cat "$dir/told")" = "$wanted" ] ;;
    esac
}

whole() {
    "$cyc" rewrite "$file" "$@" >"$dir/open.blif" 2>/dev/null || return 0
    "$cyc" flat "$file" >"$dir/flat.blif"
    "$cyc" rewrite "$dir/flat.blif" "$@" >"$dir/flat.open.blif"
    berkeley-abc -q "read_blif $dir/open.blif; strash; balance; rewrite; refactor; balance; rewrite; balance; write_blif $dir/abc.blif" >/dev/null
    berkeley-abc -q "read_blif $dir/open.blif; strash; dch; if -K 4; write_blif $dir/mapped.blif" >/dev/null
    rm -f "$dir/yosys.blif"
    # Yosys reads no cover of over 12 pins.
    ! command -v yosys >/dev/null || yosys -q -p "read_blif $dir/open.blif; opt; techmap; opt; write_blif $dir/yosys.blif" >/dev/null 2>&1 || true
    change "$dir/flat.blif" >"$dir/changed.blif"
    "$cyc" rewrite "$dir/changed.blif" "$@" >"$dir/changed.open.blif" 2>/dev/null || : >"$dir/changed.open.blif"
    pair "what flat writes" equal "$dir/flat.blif" "$dir/flat.open.blif" "$@"
    pair "what rewrite writes" equal "$dir/open.blif" "$dir/open.blif" "$@"
    pair "what abc makes of that" equal "$dir/abc.blif" "$dir/abc.blif" "$@"
    pair "what abc maps it to" equal "$dir/mapped.blif" "$dir/mapped.blif" "$@"
    [ ! -f "$dir/yosys.blif" ] || pair "what Yosys makes of that" equal "$dir/yosys.blif" "$dir/yosys.blif" "$@"
    pair "one gate changed" other "$dir/changed.blif" "$dir/changed.open.blif" "$@"
}

[ $# -gt 0 ] || set -- "$top"/examples/*.blif
for file; do
    care=${file%.blif}.care
    if [ -f "$care" ]; then whole --care "$care"; else whole; fi
done
