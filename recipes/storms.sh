#!/usr/bin/env bash
# Why a refused wire is dangerous, example by example: for each one that is refused, a storm of 20 rounds, which is a fair
# schedule for the refusal's vector, is played, and the refused wire must fall and rise in each of the rounds. Then the
# waves of one storm go through GTKWave's converters, and must come back with the same changes.
#
#   recipes/storms.sh [FILE.svg]     (needs gtkwave for its vcd2fst and fst2vcd; FILE.svg gets a picture of the waves)
#
# CYC=PROGRAM in the environment takes that program in place of ./cyc.
set -eu -o pipefail
top=$(cd "$(dirname "$0")/.." && pwd)
cyc=${CYC:-$top/cyc}
command -v vcd2fst >/dev/null || { echo "storms.sh: the package gtkwave isn't installed, whose vcd2fst and fst2vcd are run at the end" >&2; exit 1; }
dir=$(mktemp -d)
trap 'rm -rf "$dir"' EXIT
rounds=20

# The storm of a file, and the vector of inputs that it is for.
storm() {
    "$cyc" storm "$1" "$2" >"$dir/storm" 2>/dev/null && sed -n '1s/^# inputs //p' "$dir/storm" >"$dir/vectors"
}

for file in "$top"/examples/*.blif; do
    storm "$file" $rounds || continue
    wire=$("$cyc" check "$file" | sed -n 's/^refused undetermined wire=\([^ ]*\).*/\1/p') || true
    "$cyc" delays "$file" "$dir/vectors" "$dir/storm" --probe trace >"$dir/trace"
    awk -v wire="$wire" -v rounds=$rounds '
        $4 == wire "=0" { falls[$3] = 1 }
        $4 == wire "=1" && $3 in falls { rises[$3] = 1 }
        END { for (r = 1; r <= rounds; r++) if (!("round=" r in rises)) exit 1 }
    ' "$dir/trace" || { echo "$(basename "$file"): $wire rests in a round"; exit 1; }
    echo "$(basename "$file" .blif): $wire falls and rises in each of $rounds rounds"
done

# Each change of a dump, with its time and the name of its signal.
changes() {
    awk '$1 == "$var" { name[$4] = $5 } /^#/ { time = $1 } /^[01]/ { print time, name[substr($1, 2)], substr($1, 1, 1) }' "$1" | sort
}

file=$top/examples/ring_oscillator.blif
storm "$file" 4
"$cyc" delays "$file" "$dir/vectors" "$dir/storm" --probe vcd >"$dir/waves.vcd" 2>"$dir/ticks"
vcd2fst "$dir/waves.vcd" "$dir/waves.fst"
fst2vcd "$dir/waves.fst" >"$dir/back.vcd"
cmp <(changes "$dir/waves.vcd") <(changes "$dir/back.vcd")
echo "$(changes "$dir/waves.vcd" | wc -l) changes, the same after vcd2fst and fst2vcd"
if [ $# -gt 0 ]; then
    "$cyc" loops "$file" >"$dir/loops"
    awk -f "$top/recipes/waves.awk" "$dir/loops" "$dir/storm" "$dir/waves.vcd" >"$1"
fi
