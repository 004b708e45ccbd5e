#!/usr/bin/env bash
# Rewrites each example that is accepted, checks that what comes out is accepted and has no loop, has Yosys and abc read
# it, and compares the outputs of both netlists on random vectors, where no care file says which vectors count.
#
#   recipes/examples.sh     (needs yosys and berkeley-abc)
#
# CYC=PROGRAM in the environment takes that program in place of ./cyc.
set -eu -o pipefail
top=$(cd "$(dirname "$0")/.." && pwd)
cyc=${CYC:-$top/cyc}
for it in yosys berkeley-abc; do
    command -v "$it" >/dev/null || { echo "$(basename "$0"): $it isn't installed" >&2; exit 1; }
done
dir=$(mktemp -d)
trap 'rm -rf "$dir"' EXIT

for file in "$top"/examples/*.blif; do
    name=$(basename "$file" .blif)
    care=()
    [ ! -f "$top/examples/$name.care" ] || care=(--care "$top/examples/$name.care")
    "$cyc" rewrite "$file" ${care[@]+"${care[@]}"} >"$dir/open.blif" 2>"$dir/refusal" || continue
    "$cyc" check "$dir/open.blif" >"$dir/verdict"
    grep -q '^accepted gates=[0-9]* loops=0 ' "$dir/verdict" || { echo "$name: $(cat "$dir/verdict")"; exit 1; }
    yosys -q -p "read_blif -sop $dir/open.blif; check -assert"
    berkeley-abc -q "read_blif $dir/open.blif; strash" >/dev/null
    same="vectors not compared"
    if [ ${#care[@]} -eq 0 ]; then
        inputs=$(sed -n 's/^\.inputs *//p' "$dir/open.blif" | wc -w)
        awk -v n="$inputs" 'BEGIN { srand(1); for (t = 0; t < 500; t++) { v = ""; for (i = 0; i < n; i++) v = v (rand() < 0.5); print n ? v : "-" } }' >"$dir/vectors"
        "$cyc" sim "$file" "$dir/vectors" >"$dir/before"
        "$cyc" sim "$dir/open.blif" "$dir/vectors" >"$dir/after"
        cmp "$dir/before" "$dir/after"
        same="500 vectors the same"
    fi
    echo "$name: $(cat "$dir/verdict"), $same"
done
