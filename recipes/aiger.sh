#!/usr/bin/env bash
# Each accepted example and each accepted design of examples/verilog through `cyc aiger` into abc, which reads the binary
# form of the graph and finds it equal to what `cyc rewrite` writes; Yosys reads the ASCII form. Then a design with a loop
# goes into abc's model checker `pdr`, which proves that no two cells are acknowledged at once, and finds that the third one
# may be.
#
#   recipes/aiger.sh     (needs yosys and berkeley-abc)
#
# CYC=PROGRAM in the environment takes that program in place of ./cyc.
set -eu -o pipefail
top=$(cd "$(dirname "$0")/.." && pwd)
cyc=${CYC:-$top/cyc}
for it in yosys berkeley-abc; do
    command -v "$it" >/dev/null || { echo "$(basename "$0"): $it isn't installed" >&2; exit 1; }
done
dir=$(mktemp -d)
trap 'rm -rf "$dir"' EXIT

# Has abc compare the graph with the netlist: step by step over all states where there are latches.
compare() {
    local command=cec
    [ "$(awk 'NR == 1 { print $4 }' "$dir/open.aag")" -eq 0 ] || command=dsec
    berkeley-abc -q "$command $dir/open.blif $dir/open.aig" >"$dir/told"
    grep -q 'Networks are equivalent' "$dir/told" || { echo "$1: abc's $command says:"; cat "$dir/told"; exit 1; }
}

# The way of one netlist, with its words for cyc. A netlist that is refused goes no way.
whole() {
    local name=$1
    shift
    "$cyc" rewrite "$@" >"$dir/open.blif" 2>"$dir/told" || { [ $? -eq 1 ] && return 0; cat "$dir/told"; exit 1; }
    "$cyc" aiger "$@" >"$dir/open.aag"
    "$cyc" aiger "$@" --binary >"$dir/open.aig"
    yosys -q -p "read_aiger $dir/open.aag"
    compare "$name"
    echo "$name: $(head -n 1 "$dir/open.aag"), read by Yosys, equal in abc"
}

for file in "$top"/examples/*.blif; do
    care=${file%.blif}.care
    if [ -f "$care" ]; then whole "$(basename "$file")" "$file" --care "$care"; else whole "$(basename "$file")" "$file"; fi
done

for file in "$top"/examples/verilog/*.v "$top"/examples/verilog/*.sv; do
    name=$(basename "$file") care=${file%.*}.care.v
    read -r -a options < <(sed -n 's/^\/\/ options: //p' "$file") || true
    case $name in
    *.care.v | latch.v) continue ;;
    round_robin.v) options=(--init "pointer=4'b0001") ;;
    esac
    "$top/recipes/to_blif.sh" -o "$dir/loop.blif" ${options[@]+"${options[@]}"} "$file"
    if [ -f "$care" ]; then
        "$top/recipes/to_blif.sh" --care -o "$dir/loop.care" "$care"
        whole "$name" "$dir/loop.blif" --care "$dir/loop.care"
    else
        whole "$name" "$dir/loop.blif"
    fi
done

"$top/recipes/to_blif.sh" -o "$dir/loop.blif" "$top/recipes/two_grants.v" "$top/examples/verilog/token_ring.v" two_grants
"$top/recipes/to_blif.sh" --care -o "$dir/loop.care" "$top/recipes/two_grants.care.v"
"$cyc" check "$dir/loop.blif" --care "$dir/loop.care"
"$cyc" aiger "$dir/loop.blif" --care "$dir/loop.care" --binary >"$dir/open.aig"

# What pdr says of one output, from the start state on.
model_check() {
    berkeley-abc -q "read_aiger $dir/open.aig; strash; zero; cone -s -O $1; pdr" | sed -n 's/^Property proved.*/proved/p; s/.*was asserted in frame \([0-9]*\).*/happens in tick \1/p'
}

echo "two at once: $(model_check 0)"
echo "the third: $(model_check 1)"
[ "$(model_check 0)" = proved ] && model_check 1 | grep -q '^happens'
