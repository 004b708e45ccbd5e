#!/usr/bin/env bash
# From a refused Verilog design to the weakest assumption under which it is accepted: Yosys writes BLIF, cyc checks it,
# writes a care file, accepts the design with it and rewrites it. Then the assumption is written as a Verilog module, whose
# output a test bench or a formal tool can watch, and which Yosys takes to an equal netlist again.
#
#   recipes/assume.sh [-o MODULE.v] [OPTION].. FILE.v [CARE]     (needs yosys)
#
# CARE is a care file, or Verilog with a module `assume` or `invariant`. The options are those of to_blif.sh, and
# --observe WHAT of cyc. Without -o the module goes to standard output. CYC=PROGRAM in the environment takes that program in
# place of ./cyc.
set -eu -o pipefail
top=$(cd "$(dirname "$0")/.." && pwd)
cyc=${CYC:-$top/cyc}
command -v yosys >/dev/null || { echo "$(basename "$0"): yosys isn't installed" >&2; exit 1; }
dir=$(mktemp -d)
trap 'rm -rf "$dir"' EXIT

options=() observe=() out=''
while [[ ${1:-} == -* ]]; do
    case $1 in
    -o) out=$2; shift 2 ;;
    --observe) observe=("$1" "$2"); shift 2 ;;
    -I | -D | --init | --param) options+=("$1" "$2"); shift 2 ;;
    *) options+=("$1"); shift ;;
    esac
done
[ $# -gt 0 ] || { sed -n '/^#   recipes/s/^# *//p' "$0" >&2; exit 2; }
care=()
case ${2:-} in
'') ;;
*.v) "$top/recipes/to_blif.sh" --care -o "$dir/given.care" "$2" && care=(--care "$dir/given.care") ;;
*) care=(--care "$2") ;;
esac
"$top/recipes/to_blif.sh" -o "$dir/loop.blif" ${options[@]+"${options[@]}"} "$1"

# A refusal is a result here; anything else that isn't one ends the way.
"$cyc" check "$dir/loop.blif" ${care[@]+"${care[@]}"} ${observe[@]+"${observe[@]}"} || [ $? -eq 1 ]
"$cyc" assume "$dir/loop.blif" ${care[@]+"${care[@]}"} ${observe[@]+"${observe[@]}"} >"$dir/new.care"
"$cyc" check "$dir/loop.blif" --care "$dir/new.care" ${observe[@]+"${observe[@]}"}
"$cyc" rewrite "$dir/loop.blif" --care "$dir/new.care" ${observe[@]+"${observe[@]}"} >"$dir/open.blif"
"$cyc" check "$dir/open.blif"

# `assume` is a keyword of SystemVerilog, so the module has another name.
sed '/^\.end/q' "$dir/new.care" >"$dir/assume.blif"
if ! grep -q '^\.model assume' "$dir/assume.blif"; then
    echo "no assumption is needed"
    exit
fi
"$top/recipes/to_verilog.sh" "$dir/assume.blif" | sed '1s/^module [^(]*(/module harmless (/' >"$dir/harmless.v"
"$top/recipes/to_blif.sh" -o "$dir/again.blif" "$dir/harmless.v"
echo "the module: $("$cyc" equal "$dir/assume.blif" "$dir/again.blif")"
if [ "$out" ]; then cat "$dir/harmless.v" >"$out"; else cat "$dir/harmless.v"; fi
