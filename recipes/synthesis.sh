#!/usr/bin/env bash
# From Verilog with a combinational loop to a netlist without one, and back: Yosys writes BLIF, cyc checks and rewrites it,
# Yosys and abc read what comes out, and both netlists give the same outputs on random vectors. Then the netlist is written
# as Verilog, which comes to an equal netlist again, and which iverilog simulates beside the source.
#
#   recipes/synthesis.sh [OPTION].. [FILE.v [CARE]]     (needs yosys, berkeley-abc and iverilog)
#
# CARE is a care file, or Verilog with a module `assume` or `invariant`. The options are those of to_blif.sh. CYC=PROGRAM in
# the environment takes that program in place of ./cyc.
set -eu -o pipefail
top=$(cd "$(dirname "$0")/.." && pwd)
cyc=${CYC:-$top/cyc}
for it in yosys berkeley-abc iverilog; do
    command -v "$it" >/dev/null || { echo "$(basename "$0"): $it isn't installed" >&2; exit 1; }
done
dir=$(mktemp -d)
trap 'rm -rf "$dir"' EXIT

options=()
while [[ ${1:-} == -* ]]; do
    case $1 in
    -I | -D | --init | --param) options+=("$1" "$2"); shift 2 ;;
    *) options+=("$1"); shift ;;
    esac
done
source=${1:-$top/recipes/shared_units.v}
care=()
case ${2:-} in
'') ;;
*.v) "$top/recipes/to_blif.sh" --care -o "$dir/care" "$2" && care=(--care "$dir/care") ;;
*) care=(--care "$2") ;;
esac
"$top/recipes/to_blif.sh" -o "$dir/loop.blif" ${options[@]+"${options[@]}"} "$source"

"$cyc" check "$dir/loop.blif" ${care[@]+"${care[@]}"}
"$cyc" loops "$dir/loop.blif"
"$cyc" rewrite "$dir/loop.blif" ${care[@]+"${care[@]}"} >"$dir/open.blif"
"$cyc" check "$dir/open.blif"
"$cyc" loops "$dir/open.blif"

# Yosys 0.23 stops at a `.clock` line, which cyc writes where the clock is no input.
sed '/^\.clock/d' "$dir/open.blif" >"$dir/back.blif"
yosys -p "read_blif -sop $dir/back.blif; check -assert; stat" | sed -n 's/^ *Number of cells: */yosys cells=/p'
berkeley-abc -q "read_blif $dir/open.blif; print_stats" | sed -n 's/.*\(nd = *[0-9]*\).*\(lev = *[0-9]*\).*/abc \1 \2/p'

# The same outputs, tick by tick: under an invariant too, since each run stays within it, but not under an assumption, as
# random vectors aren't within that.
assumes() {
    [ ${#care[@]} -gt 0 ] && grep -q '^\.model assume' "${care[1]}"
}

if ! assumes; then
    inputs=$("$cyc" flat "$dir/open.blif" | sed -n 's/^\.inputs *//p' | wc -w)
    awk -v n="$inputs" 'BEGIN { srand(1); for (t = 0; t < 1000; t++) { v = ""; for (i = 0; i < n; i++) v = v (rand() < 0.5); print n ? v : "-" } }' >"$dir/vectors"
    "$cyc" sim "$dir/loop.blif" "$dir/vectors" >"$dir/before"
    "$cyc" sim "$dir/open.blif" "$dir/vectors" >"$dir/after"
    cmp "$dir/before" "$dir/after"
    echo "1000 vectors: the same outputs"
fi

# Latches whose clocks were sampled have no clock that Verilog could name.
if [[ " ${options[*]-} " == *" --sample-clocks "* ]]; then exit; fi

"$top/recipes/to_verilog.sh" -o "$dir/open.v" "$dir/open.blif" ${options[@]+"${options[@]}"} "$source"
"$top/recipes/to_blif.sh" -o "$dir/again.blif" "$dir/open.v"
echo "Verilog again: $("$cyc" equal "$dir/loop.blif" "$dir/again.blif" ${care[@]+"${care[@]}"})"

# A bench for the source and the module that was written: 1,000 random ticks, a clock that isn't sampled apart. The source's
# simulation may leave outputs unknown, on its loops or before a reset; where it knows them all, the module's are the same.
bench() {
    awk -v clock="$(sed -n 's/^\.latch .* [rf]e \([^ ]*\) .*/\1/p' "$dir/open.blif" | head -n 1)" -v values="$values" '
        $1 == "module" { name = $2; next }
        {
            range = NF == 3 ? $2 " " : ""
            if ($1 == "input") {
                declared = declared "  reg " range $NF ";\n"
                links = links ", ." $NF "(" $NF ")"
                if ($NF != clock) drawn = drawn "      " $NF " = $random;\n"
            } else {
                declared = declared "  wire " range $NF "_source, " $NF "_module;\n"
                of_source = of_source ", ." $NF "(" $NF "_source)"
                of_module = of_module ", ." $NF "(" $NF "_module)"
                sources = sources ", " $NF "_source"
                modules = modules ", " $NF "_module"
            }
        }
        END {
            print "module bench;\n  integer n, known = 0, wrong = 0;\n" declared
            print "  " name " " values "bench_source(" substr(links of_source, 3) ");\n  rewritten bench_module(" substr(links of_module, 3) ");"
            print "  initial begin"
            if (clock != "") print "    " clock " = 0;"
            print "    for (n = 0; n < 1000; n = n + 1) begin\n" drawn "      #1;"
            print "      if (^{" substr(sources, 3) "} !== 1'\''bx) begin\n        known = known + 1;"
            print "        if ({" substr(sources, 3) "} !== {" substr(modules, 3) "}) wrong = wrong + 1;\n      end"
            if (clock != "") print "      " clock " = 1;\n      #1 " clock " = 0;\n      #1;"
            print "    end\n    $display(\"iverilog: %0d of 1000 ticks known in the source, %0d of these not the same\", known, wrong);"
            print "  end\nendmodule"
        }
    ' "$dir/ports"
}

if ! assumes; then
    "$top/recipes/to_blif.sh" --ports -o "$dir/ports" ${options[@]+"${options[@]}"} "$source"
    name=$(sed -n '1s/^module //p' "$dir/ports")
    values='' reading=()
    for ((i = 0; i < ${#options[@]}; i++)); do
        case ${options[i]} in
        --param) values+=", .${options[i + 1]%%=*}(${options[i + 1]#*=})" ;;
        -I | -D) reading+=("${options[i]}${options[i + 1]}") ;;
        esac
    done
    values=${values:+"#(${values#, }) "}
    bench >"$dir/bench.v"
    sed "s/^module $name($/module rewritten(/" "$dir/open.v" >"$dir/rewritten.v"
    iverilog -g2012 -s bench ${reading[@]+"${reading[@]}"} -o "$dir/bench" "$dir/bench.v" "$source" "$dir/rewritten.v"
    vvp -n "$dir/bench" | tee "$dir/simulated"
    grep -q ' 0 of these' "$dir/simulated"
fi
