#!/usr/bin/env bash
# Reads texts, flattens them and writes them again, by `cyc flat` and, where they are installed, by `yosys` and
# `berkeley-abc`, and prints seconds (user and system) and peak memory of each, the best of so many runs, and ours as a
# part of theirs. Where Yosys is installed it also makes two of the texts, whose names are as it has them: a multiplier and
# two processors (bench/two_cores.v). A program that dies says so: with a stack of the common size abc dies on a chain of a million gates, so
# all have as much stack as they want.
#
#   bench/texts.sh [--runs N] [GATES]     (needs the package time; 3 runs and 1,000,000 gates without more words)
#
# CYC=PROGRAM in the environment measures that program in place of ./cyc.
set -u
top=$(cd "$(dirname "$0")/.." && pwd) || exit 1
cyc=${CYC:-$top/cyc}
runs=3
[ "${1:-}" != --runs ] || { runs=$2 && shift 2; }
gates=${1:-1000000}
dir=$(mktemp -d) || exit 1
trap 'rm -rf "$dir"' EXIT
ulimit -s unlimited 2>/dev/null || ulimit -s "$(ulimit -Hs)"

# Gates of two pins: each reads the one before it, or one some way back, and a second one.
two_pins() {
    awk -v gates="$gates" -v back="$1" 'BEGIN {
        printf ".model large\n.inputs i0 i1 i2 i3 i4 i5 i6 i7\n.outputs n%d\n", gates - 1
        for (k = 0; k < gates; k++) {
            a = k < back ? "i0" : "n" (k - back)
            b = k < 1000 ? "i" (k % 8) : "n" (k - 1000)
            printf ".names %s %s n%d\n11 1\n0- 1\n", a, b, k
        }
        print ".end"
    }'
}

# Models of ten instances each, over one gate, as deep as the gates want.
tree() {
    awk -v gates="$gates" 'BEGIN {
        for (level = 0; 10 ^ level < gates; level++) {
            printf ".model m%d\n.inputs a b\n.outputs y\n", level
            for (k = 0; k < 10; k++)
                printf ".subckt m%d a=%s b=b y=%s\n", level + 1, k ? "w" (k - 1) : "a", k == 9 ? "y" : "w" k
            print ".end"
        }
        printf ".model m%d\n.inputs a b\n.outputs y\n.names a b y\n11 1\n.end\n", level
    }'
}

multiplier() {
    "$top/bench/families.py" multiplier "$1" "$dir" >/dev/null && mv "$dir/multiplier.blif" "$dir/multiplier_$1.blif"
}

# The same netlist by names as Yosys has them behind `flatten`, each of over 30 bytes.
long_names() {
    awk '/^\.(inputs|outputs|names) / {
        for (k = 2; k <= NF; k++) $k = "processor.execute.multiplier." $k
    } { print }' "$1"
}

multiplier 64
multiplier 128
long_names "$dir/multiplier_128.blif" >"$dir/long_names.blif"
two_pins 1 >"$dir/chain.blif"
two_pins 999 >"$dir/shallow.blif"
tree >"$dir/tree.blif"
texts="multiplier_64 multiplier_128 long_names chain shallow tree"

# A design as gates of one and two pins, without latches that Yosys writes as instances of cells.
mapped() {
    yosys -q -p "read_verilog $1; hierarchy -auto-top; proc; flatten; opt -nodffe -nosdff; memory; opt -nodffe -nosdff;
        techmap; opt -nodffe -nosdff; dffunmap; techmap; simplemap; setundef -undriven -zero; opt -nodffe -nosdff; write_blif $2"
}

if command -v yosys >/dev/null; then
    echo "module mapped(input [63:0] a, b, output [127:0] y); assign y = a * b; endmodule" >"$dir/mapped.v"
    mapped "$dir/mapped.v" "$dir/mapped_multiplier.blif" && texts="$texts mapped_multiplier"
    mapped "$top/bench/two_cores.v" "$dir/two_cores.blif" && texts="$texts two_cores"
fi

# A line "NAME SECONDS KILOBYTES" of the best of a command's runs, or that it died.
measure() {
    local name=$1 run
    shift
    for ((run = 0; run < runs; run++)); do
        if /usr/bin/time -o "$dir/time" -f "%U %S %M" "$@" >"$dir/out" 2>&1; then tail -n 1 "$dir/time"; else echo died; fi
    done | awk -v name="$name" '
        $1 == "died" { died = 1 }
        $1 != "died" { took = $1 + $2; if (best == "" || took < best) best = took; if (most == "" || $3 < most) most = $3 }
        END { if (died) print name, "died"; else printf "%s %.2f %d\n", name, best, most }'
}

"$cyc" flat "$top/examples/full_adder.blif" >/dev/null 2>&1 # builds the program where it isn't built
for text in $texts; do
    file=$dir/$text.blif
    echo "$text: $(wc -c <"$file") bytes"
    {
        measure cyc "$cyc" flat "$file"
        if command -v yosys >/dev/null; then
            measure yosys yosys -q -p "read_blif $file; hierarchy -auto-top; flatten; write_blif $dir/again.blif"
        fi
        if command -v berkeley-abc >/dev/null; then
            measure abc berkeley-abc -q "read_blif $file; write_blif $dir/again.blif"
        fi
    } | awk '
        NR == 1 { seconds = $2; memory = $3 }
        $2 == "died" { printf "  %-6s died\n", $1; next }
        { printf "  %-6s %7.2f s %6d MB", $1, $2, $3 / 1000 }
        NR > 1 { printf "   ours took %.2f of its time, %.2f of its memory", seconds / $2, memory / $3 }
        { print "" }'
done
