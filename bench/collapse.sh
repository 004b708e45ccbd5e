#!/usr/bin/env bash
# Times crates/benchmarks on the outputs of netlists without loops and, where berkeley-abc is installed, its
# `collapse` on the same netlists, which builds them in CUDD: in the order of the inputs, which is ours, and then with
# dynamic reordering. Each is run five times in turn, and of each the fastest is printed, with the nodes that are shared
# by all outputs (ours with those of all operations on the way). abc tells its times to a hundredth of a second.
# Run `rt run` in crates/benchmarks once before: it builds the program.
set -u
cd "$(dirname "$0")/.." || exit 1
ours=crates/benchmarks/out/benchmarks
dir=$(mktemp -d) || exit 1
trap 'rm -rf "$dir"' EXIT

# The netlist of a function, as functions.rt and netlists.rt make it. `and`, `or`, `xor` and `not` write a gate.
netlist() {
    awk -v name="$1" -v n="$2" '
        function gate(cover, a, b, y) { printf ".names %s %s %s\n%s", a, b, y, cover; return y }
        function and(a, b, y) { return gate("11 1\n", a, b, y) }
        function or(a, b, y) { return gate("1- 1\n-1 1\n", a, b, y) }
        function xor(a, b, y) { return gate("10 1\n01 1\n", a, b, y) }
        function not(a, y) { printf ".names %s %s\n0 1\n", a, y; return y }
        function copy(a, y) { printf ".names %s %s\n1 1\n", a, y; return y }
        function fresh() { return "w" wires++ }
        function head(outputs,    k, line) {
            line = ".model m\n.inputs"
            for (k = 0; k < n; k++) line = line " x" k
            print line "\n.outputs" outputs "\n.names no\n.names yes\n1"
        }
        function numbered(word, count,    k, line) {
            for (k = 0; k < count; k++) line = line " " word k
            return line
        }
        # The sum and the carry of three bits.
        function add(a, b, c, y,    differ) {
            differ = xor(a, b, fresh())
            xor(differ, c, y)
            return or(and(a, b, fresh()), and(differ, c, fresh()), fresh())
        }
        function parity(    k, odd) {
            head(" y")
            odd = "no"
            for (k = 0; k < n; k++) odd = xor(odd, "x" k, fresh())
            copy(odd, "y")
        }
        # The bits of the numbers stand one number after the other, or by turns.
        function adder(step, second,    k, width, carry) {
            width = n / 2
            head(numbered("y", width + 1))
            carry = "no"
            for (k = 0; k < width; k++) carry = add("x" (k * step), "x" (k * step + second), carry, "y" k)
            copy(carry, "y" width)
        }
        function comparator(step, second,    k, width, less, a, b) {
            width = n / 2
            head(" y")
            less = "no"
            for (k = 0; k < width; k++) {
                a = not("x" (k * step), fresh())
                b = "x" (k * step + second)
                less = or(and(a, b, fresh()), and(or(a, b, fresh()), less, fresh()), fresh())
            }
            copy(less, "y")
        }
        function multiplier(    i, j, width, row, carry, wire) {
            width = n / 2
            head(numbered("y", 2 * width))
            for (i = 0; i < 2 * width; i++) row[i] = "no"
            for (j = 0; j < width; j++) {
                carry = "no"
                for (i = 0; i < width; i++) {
                    wire = fresh()
                    carry = add(row[i + j], and("x" i, "x" (width + j), fresh()), carry, wire)
                    row[i + j] = wire
                }
                row[j + width] = carry
            }
            for (i = 0; i < 2 * width; i++) copy(row[i], "y" i)
        }
        # Which of the bits is the first that is 1.
        function priority(    k, none) {
            head(numbered("y", n))
            none = "yes"
            for (k = 0; k < n; k++) {
                and("x" k, none, "y" k)
                none = and(none, not("x" k, fresh()), fresh())
            }
        }
        function decoder(    i, k, rest, word) {
            head(numbered("y", 2 ^ n))
            for (k = 0; k < n; k++) not("x" k, "z" k)
            for (i = 0; i < 2 ^ n; i++) {
                word = "yes"
                rest = i
                for (k = 0; k < n; k++) {
                    word = and(word, (rest % 2 ? "x" : "z") k, fresh())
                    rest = int(rest / 2)
                }
                copy(word, "y" i)
            }
        }
        BEGIN {
            if (name == "parity") parity()
            if (name == "adder") adder(1, n / 2)
            if (name == "turns") adder(2, 1)
            if (name == "less") comparator(1, n / 2)
            if (name == "multiplier") multiplier()
            if (name == "priority") priority()
            if (name == "decoder") decoder()
            print ".end"
        }'
}

# The nodes and the seconds of a run of ours.
our_run() {
    "$ours" "$1" "$2" 2>&1 | awk '/ nodes, / { nodes = $3 } / us, / { micros = $3 } END { print nodes, micros / 1000000 }'
}

# The nodes and the seconds of a run of abc, with a word of options.
abc_run() {
    berkeley-abc -c "read_blif $dir/netlist.blif; collapse -v $1" 2>/dev/null | tr '=,' '  ' |
        awk '/Shared BDD size/ { nodes = $4 } /construction time/ { for (k = 1; k < NF; k++) if ($k == "time") seconds = $(k + 1) }
             END { print nodes, seconds }'
}

fastest() { sort -k 2 -g "$1" | head -n 1; }

printf '%-14s %24s %24s %24s\n' netlist ours "CUDD, our order" "CUDD, reordering"
for row in "multiplier 16" "multiplier 18" "multiplier 20" "adder 24" "adder 28" "turns 64" "turns 256" "less 24" "less 28" \
    "parity 64" "parity 512" "priority 64" "priority 256" "decoder 8" "decoder 12"; do
    read -r name size <<<"$row"
    netlist "$name" "$size" >"$dir/netlist.blif"
    rm -f "$dir/ours" "$dir/given" "$dir/moved"
    for _ in 1 2 3 4 5; do
        our_run "$name" "$size" >>"$dir/ours"
        if command -v berkeley-abc >/dev/null; then
            abc_run -r >>"$dir/given"
            abc_run "" >>"$dir/moved"
        fi
    done
    for run in ours given moved; do
        if [ -s "$dir/$run" ]; then fastest "$dir/$run"; else echo "- -"; fi
    done | awk -v row="$row" '{ line = line sprintf(" %12s nodes %8s s", $1, $2) } END { printf "%-14s%s\n", row, line }'
done
