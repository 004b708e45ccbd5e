#!/usr/bin/env bash
# Each example of examples/verilog from its source to a verdict, to a netlist without loops, into Yosys and abc, and back to
# Verilog, beside the source in iverilog. Then what to_blif.sh must do with bits that are unknown, with names and with its
# options. Prints a line for each step, and ends with status 1 where a line isn't the one of examples/verilog/expected.txt.
# The numbers of gates there, and the names that Yosys makes, are those of Yosys 0.23.
#
#   recipes/verilog.sh     (needs yosys, berkeley-abc and iverilog)
#
# A design's line `// options: ..` has its options of to_blif.sh. CYC=PROGRAM in the environment takes that program in
# place of ./cyc.
set -u -o pipefail
top=$(cd "$(dirname "$0")/.." && pwd) || exit 1
cyc=${CYC:-$top/cyc}
for it in yosys berkeley-abc iverilog; do
    command -v "$it" >/dev/null || { echo "$(basename "$0"): $it isn't installed" >&2; exit 1; }
done
dir=$(mktemp -d) || exit 1
trap 'rm -rf "$dir"' EXIT
cd "$top/examples/verilog" || exit 1 # (Yosys makes names of the files' names)

to_blif() {
    "$top/recipes/to_blif.sh" "$@"
}

# The verdict on an example without its care model and its start.
alone() {
    to_blif -o "$dir/blif" "$@" 2>&1 && "$cyc" check "$dir/blif"
}

# The verdict on an example with its care model and without its start.
not_started() {
    to_blif --care -o "$dir/care" "$1" && "$cyc" check "$dir/blif" --care "$dir/care"
}

# The whole way, without the lists of the gates and of the cut wires.
whole() {
    "$top/recipes/synthesis.sh" "$@" 2>&1 | grep -v '^loop [0-9]'
}

# The gates of some wires, each in a line.
gates() {
    "$cyc" flat "$dir/blif" | awk -v wires="$*" '
        BEGIN { split(wires, list, " "); for (n in list) wanted[list[n]] }
        /^\./ { if (text != "") print text; text = "" }
        $1 == ".names" && $NF in wanted { text = $0; next }
        text != "" { text = text " / " $0 }
    '
}

design() {
    local file=$1 care=${1%.*}.care.v options
    read -r -a options < <(sed -n 's/^\/\/ options: //p' "$file") || true
    case $file in
    latch.v) alone "$file" | head -n 2 ;;
    unknown_kept.v) alone "$file"; "$cyc" explain "$dir/blif" | "$top/recipes/source.awk" "$dir/blif" ;;
    unknown_chosen.v | tristate.v | undriven.v) alone "$file"; gates u v y; whole "$file" | tail -n 2 ;;
    round_robin.v) alone "$file"; not_started "$care"; whole --init "pointer=4'b0001" "$file" "$care" ;;
    *)
        if [ -f "$care" ]; then
            alone "$file"
            whole ${options[@]+"${options[@]}"} "$file" "$care"
        else
            whole ${options[@]+"${options[@]}"} "$file"
        fi
        ;;
    esac
}

# The latches' names of a design.
latches() {
    sed -n 's/^\.latch [^ ]* \([^ ]*\).*/\1/p' "$dir/blif" | sort | paste -s -d ' '
}

# A register with an asynchronous reset and an enable keeps its name, in a vector, in a generate block, and beside a set.
held_names() {
    cat >"$dir/held.v" <<'END'
module held(input clk, input rst, input set, input en, input [1:0] d, output reg [1:0] st, output [3:0] o, output reg sr);
  genvar i;
  generate for (i = 0; i < 2; i = i + 1) begin : st_cell
    held_flop f(.clk(clk), .rst(rst), .en(en), .d(d ^ {2{i == 1}}), .q(o[2 * i +: 2]));
  end endgenerate
  always @(posedge clk or posedge rst) if (rst) st <= 1; else if (en) st <= d;
  always @(posedge clk or posedge set or posedge rst) if (rst) sr <= 0; else if (set) sr <= 1; else if (en) sr <= d[0];
endmodule
module held_flop(input clk, input rst, input en, input [1:0] d, output reg [1:0] q);
  always @(posedge clk or posedge rst) if (rst) q <= 0; else if (en) q <= d;
endmodule
END
    to_blif -o "$dir/blif" "$dir/held.v" 2>/dev/null && latches
}

# A wire that is named as a bit of a port is, as read_blif and write_verilog leave one.
bit_names() {
    cat >"$dir/bits.v" <<'END'
module bits(input clk, input d, output [1:0] acc);
  reg \acc[0] = 0;
  wire \acc[1] ;
  always @(posedge clk) \acc[0] <= d;
  assign \acc[1] = \acc[0] & d;
  assign acc = {\acc[1] , \acc[0] };
endmodule
END
    alone "$dir/bits.v" && latches && gates 'acc[0]' 'acc[1]'
}

# A file with CR before each LF comes to the same netlist.
crlf() {
    mkdir "$dir/crlf"
    sed 's/$/\r/' two_orders.v >"$dir/crlf/two_orders.v"
    to_blif -o "$dir/lf.blif" two_orders.v && (cd "$dir/crlf" && to_blif -o "$dir/crlf.blif" two_orders.v) && cmp "$dir/lf.blif" "$dir/crlf.blif" && echo "the same netlist"
}

options() {
    mkdir "$dir/parts"
    echo "localparam LOW = 3;" >"$dir/parts/low.vh"
    cat >"$dir/both.v" <<'END'
module one #(parameter WIDTH = 1) (input [WIDTH - 1:0] a, output [WIDTH - 1:0] y);
`include "low.vh"
  assign y = a ^ `MASK ^ LOW;
endmodule
module two(input a, output y);
  assign y = ~a;
endmodule
END
    to_blif "$dir/both.v" -I "$dir/parts" -D MASK=1 2>&1
    to_blif -I "$dir/parts" -DMASK=1 --param WIDTH=2 "$dir/both.v" one | grep '^\.[mio]'
    to_blif --ports -I "$dir/parts" -D MASK=1 --param WIDTH=3 "$dir/both.v" one
    to_blif -I "$dir/parts" -D MASK=1 --param DEPTH=2 "$dir/both.v" one 2>&1 | grep -o "ERROR.*"
}

for file in *.v *.sv; do
    [[ $file == *.care.v ]] || design "$file" 2>&1 | sed "s/^/${file%.*}: /"
done | tee "$dir/told"
for it in held_names bit_names crlf options; do
    $it 2>&1 | sed "s/^/$it: /"
done | tee -a "$dir/told"
diff "$dir/told" expected.txt >&2 && echo "each line as expected"
