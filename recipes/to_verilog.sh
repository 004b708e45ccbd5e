#!/usr/bin/env bash
# From BLIF, as `cyc rewrite` writes it, back to Verilog: one module that simulators and synthesis tools read.
#
#   recipes/to_verilog.sh [-o FILE] [--clock NAME] F.blif [[OPTION].. FILE.v.. [TOP]]
#
#   -o FILE          writes FILE; without it standard output
#   --clock NAME     the clock of latches that name none, as abc writes them
#   FILE.v.. [TOP]   the source that the netlist comes from, with the options that to_blif.sh had: the module gets its
#                    name and its ports, in its order and with its ranges. It is read by yosys. Without it the ports are the
#                    inputs and then the outputs of the netlist, and x[0], x[1], .. are one port x
#
# The netlist is flat, as all that cyc writes; `cyc flat` makes it so. Registers keep their names, as do all wires but those
# that Yosys named.
set -eu -o pipefail
recipes=$(cd "$(dirname "$(readlink -f "${BASH_SOURCE[0]}")")" && pwd)

say() {
    echo "to_verilog: $*" >&2
    exit 1
}

usage() {
    sed -n '/^#   recipes/s/^# *//p' "${BASH_SOURCE[0]}" >&2
    exit 2
}

out='' clock='' blif=''
while [ $# -gt 0 ] && [ -z "$blif" ]; do
    case $1 in
    -o) [ $# -gt 1 ] || usage; out=$2; shift ;;
    --clock) [ $# -gt 1 ] || usage; clock=$2; shift ;;
    -*) usage ;;
    *) [ -f "$1" ] || say "there is no file $1"; blif=$1 ;;
    esac
    shift
done
[ "$blif" ] || usage
dir=$(mktemp -d)
trap 'rm -rf "$dir"' EXIT

# The ports of the netlist, in the form of `to_blif.sh --ports`: names with indexes that fill a range are one port. A clock
# that is no input becomes one.
own_ports() {
    awk -v clock="$clock" '
        function is_bit(name) {
            if (!match(name, /\[(0|[1-9][0-9]*)\]$/)) return 0
            base = substr(name, 1, RSTART - 1)
            number = substr(name, RSTART + 1, RLENGTH - 2) + 0
            return 1
        }
        function add(way, name) {
            if ((way, name) in seen) return
            seen[way, name]
            names[++count] = name
            ways[count] = way
            if (!is_bit(name)) { plain[name]; return }
            if (!(base in low)) { low[base] = high[base] = number; way_of[base] = way }
            if (number < low[base]) low[base] = number
            if (number > high[base]) high[base] = number
            if (way != way_of[base]) plain[base]
            bits[base]++
        }
        { sub(/\r$/, ""); sub(/#.*/, "") }
        sub(/\\$/, "") { held = held $0 " "; next }
        { $0 = held $0; held = "" }
        $1 == ".model" { if (models++) exit; print "module " $2 }
        $1 == ".inputs" || $1 == ".clock" { for (i = 2; i <= NF; i++) add("input", $i) }
        $1 == ".outputs" { for (i = 2; i <= NF; i++) add("output", $i) }
        END {
            if (clock != "" && !(("input", clock) in seen)) add("input", clock)
            for (n = 1; n <= count; n++) {
                if (is_bit(names[n]) && !(base in plain) && bits[base] > 1 && bits[base] == high[base] - low[base] + 1) {
                    if (!told[base]++) print ways[n] " [" high[base] ":" low[base] "] " base
                } else print ways[n] " " names[n]
            }
        }
    ' "$1"
}

if [ $# -gt 0 ]; then
    "$recipes/to_blif.sh" --ports "$@" >"$dir/ports" || exit 1
else
    own_ports "$blif" >"$dir/ports"
fi
awk -v clock="$clock" -f "$recipes/verilog.awk" "$dir/ports" "$blif" >"$dir/whole"
if [ "$out" ]; then cat "$dir/whole" >"$out"; else cat "$dir/whole"; fi
