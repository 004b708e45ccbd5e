# Reads a flat module as Yosys' write_json writes it, and finds two things before wires get values and become gates.
#
#   awk -f recipes/wires.awk -v hidden=FILE JSON
#
# It prints each wire that is read and that nothing drives, with its place in the source. FILE gets a command of Yosys
# for each wire whose name is that of a bit of another one, as \acc[0] beside acc: in BLIF both would be acc[0].

# The numbers of a list, into `list`.
function numbers(text) {
    sub(/^ *"[^"]*": \[ */, "", text)
    sub(/ *\],?$/, "", text)
    return split(text, list, /, */)
}

function name_of(text) {
    sub(/^ *"/, "", text)
    sub(/": \{$/, "", text)
    gsub(/\\\\/, "\\", text)
    return text
}

function value_of(text) {
    sub(/^ *"[^"]*": */, "", text)
    gsub(/^"|"?,?$/, "", text)
    return text
}

function mark(marked, text,   i, last) {
    last = numbers(text)
    for (i = 1; i <= last; i++) marked[list[i]]
}

function is_open(bit) {
    return bit ~ /^[0-9]+$/ && bit in used && !(bit in driven)
}

# The number that the source gives to a bit of a wire, counted from its lowest.
function index_of(wire, bit) {
    return wire in upto ? offset[wire] + width[wire] - 1 - bit : offset[wire] + bit
}

# The bits of a wire that are open and not told yet, as `[3:2]`.
function open_bits(wire,   i, from, text) {
    for (i = 0; i < width[wire]; i++) {
        if (!is_open(bits[wire, i]) || bits[wire, i] in told) continue
        for (from = i; i + 1 < width[wire] && is_open(bits[wire, i + 1]) && !(bits[wire, i + 1] in told); i++);
        if (i - from + 1 == width[wire]) text = text " " wire
        else text = text " " wire "[" index_of(wire, i) (i > from ? ":" index_of(wire, from) : "") "]"
    }
    for (i = 0; i < width[wire]; i++) told[bits[wire, i]]
    return text
}

function tell(wire,   text) {
    text = open_bits(wire)
    if (text != "") print substr(text, 2) (place[wire] == "" ? "" : " at " place[wire])
}

# Has Yosys take the name away from a wire whose name is that of a bit of another one.
function hide(wire,   base, bit, pattern) {
    if (wire in ports || !match(wire, /\[[0-9]+\]$/)) return
    base = substr(wire, 1, RSTART - 1)
    bit = substr(wire, RSTART + 1, RLENGTH - 2) - offset[base]
    if (!(base in width) || width[base] < 2 || bit < 0 || bit >= width[base]) return
    pattern = wire
    gsub(/[][*?\\]/, "\\\\&", pattern)
    print "rename -hide w:" pattern >hidden
}

BEGIN { printf "" >hidden }
/^      "[a-z]+": \{/ { part = name_of($0); next }
/^        "/ { item = name_of($0); inside = "" }
/^          "/ { inside = $1 }
part == "ports" && /^          "direction"/ { ports[item]; is_read = $2 !~ /"input"/; is_driven = $2 !~ /"output"/ }
part == "ports" && /^          "bits"/ { if (is_read) mark(used, $0); if (is_driven) mark(driven, $0) }
part == "cells" && /^            / && inside == "\"port_directions\":" { direction[$1] = $2 }
part == "cells" && /^            / && inside == "\"connections\":" {
    if (direction[$1] !~ /output/) mark(used, $0)
    if (direction[$1] !~ /input/) mark(driven, $0)
}
part == "cells" && /^        }/ { split("", direction) }
part == "netnames" && /^          "hide_name"/ { if ($2 ~ /1/) is_hidden[item]; wires[++count] = item; offset[item] = 0 }
part == "netnames" && /^          "bits"/ { width[item] = numbers($0); for (i = 1; i <= width[item]; i++) bits[item, i - 1] = list[i] }
part == "netnames" && /^          "offset"/ { offset[item] = value_of($0) + 0 }
part == "netnames" && /^          "upto"/ { upto[item] }
part == "netnames" && /^            "src"/ { place[item] = value_of($0) }
END {
    for (n = 1; n <= count; n++) if (!(wires[n] in is_hidden)) { tell(wires[n]); hide(wires[n]) }
    for (n = 1; n <= count; n++) if (wires[n] in is_hidden) tell(wires[n])
}
