# Writes a flat netlist as a module of Verilog: a gate is an assignment of an OR of ANDs, a latch an assignment in a block at
# the clock's edge. to_verilog.sh runs it.
#
#   awk -f recipes/verilog.awk [-v clock=NAME] PORTS F.blif
#
# PORTS has the line `module NAME` and a line for each port, as `input [3:0] x`. Bits of one wire are one vector, and
# constants and other wires that Yosys named get short names.

function fail(text) {
    print "to_verilog: " text >"/dev/stderr"
    failed = 1
    exit 1
}

function id(name) {
    return name ~ /^[A-Za-z_][A-Za-z0-9_]*$/ && !(name in keywords) ? name : "\\" name " "
}

# Cuts the name of a bit into `base` and `number`.
function is_bit(name) {
    if (!match(name, /\[(0|[1-9][0-9]*)\]$/)) return 0
    base = substr(name, 1, RSTART - 1)
    number = substr(name, RSTART + 1, RLENGTH - 2) + 0
    return 1
}

# Binds the bits of a port to the netlist's names.
function add_port(way, range, name,   ends, i, step) {
    ports[++port_count] = name
    port_way[name] = way
    port_range[name] = range
    if (range != "" && split(substr(range, 2), ends, /[]:]/) && ends[1] != ends[2]) {
        step = ends[1] + 0 < ends[2] + 0 ? 1 : -1
        for (i = ends[1] + 0; i != ends[2] + step; i += step) { port_of[name "[" i "]"] = name; text_of[name "[" i "]"] = id(name) "[" i "]" }
    } else { port_of[name] = name; text_of[name] = id(name) }
}

# A wire that is driven, and the gate or latch that drives it.
function drive(name, kind) {
    if (name in kind_of) fail("driven twice: " name)
    kind_of[name] = kind
    driven[++driven_count] = name
}

# The vectors of the wires that aren't ports: bits of one name and kind that fill a range.
function find_vectors(   n, name) {
    for (n = 1; n <= driven_count; n++) {
        name = driven[n]
        if (name in port_of || substr(name, 1, 1) == "$" || !is_bit(name)) continue
        if (!(base in low)) { low[base] = high[base] = number; kind_of_all[base] = kind_of[name] }
        if (number < low[base]) low[base] = number
        if (number > high[base]) high[base] = number
        if (kind_of[name] != kind_of_all[base]) kind_of_all[base] = "both"
        members[base]++
    }
}

function is_vector(name) {
    return name in low && kind_of_all[name] != "both" && members[name] == high[name] - low[name] + 1 && members[name] > 1 \
        && !(name in kind_of) && !(name in port_way) && !(name in reads)
}

# Whether the port is a register: all of its bits are latches.
function find_registers(   n, name) {
    for (name in port_of) {
        bits_of[port_of[name]]++
        if (kind_of[name] == "latch") latches_of[port_of[name]]++
    }
    for (n = 1; n <= port_count; n++) if (port_way[ports[n]] == "output" && latches_of[ports[n]] == bits_of[ports[n]]) is_register[ports[n]]
}

function declare(   n, name) {
    for (n = 1; n <= driven_count; n++) {
        name = driven[n]
        if (name in port_of) {
            if (kind_of[name] == "latch" && !(port_of[name] in is_register)) {
                declared = declared "  reg " register(name) ";\n"
                assigned = assigned "  assign " text_of[name] " = " register(name) ";\n"
            }
        } else if (is_constant[name] && substr(name, 1, 1) == "$") text_of[name] = value[name]
        else if (substr(name, 1, 1) == "$") {
            do short = "_" ++shorts "_"; while (short in kind_of || short in port_way || short in reads)
            text_of[name] = short
            declared = declared "  " (kind_of[name] == "latch" ? "reg " : "wire ") short ";\n"
        } else if (is_bit(name) && is_vector(base)) {
            text_of[name] = id(base) "[" number "]"
            if (!(base in is_declared)) declared = declared "  " (kind_of[name] == "latch" ? "reg " : "wire ") "[" high[base] ":" low[base] "] " id(base) ";\n"
            is_declared[base]
        } else {
            text_of[name] = id(name)
            declared = declared "  " (kind_of[name] == "latch" ? "reg " : "wire ") id(name) ";\n"
        }
    }
}

# What a latch loads into: the port itself, or a register beside a port that has other bits too.
function register(name) {
    return name in port_of && !(port_of[name] in is_register) ? "\\" name " " : text_of[name]
}

function read(name) {
    if (!(name in text_of) || (!(name in kind_of) && port_way[port_of[name]] != "input")) fail("nothing drives " name)
    return text_of[name]
}

# A row of a cover, as an AND of its literals.
function product(pins, row,   i, text, c) {
    for (i = 1; i <= length(row); i++) {
        c = substr(row, i, 1)
        if (c != "-") text = text (text == "" ? "" : " & ") (c == "0" ? "~" : "") read(pins[i])
    }
    return text == "" ? "1'b1" : text
}

function expression(gate,   pins, count, parts, i, text, one) {
    count = split(pins_of[gate], pins, " ")
    if (!rows[gate]) return "1'b0"
    if (!count) return value[gate]
    for (i = 1; i <= rows[gate]; i++) {
        one = product(pins, row_of[gate, i])
        text = text (i > 1 ? " | " : "") (rows[gate] > 1 && one ~ / & / ? "(" one ")" : one)
    }
    return off[gate] ? "~(" text ")" : text
}

BEGIN {
    split("always and assign automatic begin buf bufif0 bufif1 case casex casez cell cmos config deassign default defparam design disable edge else end endcase endconfig endfunction endgenerate endmodule endprimitive endspecify endtable endtask event for force forever fork function generate genvar highz0 highz1 if ifnone incdir include initial inout input instance integer join large liblist library localparam macromodule medium module nand negedge nmos nor noshowcancelled not notif0 notif1 or output parameter pmos posedge primitive pull0 pull1 pulldown pullup pulsestyle_ondetect pulsestyle_onevent rcmos real realtime reg release repeat rnmos rpmos rtran rtranif0 rtranif1 scalared showcancelled signed small specify specparam strong0 strong1 supply0 supply1 table task time tran tranif0 tranif1 tri tri0 tri1 triand trior trireg unsigned use uwire vectored wait wand weak0 weak1 while wire wor xnor xor bit break byte checker class const continue do enum export final import int interface logic longint modport package priority program property pure rand ref return sequence shortint static string struct super this type typedef union unique var virtual void with assert assume cover expect restrict", list, " ")
    for (n in list) keywords[list[n]]
}
FNR == NR && $1 == "module" { module = $2; next }
FNR == NR { add_port($1, NF == 3 ? $2 : "", $NF); next }
{ sub(/\r$/, ""); sub(/#.*/, "") }
sub(/\\$/, "") { held = held $0 " "; next }
{ $0 = held $0; held = "" }
$1 == ".model" && models++ { exit }
$1 == ".inputs" || $1 == ".clock" { for (i = 2; i <= NF; i++) if (!($i in inputs)) { inputs[$i]; if (port_way[port_of[$i]] != "input") fail("no input of " module " is " $i) } }
$1 == ".outputs" { for (i = 2; i <= NF; i++) { outputs[++output_count] = $i; if (port_way[port_of[$i]] != "output") fail("no output of " module " is " $i) } }
$1 == ".names" {
    gate = $NF
    drive(gate, "gate")
    is_constant[gate] = NF == 2
    value[gate] = "1'b0"
    for (i = 2; i < NF; i++) { pins_of[gate] = pins_of[gate] " " $i; reads[$i] }
    next
}
$1 == ".latch" {
    drive($3, "latch")
    latch[++latch_count] = $3
    loads[$3] = $2
    reads[$2]
    edge[$3] = NF >= 5 ? $4 : "re"
    control[$3] = NF >= 5 && $5 != "NIL" ? $5 : clock
    if (control[$3] == "") fail("a latch without a clock: " $3 " - give the clock's name as --clock NAME")
    start[$3] = NF == 4 || NF == 6 ? $NF : 3
}
$1 == ".subckt" || $1 == ".gate" || $1 == ".mlatch" { fail("not flat: " $0) }
/^[ \t]*[01-]/ {
    if (is_constant[gate]) { value[gate] = "1'b" $1; rows[gate] = 1 }
    else { row_of[gate, ++rows[gate]] = $1; off[gate] = $2 == "0" }
}
END {
    if (failed) exit 1
    find_vectors()
    find_registers()
    declare()
    for (n = 1; n <= output_count; n++) if (!(outputs[n] in kind_of)) fail("nothing drives the output " outputs[n])
    for (n = 1; n <= port_count; n++) {
        name = ports[n]
        printf "%s%s %s%s%s", (n > 1 ? ",\n  " : "module " id(module) "(\n  "), port_way[name], (name in is_register ? "reg " : ""), (port_range[name] == "" ? "" : port_range[name] " "), id(name)
    }
    print (port_count ? "\n" : "module " id(module) "(") ");"
    printf "%s%s", declared, assigned
    for (n = 1; n <= latch_count; n++) if (start[latch[n]] ~ /^[01]$/) print "  initial " register(latch[n]) " = 1'b" start[latch[n]] ";"
    for (n = 1; n <= latch_count; n++) print "  always @(" (edge[latch[n]] == "fe" ? "negedge " : "posedge ") read(control[latch[n]]) ") " register(latch[n]) " <= " read(loads[latch[n]]) ";"
    for (n = 1; n <= driven_count; n++) {
        name = driven[n]
        if (kind_of[name] == "gate" && !(is_constant[name] && substr(name, 1, 1) == "$")) print "  assign " text_of[name] " = " expression(name) ";"
    }
    print "endmodule"
}
