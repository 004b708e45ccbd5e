# Draws a value change dump of single wires as an SVG picture: a line for each wire, high where it is 1, over an axis of
# moments. Given what `cyc loops` prints, it draws the wires of the loops alone; given the schedule that was played, it
# marks where each round begins. These stand before the dump, in any order.
#
#   awk -f recipes/waves.awk [-v wires="NAME .." | -v wires=all] [LOOPS] [SCHEDULE] FILE.vcd >FILE.svg
#
# With wires=all all wires are drawn, and with names those of these names.
function high_or_low(code) { return top[code] + (value[code] ? 0 : height) }
function at(moment) { return left + scale * moment }
function step(code) {
    path[code] = path[code] (path[code] ? " H " at(time) " V " : "M " at(time) " ") high_or_low(code)
}
function is_drawn(name) { return wires == "all" || name in chosen || !told }
BEGIN {
    row = 26; height = 16; scale = 14; longest = 6
    told = wires != "" && wires != "all"
    for (i = split(wires, names, " "); i > 0; i--) chosen[names[i]] = 1
    told_by_words = told
}
FNR == 1 { kind = /^loops=/ ? "loops" : /^\$/ ? "dump" : "schedule" }

kind == "loops" && $1 == "loop" && $3 == "gates" && !told_by_words {
    told = 1
    for (i = 4; i <= NF; i++) chosen[$i] = 1
}

# The first tick opens at moment 0, a later one and each event take a moment.
kind == "schedule" && $1 == "tick" && ticks++ { moment++ }
kind == "schedule" && $1 == "round" { begins[++rounds] = moment + 1 }
kind == "schedule" && $1 == "e" { moment++ }

kind == "dump" && $1 == "$var" && is_drawn($5) {
    name[$4] = $5
    order[++drawn] = $4
    top[$4] = 10 + row * (drawn - 1)
    if (length($5) > longest) longest = length($5)
}
kind == "dump" && $1 == "$enddefinitions" { left = 14 + 8 * longest }
kind == "dump" && /^#/ { time = substr($0, 2) + 0 }
kind == "dump" && /^[01]/ && substr($0, 2) in name { code = substr($0, 2); value[code] = substr($0, 1, 1) + 0; step(code) }

END {
    if (moment > time) time = moment
    right = at(time + 2)
    axis = row * drawn + 10
    printf "<svg xmlns=\"http://www.w3.org/2000/svg\" width=\"%d\" height=\"%d\" font-family=\"monospace\" font-size=\"12\">\n", right + 10, axis + 36
    print "<rect width=\"100%\" height=\"100%\" fill=\"white\"/>"
    for (i = 1; i <= rounds; i++) {
        x = at(begins[i] - 0.5)
        printf "<path d=\"M %g 4 V %d\" stroke=\"gray\" stroke-dasharray=\"3 3\"/>\n", x, axis
        word = ((i < rounds ? begins[i + 1] : moment + 1) - begins[i]) * scale < 60 ? "" : "round "
        printf "<text x=\"%g\" y=\"%d\" fill=\"gray\">%s%d</text>\n", x + 3, axis + 32, word, i
    }
    for (i = 1; i <= drawn; i++) {
        code = order[i]
        text = name[code]
        gsub(/&/, "\\&amp;", text); gsub(/</, "\\&lt;", text)
        printf "<text x=\"4\" y=\"%d\">%s</text>\n", top[code] + height - 3, text
        printf "<path d=\"%s H %d\" fill=\"none\" stroke=\"black\"/>\n", path[code], right
    }
    every = time > 200 ? 50 : time > 40 ? 10 : time > 12 ? 5 : 1
    printf "<path d=\"M %d %d H %d\" stroke=\"black\"/>\n", left, axis, right
    for (i = 0; i <= time; i += every)
        printf "<path d=\"M %d %d v 4\" stroke=\"black\"/><text x=\"%d\" y=\"%d\" text-anchor=\"middle\">%d</text>\n", at(i), axis, at(i), axis + 17, i
    print "</svg>"
}
