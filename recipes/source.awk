#!/usr/bin/awk -f
# Adds to what `cyc explain`, `loops` or `check` says of a netlist that to_blif.sh wrote where in the source each wire comes
# from, in a line of its own behind the first one that names the wire. All other lines are as they were.
#
#   cyc explain F.blif | recipes/source.awk F.blif
#
# A gate that Yosys made without such a place is told where the gates are that read it.

# The places of a `src` attribute, without those in Yosys' own files and without columns.
function places(text,   list, ends, count, i, found) {
    count = split(text, list, "|")
    for (i = 1; i <= count; i++) {
        if (list[i] ~ /\/yosys\/[^\/]*\.v:/) continue
        if (match(list[i], /[0-9]+\.[0-9]+-[0-9]+\.[0-9]+$/)) {
            split(substr(list[i], RSTART), ends, /[.-]/)
            list[i] = substr(list[i], 1, RSTART - 1) ends[1] (ends[3] == ends[1] ? "" : "-" ends[3])
        }
        if (!((found " ") ~ (" " escaped(list[i]) " "))) found = found " " list[i]
    }
    return found
}

function escaped(text) {
    gsub(/[][\\.*+?(){}|^$]/, "\\\\&", text)
    return text
}

# Yosys names a wire by the operator that it comes from, as $and$f.v:3$1_Y.
function named(wire) {
    return match(wire, /\$[^$]*:[0-9]+\$/) && substr(wire, RSTART, RLENGTH) !~ /\$[^$]*(\.cc|\/yosys\/[^$]*\.v):/ \
        ? " " substr(wire, RSTART + 1, RLENGTH - 2) : ""
}

function place_of(wire,   list, count, i, found) {
    if (wire in place && place[wire] != "") return place[wire]
    if (named(wire) != "") return named(wire)
    count = split(readers[wire], list, " ")
    for (i = 1; i <= count && i <= 3; i++)
        if (place[list[i]] != "" && !((found " ") ~ (escaped(place[list[i]]) " "))) found = found place[list[i]]
    return found == "" ? "" : ", which is read at" found
}

function tell(wire,   text) {
    if (!(wire in driven) || wire in told) return
    told[wire]
    text = place_of(wire)
    if (text ~ /^,/) print "  " wire text
    else if (text != "") print "  " wire " at" text
}

BEGIN { if (ARGC < 3) ARGV[ARGC++] = "-" }
FILENAME == ARGV[1] {
    if ($1 == ".names") { wire = $NF; driven[wire]; for (i = 2; i < NF; i++) readers[$i] = readers[$i] " " wire }
    if ($1 == ".latch") { wire = $3; driven[wire]; readers[$2] = readers[$2] " " wire }
    if ($1 == ".attr" && $2 == "src") { text = $0; sub(/^[^"]*"/, "", text); sub(/"$/, "", text); place[wire] = places(text) }
    next
}
{
    print
    for (i = 1; i <= NF; i++) {
        word = $i
        sub(/^wire=/, "", word)
        tell(word)
        if (sub(/=[01x]$/, "", word)) tell(word)
    }
}
