#!/usr/bin/env bash
# Decides designs that come with Debian's source packages of yosys and fpga-icestorm: arithmetic, memories, state
# machines, UARTs, small processors, benchmark circuits. recipes/to_blif.sh makes a BLIF netlist of each,
# but for a few whose memories it would make latches of for over five minutes.
# It prints time, peak memory, gates and what `check` says of each, and then how many came to what.
#   bench/real.sh            fetches the sources (`apt-get source`, which wants a deb-src line) and makes the netlists
#   bench/real.sh FOLDER     the same in FOLDER, which may have the sources' trees; the netlists stay there, for a later run
# CYC=PROGRAM in the environment takes that program in place of ./cyc.
set -u
top=$(cd "$(dirname "$0")/.." && pwd) || exit 1
cyc=${CYC:-$top/cyc}
if [ $# -gt 0 ]; then
    dir=$(cd "$1" && pwd) || exit 1
else
    dir=$(mktemp -d) || exit 1
    trap 'rm -rf "$dir"' EXIT
fi

sources() {
    find "$dir"/*yosys*/tests/{asicworld,hana,simple,sat,sim,arch/common} "$dir"/*yosys*/examples \
        "$dir"/*icestorm*/{examples,icefuzz/tests} -name '*.v' 2>/dev/null | sort
}

# The netlist of a design, of the module that is named behind the two files where one is.
convert() {
    timeout 300 "$top/recipes/to_blif.sh" --sv -o "$2" "$1" ${3:+"$3"} >/dev/null || { rm -f "$2"; return 1; }
}

if [ ! -d "$dir/netlists" ]; then
    [ -n "$(sources)" ] || (cd "$dir" && apt-get source -qq yosys fpga-icestorm >/dev/null 2>&1)
    mkdir "$dir/netlists"
    sources | while read -r design; do
        name=${design#"$dir"/}
        blif=$dir/netlists/$(echo "${name%.v}" | tr / _).blif
        convert "$design" "$blif" 2>"$dir/fault" && continue
        # Of several modules that no other one has in it, each one by itself.
        for module in $(sed -n 's/^to_blif: more than one module is in no other one: \(.*\) - .*/\1/p' "$dir/fault"); do
            convert "$design" "${blif%.blif}_$module.blif" "$module" 2>/dev/null || true
        done
    done
fi

"$cyc" check "$top/examples/full_adder.blif" >/dev/null 2>&1 # builds the program where it isn't built
for blif in "$dir"/netlists/*.blif; do
    /usr/bin/time -o "$dir/time" -f "%U %S %M" "$cyc" check "$blif" >"$dir/out" 2>&1
    line=$(head -n 1 "$dir/out" | sed "s#$dir/netlists/##" | cut -c1-90)
    tail -n 1 "$dir/time" | awk -v name="$(basename "$blif" .blif)" -v line="$line" \
        '{ printf "%7.2f s %8d kB  %-50s %s\n", $1 + $2, $3, name, line }'
done | tee "$dir/told"
awk '{ word = $6 ~ /^(accepted|refused|node)$/ ? $6 : "with a fault"; told[word]++ } END { for (word in told) print told[word], word }' "$dir/told"
sort -rn "$dir/told" | head -n 1
