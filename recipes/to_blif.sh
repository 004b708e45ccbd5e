#!/usr/bin/env bash
# From Verilog to BLIF that cyc reads: gates, plain flip-flops, no hierarchy, no memories, no unknown bits.
#
#   recipes/to_blif.sh [-o FILE] [OPTION].. FILE.v.. [TOP]
#   recipes/to_blif.sh [-o FILE] [OPTION].. --care FILE.v..
#   recipes/to_blif.sh [-o FILE] [OPTION].. --ports FILE.v.. [TOP]
#
#   TOP                  the module to take; without it the one that no other module has in it
#   -o FILE              writes FILE; without it standard output
#   --sv                 reads all files as SystemVerilog; without it those that end in .sv
#   -I FOLDER            looks for included files in FOLDER too
#   -D NAME[=TEXT]       defines a name for the preprocessor
#   --param NAME=VALUE   gives a parameter of the top a value, as --param WIDTH=8, --param "START=4'b0001"
#   --init WIRE=VALUE    gives registers a start value, as --init "pointer=4'b0001" for the state after a reset
#   --sample-clocks      for more than one clock: each register reads its clock as data, and a tick is any change of a clock
#   --care               writes a care file: the modules `assume` and `invariant`, or the one that the files have
#   --ports              writes the top's name and its ports, in the source's order, as to_verilog.sh wants them
#
# -I, -D, --param and --init may be repeated. It needs yosys. Where a pass of Yosys fails, or something is left that BLIF
# has no line for, it says so on err and its status is 1; docs/VERILOG.md says what to do then. What Yosys warns of, and
# each wire that nothing drives, is told on err. The passes `share`, `synth` (which runs it) and `abc` aren't run: none of
# them is made for loops.
# shellcheck disable=SC2016 # (the names of Yosys' cells begin with a $)
set -eu -o pipefail
recipes=$(cd "$(dirname "$(readlink -f "${BASH_SOURCE[0]}")")" && pwd)

say() {
    echo "to_blif: $*" >&2
    exit 1
}

usage() {
    sed -n '/^#   recipes/s/^# *//p' "${BASH_SOURCE[0]}" >&2
    exit 2
}

verilog='' out='' top='' samples='' writes_care='' writes_ports='' files=() reading=() inits=() parameters=()
while [ $# -gt 0 ]; do
    case $1 in
    -o) [ $# -gt 1 ] || usage; out=$2; shift ;;
    -I | -D) [ $# -gt 1 ] || usage; reading+=("$1$2"); shift ;;
    -I?* | -D?*) reading+=("$1") ;;
    --init) [[ ${2:-} == ?*=?* ]] || usage; inits+=("$2"); shift ;;
    --param) [[ ${2:-} == ?*=?* ]] || usage; parameters+=("$2"); shift ;;
    --sv) verilog=-sv ;;
    --sample-clocks) samples=yes ;;
    --care) writes_care=yes ;;
    --ports) writes_ports=yes ;;
    -*) usage ;;
    *)
        if [ -f "$1" ]; then
            files+=("$1")
        elif [ $# -eq 1 ] && [[ $1 != *.v && $1 != *.sv ]]; then
            top=$1
        else
            say "there is no file $1"
        fi
        ;;
    esac
    shift
done
[ ${#files[@]} -gt 0 ] || usage
for it in ${reading[@]+"${reading[@]}"}; do
    [[ $it != *[[:space:]]* ]] || say "Yosys takes no blank in $it"
done
command -v yosys >/dev/null || say "yosys isn't installed"
dir=$(mktemp -d)
trap 'rm -rf "$dir"' EXIT

# Latches that are open at a level. `async2sync` would make clocked ones of them without a word.
latches='t:$*dlatch* t:$_DLATCH* t:$_SR_* t:$sr'

read_files() {
    local file
    for file in "${files[@]}"; do
        case $file in
        *.sv) echo "read_verilog -sv ${reading[*]-} \"$file\"" ;;
        *) echo "read_verilog $verilog ${reading[*]-} \"$file\"" ;;
        esac
    done
}

# The commands of Yosys that read the files and take one module, with what it stands on.
take() {
    local it
    read_files
    printf 'hierarchy -check -top %s' "$1"
    for it in ${parameters[@]+"${parameters[@]}"}; do printf ' -chparam %s %s' "${it%%=*}" "${it#*=}"; done
    echo
    [ ${#parameters[@]} -eq 0 ] || echo "rename -top $1" # (a module with other parameters has a name of Yosys)
}

# The commands that make gates of it. Bits that are unknown become 0 before any pass that may choose a value for them.
passes() {
    local it
    printf '%s\n' proc flatten 'chformal -remove' opt_clean "write_json $dir/json" \
        "exec -q -expect-return 0 -- awk -f $dir/wires.awk -v hidden=$dir/hidden $dir/json > $dir/open" "script $dir/hidden" \
        memory_map 'setundef -zero -undriven' 'opt -full' techmap 'setundef -zero' opt
    for it in ${inits[@]+"${inits[@]}"}; do
        echo "select -assert-any w:${it%%=*}"
        echo 'select -clear'
        echo "setattr -set init ${it#*=} w:${it%%=*}"
    done
    printf '%s\n' "select -assert-none $latches" 'select -clear'
    if [ "$samples" ]; then
        printf '%s\n' clk2fflogic techmap
    else
        printf '%s\n' async2sync 'dfflegalize -cell $_DFF_P_ 01 -cell $_DFF_N_ 01'
    fi
    printf '%s\n' simplemap opt_clean 'setundef -zero -undriven' opt_clean "write_blif -noalias -attr -iattr $dir/blif"
}

# What Yosys warned of, each warning once. A care model's name is a keyword of SystemVerilog.
tell_warnings() {
    awk -v care="$writes_care" '
        /^to_blif: / || !/(^|: |^Lexer )[Ww]arning: / || seen[$0]++ || (care && /keyword `assume/) { next }
        { sub(/Warning: /, ""); print "to_blif: Yosys warns: " $0 }
    ' "$dir/log" >&2
}

# Runs commands, and tells which of them failed and why.
run_yosys() {
    sed 'h; s/^/log to_blif: /; G' >"$dir/script"
    if ! yosys -q -l "$dir/log" -s "$dir/script" >"$dir/said" 2>&1; then
        tell_warnings
        echo "to_blif: Yosys stopped at: $(sed -n 's/^to_blif: //p' "$dir/log" | tail -n 1)" >&2
        sed -n 's/^Latch inferred for signal `\\\([^ ]*\)'\'' from process `.*\$proc\$\(.*\)\$[0-9]*'\''.*/  a latch that is open at a level: \1 at \2/p' \
            "$dir/log" >&2
        { grep -m 1 -A 5 'ERROR' "$dir/log" || tail -n 5 "$dir/said"; } |
            { grep -v '^Warnings:\|^Time spent\|^End of\|^$' || true; } | sed 's/^/  /' >&2
        exit 1
    fi
}

# A latch behind an asynchronous reset has a name of `async2sync`. It gets that of its register, as `state_held[0]`, where
# no wire has that name. The register is what the multiplexer of the reset drives, or, with a set beside the reset, the OR
# and then the AND of the two; a name that Yosys made, as that of the multiplexer of an enable, is none of a register.
name_held() {
    awk '
        function is_made(name) { return substr(name, 1, 1) == "$" }
        function hold(latch, register,   wanted) {
            wanted = match(register, /\[[0-9]+\]$/) ? substr(register, 1, RSTART - 1) "_held" substr(register, RSTART) : register "_held"
            if (!(wanted in taken)) { held[latch] = wanted; taken[wanted] }
        }
        FNR == 1 { pass++ }
        pass == 1 { for (i = 2; i <= NF; i++) taken[$i] }
        pass == 1 && $1 == ".latch" && $3 ~ /async2sync/ { held[$3] = $3 }
        pass == 2 && $1 == ".names" && NF == 5 && ($2 in held || $3 in held) && !is_made($5) { hold($2 in held ? $2 : $3, $5) }
        pass == 2 && $1 == ".names" && NF == 4 && ($2 in held || $3 in held) { is_set[$4] = $2 in held ? $2 : $3 }
        pass == 2 && $1 == ".names" && NF == 4 && ($2 in is_set || $3 in is_set) && !is_made($4) { hold(is_set[$2 in is_set ? $2 : $3], $4) }
        pass == 3 { if ($1 != ".attr") for (i = 2; i <= NF; i++) if ($i in held) $i = held[$i]; print }
    ' "$1" "$1" "$1"
}

# The BLIF of one module. Instances that are left are cells that BLIF has no line for.
convert() {
    cp "$recipes/wires.awk" "$dir/wires.awk"
    { take "$1"; passes; } | run_yosys
    tell_warnings
    sed 's/^/to_blif: nothing drives, so it is 0: /; s/|/, /g' "$dir/open" >&2
    awk '$1 == ".subckt" { left[$2]++ }
        END { for (cell in left) { print "to_blif: Yosys left in: " left[cell] " of " cell; status = 1 } exit status }
    ' "$dir/blif" >&2 || exit 1
    name_held "$dir/blif"
}

# The ports of a module, each as it is declared, behind its name.
ports_of() {
    { take "$1"; printf '%s\n' proc "write_json $dir/json"; } | run_yosys
    echo "module $1"
    awk -v module="    \"$1\": {" '
        /^    "/ { is_top = $0 == module }
        !is_top { next }
        /^      "[a-z]+": \{/ { part = $1 }
        part == "\"ports\":" && /^        "/ { name = $1; gsub(/^"|":$/, "", name); gsub(/\\\\/, "\\", name); upto = offset = 0 }
        part == "\"ports\":" && /"direction"/ { direction = $2; gsub(/[",]/, "", direction) }
        part == "\"ports\":" && /"offset"/ { offset = $2 + 0 }
        part == "\"ports\":" && /"upto"/ { upto = 1 }
        part == "\"ports\":" && /"bits"/ { width = NF - 3 }
        part == "\"ports\":" && /^        }/ {
            low = offset; high = offset + width - 1
            print direction (width == 1 && !offset ? "" : upto ? " [" low ":" high "]" : " [" high ":" low "]") " " name
        }
    ' "$dir/json"
}

# The modules that no other one has in it; of these the ones that the source marks as `top` where it marks some.
find_tops() {
    { read_files; echo "write_rtlil $dir/rtlil"; } | run_yosys
    awk '
        $1 == "attribute" { if ($2 == "\\top") mark = 1; if ($2 == "\\blackbox") box = 1 }
        $1 == "module" { at = $2; if (!box) modules[++count] = at; if (mark) marked[at] }
        $1 == "module" || $1 == "cell" || $1 == "wire" { mark = box = 0 }
        $1 == "cell" { name = $2; sub(/^\$array:.*:/, "", name); if (name != at) inside[name] }
        END {
            for (n = 1; n <= count; n++) if (modules[n] in marked) { print substr(modules[n], 2); found = 1 }
            for (n = 1; n <= count; n++) if (!found && !(modules[n] in inside)) print substr(modules[n], 2)
        }
    ' "$dir/rtlil"
}

care_models() {
    local model found=''
    { read_files; echo "tee -q -o $dir/modules ls"; } | run_yosys
    for model in assume invariant; do
        if grep -qx " *$model" "$dir/modules"; then
            convert "$model"
            found=yes
        fi
    done
    [ "$found" ] || say "no module assume or invariant in ${files[*]}"
}

if [ "$writes_care" ]; then
    care_models >"$dir/whole"
else
    if [ -z "$top" ]; then
        find_tops >"$dir/tops"
        case $(wc -l <"$dir/tops") in
        0) say "no module of ${files[*]} is a top: each is in another one, or has nothing in it, so that Yosys takes it for a black box" ;;
        1) top=$(cat "$dir/tops") ;;
        *) say "more than one module is in no other one: $(head -n 9 "$dir/tops" | paste -s -d ' ') - give the one to take behind the files" ;;
        esac
    fi
    if [ "$writes_ports" ]; then ports_of "$top" >"$dir/whole"; else convert "$top" >"$dir/whole"; fi
fi
if [ "$out" ]; then cat "$dir/whole" >"$out"; else cat "$dir/whole"; fi
