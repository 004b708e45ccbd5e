#!/usr/bin/env bash
# What `rewrite` writes of netlists whose units share a loop, with and without --cases, beside the version without a loop
# that a person writes (bench/versions.py): gates; and-inverter nodes and levels after structural hashing; tables of six
# inputs and their levels after abc's `dch; if -K 6`. Each that `cyc` writes is compared with the shared one by `cyc equal`,
# which has 60 seconds.
#
#   bench/rewritten.sh [FAMILY SIZE CASES]..     (needs berkeley-abc)
#
# CYC=PROGRAM in the environment measures that program in place of ./cyc.
set -u
top=$(cd "$(dirname "$0")/.." && pwd) || exit 1
cyc=${CYC:-$top/crates/cyc/out/cyc}
[ $# -gt 0 ] || set -- core 8 4 core 16 4 core 32 4 butterfly 8 2 two_way 25 2 carry 100 2 systolic 4 4 bus 16 16 matching 16 16 wavefront 16 16
[ $(($# % 3)) -eq 0 ] || { sed -n '/^#   bench/s/^# *//p' "$0" >&2; exit 2; }
dir=$(mktemp -d) || exit 1
trap 'rm -rf "$dir"' EXIT

# Gates, nodes and levels, tables and levels.
figures() {
    gates=$(grep -c '^\.names' "$1")
    berkeley-abc -c "read_blif $1; strash; print_stats; dch; if -K 6; print_stats" |
        awk -v gates="$gates" '
            { gsub(/\033\[[0-9;]*m/, ""); gsub(/=/, " ") }
            / and / { for (i = 1; i <= NF; i++) { if ($i == "and") ands = $(i + 1); if ($i == "lev") levels = $(i + 1) } }
            / nd / { for (i = 1; i <= NF; i++) { if ($i == "nd") tables = $(i + 1); if ($i == "lev") table_levels = $(i + 1) } }
            END { printf "%7d %7d/%-5d %6d/%-4d", gates, ands, levels, tables, table_levels }'
}

# A row of what a call writes, with its user seconds and whether it equals the shared netlist.
written() {
    local what=$1
    shift
    if ! { TIMEFORMAT=%U; time "$cyc" "$@" "${care[@]}" >"$dir/made.blif" 2>"$dir/err"; } 2>"$dir/seconds"; then
        echo "  $what: $(head -1 "$dir/made.blif")$(head -1 "$dir/err")"
        return
    fi
    local same
    same=$(timeout 60 "$cyc" equal "$dir/shared.blif" "$dir/made.blif" "${care[@]}" | head -1)
    printf '  %-10s %s  %6s s  %s\n' "$what" "$(figures "$dir/made.blif")" "$(cat "$dir/seconds")" "${same:-no answer}"
}

echo "            gates   nodes/levels tables/levels"
while [ $# -gt 0 ]; do
    family=$1 size=$2 cases=$3
    shift 3
    rm -f "$dir"/*
    python3 "$top/bench/versions.py" "$family" "$size" "$dir" || exit
    care=()
    [ -f "$dir/$family.care" ] && care=(--care "$dir/$family.care")
    echo "$family $size, at most $cases cases, $(grep -c '^\.names' "$dir/shared.blif") gates"
    written rewrite rewrite "$dir/shared.blif"
    written cases rewrite "$dir/shared.blif" --cases "$cases"
    printf '  %-10s %s\n' "by hand" "$(figures "$dir/copied.blif")"
done
