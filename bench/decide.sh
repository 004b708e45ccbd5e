#!/usr/bin/env bash
# Decides the rings of `demo`, the examples with care files, and netlists with loops in families (bench/families.py), each
# under a limit of time and of memory, and prints the seconds and the peak memory of each with its verdict. What is known
# by construction is compared: `WRONG` is another verdict than that, `NONE` is no verdict within the limits. Then it
# counts them; the status is 1 where one was wrong or missing.
#
#   bench/decide.sh [--seconds N] [--memory MB] [--nodes] [FAMILY SIZE]..     (needs the package time)
#
#   --seconds N     the processor time that each has, 60 without the option
#   --memory MB     the memory that each has, 4000 without the option
#   --nodes          tells for each the least limit of nodes that isn't met
#   FAMILY SIZE     these alone
#
# CYC=PROGRAM in the environment measures that program in place of ./cyc.
set -u
top=$(cd "$(dirname "$0")/.." && pwd) || exit 1
cyc=${CYC:-$top/crates/cyc/out/cyc}
seconds=60
memory=4000
tells_nodes=
while [ $# -gt 0 ]; do
    case $1 in
    --seconds) seconds=$2 && shift 2 ;;
    --memory) memory=$2 && shift 2 ;;
    --nodes) tells_nodes=yes && shift ;;
    -*) sed -n '/^#   bench/s/^# *//p' "$0" >&2 && exit 2 ;;
    *) break ;;
    esac
done
[ $(($# % 2)) -eq 0 ] || { echo "each family wants a size" >&2; exit 2; }
dir=$(mktemp -d) || exit 1
trap 'rm -rf "$dir"' EXIT
right=0 wrong=0 missing=0

limited() {
    (ulimit -t "$seconds" -v $((memory * 1000)) && exec "$@")
}

meets() {
    local limit=$1
    shift
    limited "$cyc" check "$@" --nodes "$limit" >/dev/null 2>&1
    [ $? -eq 6 ]
}

# The least limit of nodes that isn't met.
nodes() {
    local low=0 high=1 middle
    while meets "$high" "$@"; do
        low=$high
        high=$((high * 2))
        [ "$high" -le 50000000 ] || { echo -; return; }
    done
    while [ $((high - low)) -gt 1 ]; do
        middle=$(((low + high) / 2))
        if meets "$middle" "$@"; then low=$middle; else high=$middle; fi
    done
    echo "$high"
}

# Runs a call under the limits, and tells its time, its memory and its verdict, which is to match the pattern.
run() {
    local name=$1 expected=$2 line mark=
    shift 2
    limited /usr/bin/time -o "$dir/time" -f "%U %S %M" "$cyc" "$@" >"$dir/out" 2>&1
    ! grep -q 'terminated by signal' "$dir/time" || echo "after $seconds s" >"$dir/out"
    line=$(head -n 1 "$dir/out")
    # shellcheck disable=SC2053 # (a pattern)
    if [[ $line == $expected ]]; then
        right=$((right + 1))
    elif [[ $line =~ ^(accepted|refused|ring)\  ]]; then
        wrong=$((wrong + 1)) mark="WRONG "
    else
        missing=$((missing + 1)) mark="NONE "
    fi
    tail -n 1 "$dir/time" | awk -v name="$name" -v line="$mark$line" \
        '{ printf "%-24s %7.2f s %9d kB  %s\n", name, $1 + $2, $3, substr(line, 1, 70) }'
    [ "$mark" != "WRONG " ] || echo "    expected $expected"
}

# A netlist under `check`, with the pattern of its verdict.
measure() {
    local name=$1 expected=$2
    shift 2
    run "$name" "$expected" check "$@"
    [ -z "$tells_nodes" ] || echo "    $(nodes "$@") nodes"
}

# A netlist of a family, with its care file and its options where it has some.
family() {
    local expected options
    rm -f "$dir/$1.care"
    { read -r expected; read -r options; } < <("$top/bench/families.py" "$1" "$2" "$dir")
    [ ! -e "$dir/$1.care" ] || options="--care $dir/$1.care $options"
    # shellcheck disable=SC2086 # (words)
    measure "$1 $2" "$expected" "$dir/$1.blif" $options
}

families() {
    while [ $# -gt 1 ]; do
        family "$1" "$2"
        shift 2
    done
}

[ -n "${CYC:-}" ] || "$top/cyc" check "$top/examples/full_adder.blif" >/dev/null || exit 1 # builds the program
if [ $# -gt 0 ]; then
    families "$@"
else
    for cells in 8 16 32 64; do
        run "ring $cells" "ring $cells gates=$((3 * cells)) loops=1 accepted *" demo "$cells"
    done
    for name in token_ring_4 round_robin_8 round_robin_32 end_around_carry; do
        measure "$name" "accepted *" "$top/examples/$name.blif" --care "$top/examples/$name.care"
    done
    families end_around 16 end_around 32 end_around 64
    families multiplier 12 multiplier 16 multiplier 64
    families beside 16 beside 64 behind 16 behind 64 reader_before 16 reader_before 64 unobserved 16 unobserved 64
    families pairs 1000 pairs 10000
    families round_robin 32 round_robin 64 round_robin 128
    families units 4 units 8 units 16 units 32
    families units_data_first 16 units_data_first 32 alu_shifter 16 alu_shifter 24 alu_shifter 32
    families both_selects 8 both_selects 32 both_selects 64
    families three_units 8 three_units 32 four_units 8 four_units 32
    families multiplied_select 8 multiplied_select 16 looped_multiplier 8 looped_multiplier 16 looped_multiplier 32
    families equal_words 8 equal_words 32 equal_words 64 equal_pairs 8 equal_pairs 64
    families formula_select 150 formula_select 200
    families lock 40 parity 16 parity 40 decoded_selects 8 decoded_selects 32
    families allocator 4 allocator 8 bus 8 bus 16 mesh 4 mesh 8 wide_multiplexers 16 wide_multiplexers 80
    families enable_last 26 enable_last 60 enable_last 400 enable_first 26 enable_first 60 enable_first 400
fi
echo "$right right, $wrong wrong, $missing without a verdict"
[ $((wrong + missing)) -eq 0 ]
