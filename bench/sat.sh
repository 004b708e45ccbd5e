#!/usr/bin/env bash
# Solves formulas by `benchmarks sat` and, where they are installed, by `minisat`, by that without preprocessing, and by
# `cadical`, and prints the user seconds of each, the best of three runs (or of as many as the first word says), and the
# ratio to minisat's. Each has 60 seconds. Twenty are those that the solver was tuned on, 28 were chosen before any of them
# was timed, in three more a random formula is a loop's select, and the last ones are hard for resolution. `question` is what
# `cyc check` asks of a netlist of a family (bench/families.py), in the clauses that it asks it in.
set -u
top=$(cd "$(dirname "$0")/.." && pwd) || exit 1
runs=${1:-3}
dir=$(mktemp -d) || exit 1
trap 'rm -rf "$dir"' EXIT
program=$top/crates/benchmarks/out/benchmarks

(cd "$top/crates/benchmarks" && rt run >/dev/null 2>&1 </dev/null) || { echo "the build of benchmarks failed" >&2; exit 1; }

# The best user time of a command that reads the formula from standard input, and - where it isn't done in time.
time_of() {
    local best=-
    for _ in $(seq "$runs"); do
        /usr/bin/time -o "$dir/time" -f %U timeout 60 "$@" <"$dir/formula" >"$dir/out" 2>/dev/null
        case $? in
        0 | 10 | 20) best=$(tail -n 1 "$dir/time" | awk -v best="$best" '{ print best == "-" || $1 < best ? $1 : best }') ;;
        *) echo -; return ;;
        esac
    done
    echo "$best"
}

# The formula goes to minisat as a file, since it reads none from standard input.
by_minisat() {
    if command -v minisat >/dev/null; then time_of minisat -verb=0 "$@" "$dir/formula"; else echo -; fi
}

by_cadical() {
    if command -v cadical >/dev/null; then time_of cadical -q; else echo -; fi
}

# The formula of these words.
formula_of() {
    if [ "$1" = question ]; then
        rm -f "$dir/$2.care"
        "$top/bench/families.py" "$2" "$3" "$dir" >/dev/null
        "$program" question "$dir/$2.blif" $([ -f "$dir/$2.care" ] && echo "$dir/$2.care")
    else
        "$top/bench/formulas.py" "$@"
    fi
}

printf '%-28s %10s %9s %9s %9s %7s\n' formula benchmarks minisat -no-pre cadical ratio
while read -r -a words; do
    formula_of "${words[@]}" >"$dir/formula"
    ours=$(time_of "$program" sat)
    theirs=$(by_minisat)
    printf '%-28s %10s %9s %9s %9s %7s\n' "${words[*]}" "$ours" "$theirs" "$(by_minisat -no-pre)" "$(by_cadical)" \
        "$(awk -v a="$ours" -v b="$theirs" 'BEGIN { if (a != "-" && b > 0) printf "%.1f", a / b; else print "-" }')"
done <<'FORMULAS'
pigeons 9
pigeons 10
factors 34359214081
factors 4295098369
random 200 1
random 250 2
sparse 350 3
products 6
products 7
adders 512
parity 25 1
queens 40
question pairs 1000
question parity 26
question decoded_selects 40
question allocator 20
question four_units 64
question looped_multiplier 32
question wide_multiplexers 400
question mesh 24
random 175 11
random 175 12
random 200 11
random 200 12
random 200 13
random 225 11
sparse 300 11
sparse 300 12
sparse 350 11
factors 4293001441
factors 10403
factors 274876858367
pigeons 8
products 5
adders 64
adders 128
adders 256
parity 30 2
queens 30
clique 16 1
grid 5 1
question units_data_first 32
question alu_shifter 32
question multiplied_select 16
question both_selects 32
question three_units 16
question equal_words 64
question reader_before 16
question formula_select 150
question formula_select 175
question formula_select 200
products 8
tseitin 24 1
tseitin 26 2
tseitin 30 1
tseitin 30 2
FORMULAS
