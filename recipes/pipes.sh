#!/usr/bin/env bash
# Pipes are read like files: standard input, a named pipe and a substituted process, as netlists of any length, care files
# and vectors. Each answer is compared with that for the files.
#
#   recipes/pipes.sh
#
# CYC=PROGRAM in the environment takes that program in place of ./cyc.
set -eu -o pipefail
top=$(cd "$(dirname "$0")/.." && pwd)
cd "$top/examples"
dir=$(mktemp -d)
trap 'rm -rf "$dir"' EXIT
cyc=${CYC:-$top/cyc}

# The answer of a call, with its status.
answer() {
    "$cyc" "$@" 2>&1 || echo "status $?"
}

# Compares the answer that standard input brings, which is told first, with that for files.
same() {
    local told=$1 wanted
    shift
    wanted=$(answer "$@")
    [ "$told" = "$wanted" ] || { printf '%s\n' "$*: $told" "wanted: $wanted"; exit 1; }
    printf '%s\n' "$*: $wanted" | head -n 1
}

for file in *.blif; do
    same "$(answer check /dev/stdin < <(cat "$file"))" check "$file"
done
same "$(answer rewrite - < <(cat shared_units.blif))" rewrite shared_units.blif
same "$(answer check - <token_ring_4.blif)" check token_ring_4.blif
same "$(answer check token_ring_4.blif --care - < <(cat token_ring_4.care))" check token_ring_4.blif --care token_ring_4.care
same "$(answer check <(cat token_ring_4.blif) --care <(cat token_ring_4.care))" check token_ring_4.blif --care token_ring_4.care
same "$(answer delays shared_units.blif - <(cat shared_units.schedule) --probe trace < <(cat shared_units.vectors))" \
    delays shared_units.blif shared_units.vectors shared_units.schedule --probe trace

mkfifo "$dir/pipe"
cat round_robin_8.blif >"$dir/pipe" &
same "$(answer check "$dir/pipe" --care round_robin_8.care)" check round_robin_8.blif --care round_robin_8.care

# A chain of 50,000 gates, in pieces as they come.
awk 'BEGIN { print ".model chain\n.inputs g0"; for (g = 1; g <= 50000; g++) print ".names g" g - 1 " g" g "\n1 1" }' >"$dir/chain"
same "$({ head -c 100000 "$dir/chain"; sleep 0.1; tail -c +100001 "$dir/chain"; } | answer loops -)" loops "$dir/chain"
