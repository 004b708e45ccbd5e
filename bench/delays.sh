#!/usr/bin/env bash
# Plays schedules of many events: a loop of gates with one to three pins, each gate once in every round, with ages up to
# 2. It prints time and peak memory of `delays`, and how many times the file's size that memory is.
set -u
top=$(cd "$(dirname "$0")/.." && pwd) || exit 1
dir=$(mktemp -d) || exit 1
trap 'rm -rf "$dir"' EXIT

# A loop of so many gates. Gate i reads the one to three gates before it, the first of them inverted.
netlist() {
    awk -v n="$1" 'BEGIN {
        printf ".model loop\n.inputs x\n.outputs g0\n"
        for (i = 0; i < n; i++) {
            printf ".names"
            for (pin = 1; pin <= 1 + i % 3; pin++) printf " g%d", (i - pin + n) % n
            printf " g%d\n", i
            print i % 3 == 0 ? "0 1" : i % 3 == 1 ? "00 1\n01 1" : "0-0 1\n01- 1"
        }
        print ".end"
    }' >"$dir/loop.blif"
}

# A schedule of so many rounds of so many gates.
schedule() {
    awk -v gates="$1" -v rounds="$2" 'BEGIN {
        printf "schedule 1\nlatches\ngates "
        for (i = 0; i < gates; i++) printf "0"
        printf "\ntick\n"
        for (round = 0; round < rounds; round++) {
            print "round"
            for (i = 0; i < gates; i++) {
                printf "e g%d", i
                for (pin = 0; pin <= i % 3; pin++) printf " %d", (i + pin) % 3 < i ? (i + pin) % 3 : 0
                print ""
            }
        }
    }' >"$dir/loop.schedule"
}

run() {
    local gates=$1 rounds=$2
    netlist "$gates"
    schedule "$gates" "$rounds"
    echo 0 >"$dir/loop.vectors"
    /usr/bin/time -o "$dir/time" -f "%U %S %M" \
        "$top/cyc" delays "$dir/loop.blif" "$dir/loop.vectors" "$dir/loop.schedule" >"$dir/out" 2>&1
    tail -n 1 "$dir/time" | awk -v gates="$gates" -v events=$((gates * rounds)) -v bytes="$(wc -c <"$dir/loop.schedule")" \
        -v line="$(head -n 1 "$dir/out" | cut -c1-40)" \
        '{ printf "%5d gates %8d events %9d bytes %7.2f s %8d kB %5.1f times   %s\n", gates, events, bytes, $1 + $2, $3, $3 * 1024 / bytes, line }'
}

run 10 50000
run 1000 500
run 10 500000
run 100 50000
run 1000 5000
