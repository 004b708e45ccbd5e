#!/usr/bin/env python3
"""Refuses each allocation of calls of the program in turn, and judges what they answer.

  bench/memory.py CYC [LINE]

CYC is the built program. A small library in front of the C library (bench/refuse.c, made with `cc`) lets allocation
number K answer null: once alone, and once with all behind it. The answer must then be the call's own, or status 7 with
nothing on out; or, where the growth was inside the system's own call for a file or a stream, status 4 or 5. Without
LINE the calls below are tried, over the files of `crates/cases/data`.
"""
import collections
import os
import subprocess
import sys
import tempfile

TOP = os.path.dirname(os.path.dirname(os.path.abspath(__file__)))
DATA = os.path.join(TOP, "crates/cases/data")
PLAY = "delays shared_units.blif units.vectors units_settle.schedule"
CALLS = [
    "check self_loop.blif",
    "check self_loop.blif --care always_one.care",
    "check ring_2.blif --care ring_2.care",
    "check e09_bad_row.blif",
    "rewrite self_loop.blif",
    "rewrite self_loop.blif --care always_one.care",
    "rewrite shared_units.blif",
    "rewrite shared_units.blif --cases 2",
    "aiger shared_units.blif --binary",
    "aiger shared_units.blif --cases 2",
    "explain self_loop.blif",
    "explain shared_units.blif",
    "assume self_loop.blif",
    "assume shared_units.blif",
    "equal shared_units.blif shared_units.blif",
    "flat two_inverters.blif",
    "loops shared_units.blif",
    "sim ring_2.blif ring_2.vectors",
    PLAY,
    PLAY + " --probe trace",
    PLAY + " --probe glitches",
    PLAY + " --probe last",
    PLAY + " --probe vcd",
    "storm self_loop.blif 2",
    "demo 2",
    "--help",
]


def call(program, words, library, number, rest, count):
    """Status, out and err of a call whose allocation of this number is refused, with the rest or without."""
    env = {"LD_PRELOAD": library, "REFUSE": str(number), "COUNT": count}
    if rest:
        env["REFUSE_ALL"] = "1"
    ended = subprocess.run([program] + words, cwd=DATA, env=env, stdin=subprocess.DEVNULL, capture_output=True)
    return ended.returncode, ended.stdout, ended.stderr


def kind(own, answer):
    """What sort of answer this is, or None where there is no leave for it."""
    status, out, err = answer
    if answer == own:
        return "own"
    if status == 7 and out == b"" and err == b"no memory\n":
        return "7"
    if status == 4 and out == b"" and err.endswith(b": read failed\n"):
        return "4"
    if status == 5 and own[1].startswith(out) and (own[2].startswith(err) or b"no memory\n".startswith(err)):
        return "5"
    return None


def main():
    program = os.path.abspath(sys.argv[1])
    calls = [" ".join(sys.argv[2:])] if len(sys.argv) > 2 else CALLS
    tried, wrong = 0, 0
    with tempfile.TemporaryDirectory() as place:
        library, count = os.path.join(place, "refuse.so"), os.path.join(place, "count")
        subprocess.run(["cc", "-O2", "-shared", "-fPIC", os.path.join(TOP, "bench/refuse.c"), "-o", library], check=True)
        for line in calls:
            own = call(program, line.split(), library, 0, False, count)
            with open(count) as file:
                asked = int(file.read())
            kinds = collections.Counter()
            for number in range(1, asked + 1):
                for rest in (False, True):
                    answer = call(program, line.split(), library, number, rest, count)
                    which = kind(own, answer)
                    tried += 1
                    if which is None:
                        wrong += 1
                        which = "wrong"
                        print(f"{line}: allocation {number}{' and all behind it' if rest else ''}: {answer}")
                    kinds[which] += 1
            told = ", ".join(f"{kinds[which]} {which}" for which in ("own", "7", "4", "5", "wrong") if kinds[which])
            print(f"| `{line}` | {own[0]} | {asked} | {told} |", flush=True)
    print(f"{tried} refused allocations, {wrong} wrong answers")
    sys.exit(1 if wrong else 0)


if __name__ == "__main__":
    main()
