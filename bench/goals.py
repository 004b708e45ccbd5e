#!/usr/bin/env python3
"""The goals of a crate's proof that took the search most work.

    bench/goals.py [--lines N] FOLDER

Reads the files that `rt check` left in the incremental folder (out/incremental in a crate's folder) and prints the work of
each goal, in the checker's own count, by function and name, the dearest N first (30 without the option). An answer that is
written down for a goal on top of the list saves most (docs/GATE.md). Seconds aren't told: goals are one part of a proof,
beside the steps that are laid out from the code."""
import os
import re
import sys

GOAL = re.compile(r'"name":"([^"]+)","notes":\[.*?\],"own":\[.*?\],"phases":\[([\d,]+)\]')
END = ".Proof.decls.oantt"


def newest(folder):
    """The file of each function, the last one where an earlier check left another."""
    found = {}
    for where, _, names in os.walk(folder):
        for name in names:
            path = os.path.join(where, name)
            if not name.endswith(END):
                continue
            if name not in found or os.path.getmtime(path) > os.path.getmtime(found[name]):
                found[name] = path
    return found


def goals(folder):
    for name, path in newest(folder).items():
        with open(path, "rb") as file:
            text = file.read().decode("utf-8", "ignore")
        function = re.sub(r"^Rattle-\w+-proofs\.", "", name[: -len(END)])
        for goal, phases in GOAL.findall(text):
            yield sum(map(int, phases.split(","))), function, goal


def main(words):
    lines = 30
    if words[:1] == ["--lines"]:
        lines, words = int(words[1]), words[2:]
    if len(words) != 1:
        sys.exit(__doc__.rstrip())
    rows = sorted(goals(words[0]), reverse=True)
    print(f"{sum(row[0] for row in rows):>12}  in all, {len(rows)} goals")
    for work, function, goal in rows[:lines]:
        print(f"{work:>12}  {function}  {goal}")


main(sys.argv[1:])
