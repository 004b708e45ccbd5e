#!/usr/bin/env python3
"""What a run of the gate costs, crate by crate: processor minutes of proofs, tests and must-fail edits.

  bench/gate.py               prints a Markdown table of a whole run of `rt ci` from nothing (`rt ci --anew`)
  bench/gate.py WORD..        the same of the command `rt WORD..`, as `ci netlist`
  bench/gate.py --edits WORD..  and a line for each edit whose trial took ten seconds or more
  bench/gate.py --pid NUMBER  the same of a run of `rt ci` that goes already, from now on, of the text that stands here
  bench/gate.py --way         the longest way of the first build, crate by crate, by the proofs in the table of docs/GATE.md,
                              where each crate that the program stands on has a figure there
  bench/gate.py --change CRATE..  what is proved anew after a change in each of these crates until `cyc` stands again, by that table

The longest way is the chain of crates, each of which stands on the one before it, whose proofs take the most together:
however many crates are checked side by side, a first build isn't shorter. It is printed below the table of a run too.

A check is a process `rattle`. Its processor time is read once a second from /proc, so the last second of each is
lost. Only processes below this command are counted. The command's own output goes to standard error.
"""
import collections
import functools
import os
import subprocess
import sys
import time

TICK = os.sysconf("SC_CLK_TCK")
TOP = os.path.dirname(os.path.dirname(os.path.abspath(__file__)))
KINDS = ("proof", "tests", "seed", "edits")


def read(path):
    with open(path, encoding="utf-8", errors="replace") as it:
        return it.read()


def processes():
    """The parent, the start and the processor seconds of each process."""
    found = {}
    for number in filter(str.isdigit, os.listdir("/proc")):
        try:
            stat = read(f"/proc/{number}/stat").rpartition(")")[2].split()
        except OSError:
            continue
        found[int(number)] = int(stat[1]), stat[19], (int(stat[11]) + int(stat[12])) / TICK
    return found


def is_below(number, root, found):
    while number in found and number != root:
        number = found[number][0]
    return number == root


def edited(folder, text):
    """The files that an edit changes, with their new texts."""
    texts, file, old = {}, "", ""
    for line in text.split("\n"):
        word, _, rest = line.partition(":")
        if word == "file":
            file = rest.strip()
            texts.setdefault(file, read(f"{folder}/{file}"))
        elif word == "old":
            old = rest[1:]
        elif word == "new":
            texts[file] = texts[file].replace(old, rest[1:])
    return texts


def edits_of(crate):
    at = f"{TOP}/crates/{crate}"
    names = sorted(os.listdir(f"{at}/must-fail")) if os.path.isdir(f"{at}/must-fail") else []
    return {name: edited(at, read(f"{at}/must-fail/{name}")) for name in names if name.endswith(".edit")}


def edit_in(folder, edits):
    """The edit that stands in a copy of a crate, or none where it is the crate as it stands."""
    holds = lambda texts: all(read(f"{folder}/{file}") == text for file, text in texts.items())
    return next((name for name, texts in edits.items() if holds(texts)), "")


def check_of(number, edits):
    """The crate, the kind and the edit of a check."""
    words = read(f"/proc/{number}/cmdline").split("\0")
    if os.path.basename(words[0]) != "rattle" or "--crate-name" not in words:
        return None
    folder, crate = os.readlink(f"/proc/{number}/cwd"), words[words.index("--crate-name") + 1]
    if "--test" in words:
        return crate, "tests", ""
    if not os.path.basename(folder).startswith("rt-edit-"):
        return crate, "proof", ""
    if crate not in edits:
        edits[crate] = edits_of(crate)
    edit = edit_in(folder, edits[crate])
    return crate, "edits" if edit else "seed", edit


def watched(root, goes_on):
    """The processor seconds of each check below a process, for as long as it goes on."""
    edits, checks, spent = {}, {}, {}
    while goes_on():
        found = processes()
        for number, (_, start, seconds) in found.items():
            key = number, start
            try:
                if key not in checks:
                    # (a process that was forked a moment ago has yet to become rattle)
                    named = check_of(number, edits) if is_below(number, root, found) else None
                    if named:
                        checks[key] = named
                if key in checks:
                    spent[key] = seconds
            except OSError:
                continue
        time.sleep(1)
    return [(*checks[key], seconds) for key, seconds in spent.items()]


def uses():
    """The crates of crates.txt in its order, each with the crates of this repository that it uses."""
    lines = [it.partition(":") for it in read(f"{TOP}/crates.txt").split("\n") if it and it[0] not in "# "]
    words = {name.split()[0]: after.split() for name, _, after in lines}
    return {name: [it for it in after if it in words] for name, after in words.items()}


def recorded():
    """The processor minutes of the proofs in the table of docs/GATE.md, which has seconds."""
    measured = read(f"{TOP}/docs/GATE.md").partition("## The longest way")[0]
    rows = [it.split("|") for it in measured.split("\n") if it.startswith("| `")]
    return {cells[1].strip(" `"): float(cells[2]) / 60 for cells in rows if cells[2].strip()}


def longest_way(minutes):
    """The dearest chain of crates, the lowest first, with the sum of the minutes up to each."""
    below = uses()

    @functools.cache
    def way_to(crate):
        before = max(map(way_to, below[crate]), key=lambda way: way[-1][1], default=())
        return *before, (crate, (before[-1][1] if before else 0) + minutes.get(crate, 0))

    return max(map(way_to, below), key=lambda way: way[-1][1])


def print_recorded_way():
    """Prints the longest way by the table, if it has a figure for each crate that the program stands on."""
    minutes = recorded()
    below, wanted = uses(), ["cyc"]
    for crate in wanted:
        wanted.extend(it for it in below[crate] if it not in wanted)
    missing = [it for it in below if it in wanted and it not in minutes]
    if missing:
        sys.exit(f"no proof time in docs/GATE.md for {', '.join(missing)}: the way could lead through a crate without one")
    print_way(minutes)


def print_way(minutes):
    print("| on the longest way | proof | sum |\n|---|---:|---:|")
    for crate, so_far in longest_way(minutes):
        print(f"| `{crate}` | {minutes.get(crate, 0):.1f} | {so_far:.1f} |")
    print(f"\n{sum(minutes.values()):.1f} minutes in all")


def above(crate):
    """This crate, and those above it that the program stands on."""
    below = uses()

    @functools.cache
    def reaches(one, other):
        return one == other or any(reaches(it, other) for it in below[one])

    return [it for it in below if reaches(it, crate) and reaches("cyc", it)]


def print_changes(crates, minutes):
    """How long it takes until `cyc` stands again: no less than the dearest chain of these crates, nor than a quarter of all."""
    below = uses()
    print("| a change in | crates proved again | processor minutes | minutes on four processors |\n|---|---:|---:|---:|")
    for crate in crates:
        changed = above(crate)
        way = {}
        for it in changed:
            way[it] = minutes.get(it, 0) + max((way[low] for low in below[it] if low in way), default=0)
        whole = sum(minutes.get(it, 0) for it in changed)
        print(f"| `{crate}` | {len(changed)} | {whole:.0f} | {max(way['cyc'], whole / 4):.0f} |")


def table(spent):
    sums = collections.Counter()
    for crate, kind, _, seconds in spent:
        sums[crate, kind] += seconds / 60
    rows = [it for it in uses() if any(sums[it, kind] for kind in KINDS)]
    print("| crate | proof | tests | proof under edits | edits | sum |\n|---|---:|---:|---:|---:|---:|")
    for crate in rows:
        found = [sums[crate, kind] for kind in KINDS]
        print(f"| `{crate}` |", " | ".join(f"{it:.1f}" for it in [*found, sum(found)]), "|")
    whole = [sum(sums[it, kind] for it in rows) for kind in KINDS]
    print("| all |", " | ".join(f"{it:.1f}" for it in [*whole, sum(whole)]), "|\n")
    print_way({it: sums[it, "proof"] for it in rows})


def main(words):
    if words == ["--way"]:
        print_recorded_way()
        return 0
    if words[:1] == ["--change"]:
        print_changes(words[1:], recorded())
        return 0
    if words[:1] == ["--pid"]:
        table(watched(int(words[1]), lambda: os.path.exists(f"/proc/{words[1]}")))
        return 0
    tells_edits = words[:1] == ["--edits"]
    ran = subprocess.Popen(["rt", *(words[tells_edits:] or ["ci", "--anew"])], cwd=TOP, stdin=subprocess.DEVNULL, stdout=sys.stderr)
    spent = watched(ran.pid, lambda: ran.poll() is None)
    status = ran.returncode
    table(spent)
    if tells_edits:
        each = collections.Counter()
        for crate, _, edit, seconds in spent:
            each[crate, edit] += seconds * bool(edit)
        for (crate, edit), seconds in each.most_common():
            if seconds >= 10:
                print(f"{seconds:6.0f} s  {crate}/{edit}")
    return status


sys.exit(main(sys.argv[1:]))
