#!/usr/bin/env python3
"""Runs `cyc assume` on refused netlists, and `check` on each under the care file that it wrote.

  bench/assume.py PROGRAM [NAME..]      of all, or of these; prints for each the rows, values in the longest row, the bytes
                                        of the care file, and the seconds of `assume` and of `check`
  bench/assume.py --write FOLDER        writes the netlists alone

Each is a loop that nearly all vectors leave harmless, and that a user would want to be told the others of.
"""
import re
import subprocess
import sys
import tempfile
import time

import families
from families import AND, CHOOSE, COPY, NOT, XOR, Model, full_adder, numbered

REFUSED = {}


def refused(make):
    REFUSED[make.__name__] = make
    return make


@refused
def end_around():
    """An adder of 64 bits in ones' complement: open where each position propagates."""
    n = 64
    m = Model("end_around", numbered("a", n) + numbered("b", n), numbered("s", n))
    for i in range(n):
        m.gate(XOR, f"p{i}", f"a{i}", f"b{i}")
        m.gate(AND, f"g{i}", f"a{i}", f"b{i}")
        m.gate(["1-- 1", "-11 1"], f"c{i}", f"g{i}", f"p{i}", f"c{(i - 1) % n}")
        m.gate(XOR, f"s{i}", f"p{i}", f"c{(i - 1) % n}")
    return m


@refused
def opcode():
    """Two adders of 16 bits, each of which may read the other, as three bits of an opcode say: 6 and 7 make no sense."""
    n = 16
    m = Model("opcode", [*numbered("op", 3), *numbered("x", n), *numbered("y", n)], numbered("z", n))
    for code in range(8):
        m.gate([f"{code & 1}{code >> 1 & 1}{code >> 2 & 1} 1"], f"is{code}", *numbered("op", 3))
    m.gate(["1--- 1", "-1-- 1", "--1- 1", "---1 1"], "chain_first", "is1", "is3", "is6", "is7")
    m.gate(["1--- 1", "-1-- 1", "--1- 1", "---1 1"], "chain_second", "is2", "is4", "is6", "is7")
    for unit, other, operand in (("f", "g", "x"), ("g", "f", "y")):
        carry = m.gate([], f"{unit}k0")
        for i in range(n):
            select = "chain_first" if unit == "f" else "chain_second"
            m.gate(CHOOSE, f"{unit}i{i}", select, f"{other}{(i + 1) % n}", f"x{i}")
            full_adder(m, f"{unit}i{i}", f"{operand}{i}", carry, f"{unit}{i}", f"{unit}k{i + 1}")
            carry = f"{unit}k{i + 1}"
    for i in range(n):
        m.gate(CHOOSE, f"z{i}", "chain_first", f"f{i}", f"g{i}")
    return m


@refused
def round_robin():
    """An arbiter of 16 requests, whose pointer may have no bit set."""
    return families.round_robin(16)[0]


@refused
def bus():
    """Two words of 16 bits that may each be the other, as two selects say, which may both be on."""
    n = 16
    m = Model("bus", ["s", "t", *numbered("x", n), *numbered("y", n)], [*numbered("a", n), *numbered("b", n)])
    for i in range(n):
        m.gate(CHOOSE, f"a{i}", "s", f"b{i}", f"x{i}")
        m.gate(CHOOSE, f"b{i}", "t", f"a{i}", f"y{i}")
    return m


@refused
def memory():
    """A memory of eight words of eight bits, read before it is written: what is written is what is read, and one."""
    words, bits = 8, 8
    addresses = [*numbered("read", 3), *numbered("write", 3)]
    m = Model("memory", ["we", *addresses], numbered("out", bits))
    for w in range(words):
        code = f"{w & 1}{w >> 1 & 1}{w >> 2 & 1}"
        m.gate([f"{code} 1"], f"reads{w}", *numbered("read", 3))
        m.gate([f"1{code} 1"], f"writes{w}", "we", *numbered("write", 3))
        for b in range(bits):
            m.latch(f"cell{w}_{b}", f"kept{w}_{b}", 0)
            m.gate(CHOOSE, f"cell{w}_{b}", f"writes{w}", f"in{b}", f"kept{w}_{b}")
    for b in range(bits):
        m.gate(["-" * 2 * w + "11" + "-" * 2 * (words - 1 - w) + " 1" for w in range(words)], f"out{b}",
               *(pin for w in range(words) for pin in (f"reads{w}", f"cell{w}_{b}")))
        m.gate(NOT if b % 2 else COPY, f"in{b}", f"out{b}")
    return m


@refused
def held_mesh():
    """Four by four routers of eight bits: each shows what comes from the west or from the north, whichever is granted, and else
    what it showed."""
    n, bits = 4, 8
    places = [(i, j) for i in range(n) for j in range(n)]
    grants = [f"grant{k}_{i}_{j}" for i, j in places for k in range(2)]
    edges = [f"{word}{i}_{b}" for word in ("west", "north") for i in range(n) for b in range(bits)]
    m = Model("held_mesh", [*grants, *edges], [f"out{n - 1}_{j}_{b}" for j in range(n) for b in range(bits)])
    for i, j in places:
        for b in range(bits):
            west = f"out{i}_{j - 1}_{b}" if j else f"west{i}_{b}"
            north = f"out{i - 1}_{j}_{b}" if i else f"north{j}_{b}"
            m.gate(CHOOSE, f"else{i}_{j}_{b}", f"grant1_{i}_{j}", north, f"out{i}_{j}_{b}")
            m.gate(CHOOSE, f"out{i}_{j}_{b}", f"grant0_{i}_{j}", west, f"else{i}_{j}_{b}")
    return m


@refused
def mesh():
    """Four by four routers. What leaves one to a side comes straight on, from within, or else, where neither is granted, from the
    side that turns right: a cycle for each rectangle."""
    n = 4
    places = [(i, j) for i in range(n) for j in range(n)]
    steps = {"e": (0, 1), "s": (1, 0), "w": (0, -1), "n": (-1, 0)}
    before = dict(zip("eswn", "nesw"))
    outputs = [(i, j, to) for i, j in places for to in steps]
    grants = [f"{word}{i}_{j}{to}" for i, j, to in outputs for word in ("straight", "local")]
    m = Model("mesh", [*grants, *(f"from{i}_{j}" for i, j in places)], [f"{to}{i}_{j}" for i, j, to in outputs])
    zero = m.gate([], "zero")

    def arriving(i, j, direction):
        row, column = i - steps[direction][0], j - steps[direction][1]
        return f"{direction}{row}_{column}" if 0 <= row < n and 0 <= column < n else zero

    for i, j, to in outputs:
        at = f"{i}_{j}{to}"
        m.gate(CHOOSE, f"turn{at}", f"local{at}", f"from{i}_{j}", arriving(i, j, before[to]))
        m.gate(CHOOSE, f"{to}{i}_{j}", f"straight{at}", arriving(i, j, to), f"turn{at}")
    return m


def rows_of(text):
    """How many literals each gate `row..` of the model `assume` reads."""
    return [len(line.split()) - 2 for line in text.splitlines() if re.match(r"\.names( \S+)* row\d+~+$", line)]


def timed(words):
    start = time.monotonic()
    run = subprocess.run(words, capture_output=True, check=False)
    return run, time.monotonic() - start


def main(program, *names):
    if program == "--write":
        for name, make in REFUSED.items():
            with open(f"{names[0]}/{name}.blif", "w", encoding="ascii") as it:
                it.write(make().text())
        return 0
    wrong = 0
    for name in names or REFUSED:
        with tempfile.TemporaryDirectory() as folder:
            file, care = f"{folder}/{name}.blif", f"{folder}/{name}.care"
            with open(file, "w", encoding="ascii") as it:
                it.write(REFUSED[name]().text())
            run, seconds = timed([program, "assume", file])
            text = run.stdout.decode()
            with open(care, "w", encoding="ascii") as it:
                it.write(text)
            checked, later = timed([program, "check", file, "--care", care])
            rows = rows_of(text)
            said = (checked.stdout or checked.stderr).decode().split(" ")[0].strip()
            wrong += run.returncode != 0 or checked.returncode != 0
            print(f"{name}: status {run.returncode}, {len(rows)} rows, longest {max(rows, default=0)}, {len(text)} bytes,"
                  f" {seconds:.2f} s; check {checked.returncode} {said}, {later:.2f} s", flush=True)
    return 1 if wrong else 0


if __name__ == "__main__":
    sys.exit(main(*sys.argv[1:]))
