#!/usr/bin/env python3
"""Netlists whose units share a loop beside the versions without one that people write by hand, for `cyc equal`.

  bench/versions.py FAMILY SIZE FOLDER      writes FOLDER/shared.blif, FOLDER/copied.blif, FOLDER/wrong.blif, which is the
                                            second with one gate complemented, and FOLDER/FAMILY.care where there is one
  bench/versions.py --run PROGRAM [--seconds N] [FAMILY [SIZE]]..
                                            runs `equal` of the first with each, and prints user seconds and megabytes

  core N               an adder, a rotation and a multiplier of half as many bits, which an instruction puts in any order of
                       two; beside a unit for each place in each order
  wide_core N          the same with carries in groups of four in the copied adders
  butterfly N          a butterfly of N bits whose one multiplier stands before or behind the sum and the difference;
                       beside one with two multipliers
  matching N           one round of iSLIP of N by N: grants and accepts, each a ring of priorities; beside lines of twice N
  wavefront N          a wavefront arbiter of N by N that wraps around, whose wave begins at the diagonal that is set; beside
                       twice as many diagonals in a line, less one
  bus N                a bus of N stations around a ring, eight bits; beside an OR of what the station with the token says
  two_way N            a line of N stations that hands data right or left; beside one line for each direction
  carry N              a carry over N cells that runs up or down by one wire; beside two carries
  systolic N           N by N cells that add their data, of four bits, to what comes in from one of four sides; beside an
                       array for each side
  adder N              no loop: a ripple carry beside carries in groups of four
  itself N             no loop: N multipliers of eight bits beside themselves
  latches N            N latches, each loading a word's bit or keeping its own, beside the other order of rows
"""
import argparse
import os
import pathlib
import random
import resource
import sys
import tempfile

from families import AND, CHOOSE, COPY, NOT, OR, XOR, Model, add_adder_of_gates, add_barrel, numbered, one_hot

FAMILIES = {}


def family(size):
    """Enters a family, with the size at which it is run."""

    def enter(make):
        FAMILIES[make.__name__] = make, size
        return make

    return enter


def choose(m, word, select, then, otherwise):
    return [m.gate(CHOOSE, f"{word}{i}", select, *bits) for i, bits in enumerate(zip(then, otherwise))]


def copied_to(m, word, bits):
    return [m.gate(COPY, f"{word}{i}", bit) for i, bit in enumerate(bits)]


def ripple(m, word, a, b):
    return add_adder_of_gates(m, word, a, b, m.gate([], f"{word}_zero"))


def grouped(m, word, a, b, group=4):
    """An adder whose carry passes a group at once where each of its bits propagates."""
    carry = m.gate([], f"{word}_zero")
    total = []
    for start in range(0, len(a), group):
        pairs = list(zip(a, b))[start : start + group]
        first, passes, makes = carry, None, None
        for i, (p, q) in enumerate(pairs, start):
            half = m.gate(XOR, f"{word}_h{i}", p, q)
            both = m.gate(AND, f"{word}_b{i}", p, q)
            within = m.gate(["1-- 1", "-11 1"], f"{word}_w{i}", makes, passes, first) if makes else first
            total.append(m.gate(XOR, f"{word}{i}", half, within))
            makes = m.gate(["1-- 1", "-11 1"], f"{word}_m{i}", both, half, makes) if makes else both
            passes = m.gate(AND, f"{word}_p{i}", half, passes) if passes else half
        carry = m.gate(["1-- 1", "-11 1"], f"{word}_c{start}", makes, passes, first)
    return total


def product(m, word, a, b):
    """The lower bits of a product, row by row."""
    zero = m.gate([], f"{word}_zero")
    rows = [m.gate(AND, f"{word}_r0_{j}", a[j], b[0]) for j in range(len(a))]
    out = [rows[0]]
    for i in range(1, len(b)):
        line = [m.gate(AND, f"{word}_r{i}_{j}", a[j], b[i]) for j in range(len(a) - i)]
        rows = add_adder_of_gates(m, f"{word}_s{i}_", rows[1 : len(line) + 1], line, zero)
        out.append(rows[0])
    return out


def rotation(m, word, bits, amount):
    return add_barrel(m, word, bits, amount)


def core_of(n, add, shared):
    """An instruction of two steps: the first unit's result goes into the second. One of three units each."""
    amount = numbered("r", (n - 1).bit_length())
    m = Model("core", ["p0", "p1", "q0", "q1", *numbered("x", n), *numbered("a", n), *amount], numbered("y", n))
    x, a, half = numbered("x", n), numbered("a", n), n // 2
    units = [
        lambda word, bits: add(m, word, bits, a),
        lambda word, bits: rotation(m, word, bits, amount),
        lambda word, bits: product(m, word, bits[:half], a[:half]) + bits[half:],
    ]
    is_first = [m.gate(["00 1"], "first0", "p0", "p1"), m.gate(["10 1"], "first1", "p0", "p1"), m.gate(["-1 1"], "first2", "p0", "p1")]
    is_last = [m.gate(["00 1"], "last0", "q0", "q1"), m.gate(["10 1"], "last1", "q0", "q1"), m.gate(["-1 1"], "last2", "q0", "q1")]
    # Where both steps name one unit, it is used once.
    if shared:
        outs = [numbered(f"f{u}_", n) for u in range(3)]
        for u in range(3):
            fed = []
            others = [v for v in range(3) if v != u]
            for v in others:
                m.gate(AND, f"from{u}_{v}", is_last[u], is_first[v])
            for i in range(n):
                fed.append(m.gate(["11--- 1", "--11- 1", "0-0-1 1"], f"in{u}_{i}", f"from{u}_{others[0]}", outs[others[0]][i], f"from{u}_{others[1]}", outs[others[1]][i], x[i]))
            copied_to(m, f"f{u}_", units[u](f"u{u}_", fed))
        for i in range(n):
            m.gate(["11---- 1", "--11-- 1", "----11 1"], f"y{i}", is_last[0], outs[0][i], is_last[1], outs[1][i], is_last[2], outs[2][i])
        return m
    first = [units[u](f"g{u}_", x) for u in range(3)]
    last = []
    for u in range(3):
        ways = [first[u] if v == u else units[u](f"g{v}{u}_", first[v]) for v in range(3)]
        last.append([m.gate(["11---- 1", "--11-- 1", "----11 1"], f"z{u}_{i}", is_first[0], ways[0][i], is_first[1], ways[1][i], is_first[2], ways[2][i]) for i in range(n)])
    for i in range(n):
        m.gate(["11---- 1", "--11-- 1", "----11 1"], f"y{i}", is_last[0], last[0][i], is_last[1], last[1][i], is_last[2], last[2][i])
    return m


@family(8)
def core(n):
    return core_of(n, ripple, True), core_of(n, ripple, False), None


@family(8)
def wide_core(n):
    return core_of(n, ripple, True), core_of(n, grouped, False), None


def sum_and_difference(m, word, a, b):
    one, zero = m.gate(["1"], f"{word}_one"), m.gate([], f"{word}_zero")
    turned = [m.gate(NOT, f"{word}_n{i}", bit) for i, bit in enumerate(b)]
    return add_adder_of_gates(m, f"{word}_s", a, b, zero), add_adder_of_gates(m, f"{word}_d", a, turned, one)


@family(6)
def butterfly(n):
    """Before: the second operand times w, then sum and difference. Behind: sum and difference, and that times w."""
    def begin():
        m = Model("butterfly", ["c", *numbered("a", n), *numbered("b", n), *numbered("w", n)], [*numbered("s", n), *numbered("d", n)])
        return m, numbered("a", n), numbered("b", n), numbered("w", n)

    m, a, b, w = begin()
    difference = numbered("e_d", n)
    fed = choose(m, "fed", "c", difference, b)
    times = product(m, "t", fed, w)
    into = choose(m, "into", "c", b, times)
    total, difference = sum_and_difference(m, "e", a, into)
    copied_to(m, "s", total)
    choose(m, "d", "c", times, difference)
    shared = m
    m, a, b, w = begin()
    before = sum_and_difference(m, "e", a, product(m, "t", b, w))
    behind = sum_and_difference(m, "f", a, b)
    choose(m, "s", "c", behind[0], before[0])
    choose(m, "d", "c", product(m, "u", behind[1], w), before[1])
    return shared, m, None


def ring_of_grants(m, word, requests, pointer):
    """The first request from the pointer on, around."""
    n = len(requests)
    for i, request in enumerate(requests):
        m.gate(["1-- 1", "-10 1"], f"{word}c{i}", pointer[i], f"{word}c{(i - 1) % n}", requests[(i - 1) % n])
    return [m.gate(AND, f"{word}{i}", f"{word}c{i}", request) for i, request in enumerate(requests)]


def line_of_grants(m, word, requests, pointer):
    """The same by a line of twice as many places, each first half of which takes part from the pointer on."""
    n = len(requests)
    free = None
    found = [[] for _ in requests]
    for k in range(2 * n):
        i = k % n
        if k == 0:
            free = m.gate(COPY, f"{word}f0", pointer[0])
        elif k < n:
            free = m.gate(["1-- 1", "-10 1"], f"{word}f{k}", pointer[i], free, requests[i - 1])
        else:
            free = m.gate(["10 1"], f"{word}f{k}", free, requests[(i - 1) % n])
        found[i].append(m.gate(AND, f"{word}h{k}", free, requests[i]))
    return [m.gate(OR, f"{word}{i}", *pair) for i, pair in enumerate(found)]


@family(4)
def matching(n):
    def with_grants(grants):
        cells = [(i, j) for i in range(n) for j in range(n)]
        m = Model("matching", [*(f"g{j}_{i}" for i, j in cells), *(f"a{i}_{j}" for i, j in cells), *(f"r{i}_{j}" for i, j in cells)], [f"m{i}_{j}" for i, j in cells])
        granted = [grants(m, f"o{j}_", [f"r{i}_{j}" for i in range(n)], [f"g{j}_{i}" for i in range(n)]) for j in range(n)]
        for i in range(n):
            accepted = grants(m, f"i{i}_", [granted[j][i] for j in range(n)], [f"a{i}_{j}" for j in range(n)])
            for j in range(n):
                m.gate(COPY, f"m{i}_{j}", accepted[j])
        return m

    words = [[f"{w}{k}_{i}" for i in range(n)] for w in "ga" for k in range(n)]
    care = Model("assume", sum(words, []), ["ok"])
    oks = []
    for k, word in enumerate(words):
        none, one = care.gate(NOT, f"none{k}_0", word[0]), care.gate(COPY, f"one{k}_0", word[0])
        for i, bit in enumerate(word[1:], 1):
            one = care.gate(["01- 1", "1-1 1"], f"one{k}_{i}", bit, one, none)
            none = care.gate(["10 1"], f"none{k}_{i}", none, bit)
        oks.append(one)
    care.gate(["1" * len(oks) + " 1"], "ok", *oks)
    return with_grants(ring_of_grants), with_grants(line_of_grants), care


@family(4)
def wavefront(n):
    cells = [(i, j) for i in range(n) for j in range(n)]

    def begin():
        return Model("wavefront", [*numbered("d", n), *(f"r{i}_{j}" for i, j in cells)], [f"g{i}_{j}" for i, j in cells])

    shared, m = begin(), begin()
    for i, j in cells:
        for free, other in (f"x{i}_{j}", f"{i}_{(j - 1) % n}"), (f"y{i}_{j}", f"{(i - 1) % n}_{j}"):
            shared.gate(["1-- 1", "-10 1"], free, f"d{(i + j) % n}", f"{free[0]}{other}", f"g{other}")
        shared.gate(["111 1"], f"g{i}_{j}", f"x{i}_{j}", f"y{i}_{j}", f"r{i}_{j}")
    # Who is met by the wave for a second time was given a grant by the first, or asks for none.
    found = {cell: [] for cell in cells}
    free = {}
    for k in range(2 * n - 1):
        met = [(i, (k - i) % n) for i in range(n)]
        for i, j in met:
            for line in f"x{i}", f"y{j}":
                if k == 0:
                    free[line] = "d0"
                elif k < n:
                    free[line] = m.gate(["1-- 1", "-10 1"], f"{line}_{k}", f"d{k}", free[line], last[line])
                else:
                    free[line] = m.gate(["10 1"], f"{line}_{k}", free[line], last[line])
        last = {}
        for i, j in met:
            last[f"x{i}"] = last[f"y{j}"] = m.gate(["111 1"], f"h{i}_{j}_{k}", free[f"x{i}"], free[f"y{j}"], f"r{i}_{j}")
            found[i, j].append(last[f"x{i}"])
    for (i, j), twice in found.items():
        m.gate(OR if len(twice) == 2 else COPY, f"g{i}_{j}", *twice)
    return shared, m, one_hot("assume", numbered("d", n))


@family(32)
def bus(n, bits=8):
    data = [f"a{i}_{b}" for i in range(n) for b in range(bits)]
    words = numbered("t", n) + data, [f"w{i}_{b}" for i in range(n) for b in range(bits)]
    m, other = Model("bus", *words), Model("bus", *words)
    for i in range(n):
        for b in range(bits):
            m.gate(CHOOSE, f"w{i}_{b}", f"t{i}", f"a{i}_{b}", f"w{(i - 1) % n}_{b}")
    for b in range(bits):
        said = [other.gate(AND, f"s{i}_{b}", f"t{i}", f"a{i}_{b}") for i in range(n)]
        while len(said) > 1:
            said = [other.gate(OR, f"{x}o", x, y) for x, y in zip(said[::2], said[1::2])] + said[len(said) & ~1 :]
        for i in range(n):
            other.gate(COPY, f"w{i}_{b}", said[0])
    return m, other, one_hot("assume", numbered("t", n))


@family(32)
def two_way(n, bits=4):
    """Station i adds its data to what comes in."""
    def begin():
        data = [f"a{i}_{b}" for i in range(n) for b in range(bits)]
        m = Model("two_way", ["c", *numbered("x", bits), *data], [f"w{i}_{b}" for i in range(n) for b in range(bits)])
        return m, numbered("x", bits), [[f"a{i}_{b}" for b in range(bits)] for i in range(n)]

    m, x, a = begin()
    for i in range(n):
        left = [f"w{i - 1}_{b}" for b in range(bits)] if i else x
        right = [f"w{i + 1}_{b}" for b in range(bits)] if i < n - 1 else x
        copied_to(m, f"w{i}_", ripple(m, f"u{i}_", choose(m, f"in{i}_", "c", left, right), a[i]))
    shared = m
    m, x, a = begin()
    there, back = x, x
    ways = [[], []]
    for i in range(n):
        there = ripple(m, f"r{i}_", there, a[i])
        ways[0].append(there)
    for i in reversed(range(n)):
        back = ripple(m, f"l{i}_", back, a[i])
        ways[1].insert(0, back)
    for i in range(n):
        choose(m, f"w{i}_", "c", ways[0][i], ways[1][i])
    return shared, m, None


def add_cell(m, a, b, carry, total, out):
    m.gate(["100 1", "010 1", "001 1", "111 1"], total, a, b, carry)
    return m.gate(["11- 1", "1-1 1", "-11 1"], out, a, b, carry)


@family(100)
def carry(n):
    def begin():
        return Model("carry", ["up", "x", *numbered("a", n), *numbered("b", n)], numbered("s", n))

    shared, m = begin(), begin()
    for i in range(n):
        below, above = f"k{i - 1}" if i else "x", f"k{i + 1}" if i < n - 1 else "x"
        add_cell(shared, f"a{i}", f"b{i}", shared.gate(CHOOSE, f"c{i}", "up", below, above), f"s{i}", f"k{i}")
    there, back = "x", "x"
    for i in range(n):
        there = add_cell(m, f"a{i}", f"b{i}", there, f"u{i}", f"ku{i}")
    for i in reversed(range(n)):
        back = add_cell(m, f"a{i}", f"b{i}", back, f"d{i}", f"kd{i}")
    for i in range(n):
        m.gate(CHOOSE, f"s{i}", "up", f"u{i}", f"d{i}")
    return shared, m, None


@family(4)
def systolic(n, bits=4):
    cells = [(i, j) for i in range(n) for j in range(n)]

    def begin():
        data = [f"a{i}_{j}_{b}" for i, j in cells for b in range(bits)]
        m = Model("systolic", ["p0", "p1", *numbered("x", bits), *data], [f"w{i}_{j}_{b}" for i, j in cells for b in range(bits)])
        return m, {(i, j): [f"a{i}_{j}_{b}" for b in range(bits)] for i, j in cells}

    def choose_side(m, word, sides):
        low = choose(m, f"{word}l", "p0", sides[1], sides[0])
        high = choose(m, f"{word}h", "p0", sides[3], sides[2])
        return choose(m, word, "p1", high, low)

    steps = [(0, -1), (0, 1), (-1, 0), (1, 0)]
    shared, a = begin()
    x = numbered("x", bits)
    for i, j in cells:
        sides = [[f"w{i + di}_{j + dj}_{b}" for b in range(bits)] if (i + di, j + dj) in a else x for di, dj in steps]
        copied_to(shared, f"w{i}_{j}_", ripple(shared, f"u{i}_{j}_", choose_side(shared, f"in{i}_{j}_", sides), a[i, j]))
    m, a = begin()
    ways = []
    for side, (di, dj) in enumerate(steps):
        out = {}
        for i, j in sorted(cells, key=lambda cell: -(di * cell[0] + dj * cell[1])):
            out[i, j] = ripple(m, f"r{side}_{i}_{j}_", out.get((i + di, j + dj), x), a[i, j])
        ways.append(out)
    for i, j in cells:
        copied_to(m, f"w{i}_{j}_", choose_side(m, f"in{i}_{j}_", [way[i, j] for way in ways]))
    return shared, m, None


@family(64)
def adder(n):
    made = []
    for add in (ripple, grouped):
        m = Model("adder", [*numbered("a", n), *numbered("b", n)], numbered("y", n))
        copied_to(m, "y", add(m, "s", numbered("a", n), numbered("b", n)))
        made.append(m)
    return *made, None


@family(32)
def itself(n):
    def make():
        m = Model("itself", [f"{w}{k}_{i}" for k in range(n) for w in "ab" for i in range(8)], [f"y{k}_{i}" for k in range(n) for i in range(8)])
        for k in range(n):
            copied_to(m, f"y{k}_", product(m, f"p{k}", *([f"{w}{k}_{i}" for i in range(8)] for w in "ab")))
        return m

    return make(), make(), None


@family(1000)
def latches(n):
    made = []
    for rows in (CHOOSE, CHOOSE[::-1]):
        m = Model("latches", ["c", *numbered("x", n)], [f"q{n - 1}"])
        for i in range(n):
            m.latch(f"d{i}", f"q{i}", 0)
        for i in range(n):
            m.gate(rows, f"d{i}", "c", f"x{i}", f"q{i}")
        made.append(m)
    return *made, None


def complemented(text, seed):
    """The text with one of its gates complemented, chosen by a number among those that outputs and latches read."""
    lines = text.split("\n")
    at = {line.split()[-1]: k for k, line in enumerate(lines) if line.startswith(".names")}
    ahead = [word for line in lines if line.startswith(".outputs") for word in line.split()[1:]]
    ahead += [line.split()[1] for line in lines if line.startswith(".latch")]
    read = set()
    while ahead:
        wire = ahead.pop()
        if wire in at and wire not in read:
            read.add(wire)
            ahead += lines[at[wire]].split()[1:-1]
    gates = sorted(at[wire] for wire in read if len(lines[at[wire]].split()) > 2)
    row = random.Random(seed).choice(gates) + 1
    while lines[row][:1] in "01-":
        lines[row] = lines[row][:-1] + str(1 - int(lines[row][-1]))
        row += 1
    return "\n".join(lines)


def write(name, size, folder):
    shared, copied, care = FAMILIES[name][0](size)
    folder = pathlib.Path(folder)
    folder.mkdir(parents=True, exist_ok=True)
    (folder / "shared.blif").write_text(shared.text())
    (folder / "copied.blif").write_text(copied.text())
    (folder / "wrong.blif").write_text(complemented(copied.text(), size))
    if care:
        (folder / f"{name}.care").write_text(care.text())
    return ["--care", str(folder / f"{name}.care")] if care else []


def run(program, seconds, words):
    """What a call says first, with its user seconds and its megabytes."""
    read, written = os.pipe()
    child = os.fork()
    if child == 0:
        resource.setrlimit(resource.RLIMIT_CPU, (seconds, seconds))
        os.dup2(written, 1)
        os.execv(program, [program, *words])
    os.close(written)
    with os.fdopen(read) as out:
        said = out.read()
    _, status, usage = os.wait4(child, 0)
    told = "no answer" if os.WIFSIGNALED(status) else " ".join(said.split()[:2])
    return f"{told[:24]:<24} {usage.ru_utime + usage.ru_stime:7.2f} s {usage.ru_maxrss // 1024:4} MB"


def main():
    parser = argparse.ArgumentParser(description=__doc__, formatter_class=argparse.RawDescriptionHelpFormatter)
    parser.add_argument("--run", metavar="PROGRAM")
    parser.add_argument("--seconds", type=int, default=60)
    parser.add_argument("words", nargs="*")
    given = parser.parse_args()
    if not given.run:
        write(given.words[0], int(given.words[1]), given.words[2])
        return
    chosen = []
    for word in given.words:
        if word.isdigit():
            chosen.append((chosen.pop()[0] if chosen[-1][1] is None else chosen[-1][0], int(word)))
        else:
            chosen.append((word, None))
    for name, size in chosen or [(name, None) for name in FAMILIES]:
        size = size or FAMILIES[name][1]
        with tempfile.TemporaryDirectory() as folder:
            care = write(name, size, folder)
            for other in ("copied", "wrong"):
                told = run(given.run, given.seconds, ["equal", f"{folder}/shared.blif", f"{folder}/{other}.blif", *care])
                print(f"{name:<12} {size:>5} {other:<7} {told}", flush=True)


if __name__ == "__main__":
    main()
