#!/usr/bin/env python3
"""Runs a built `cyc` on netlists of a few shapes at sizes n, 2n and 4n, and prints the user seconds, the peak memory
and, for the last doubling, how many times more seconds it took: 2 is linear, 4 quadratic.

  bench/shapes.py [--cyc PROGRAM] [--seconds N] [--memory MB] [SHAPE [SIZE]]..

The shapes that are linear stand at the end of the list. A run that passes the limits of time or of memory has `-`. A peak
below some 35 MB is that of this program, from which the call is forked.
"""
import argparse
import os
import pathlib
import random
import resource
import sys
import tempfile

TOP = pathlib.Path(__file__).resolve().parent.parent
AND, OR, NOT, COPY, XOR = ["11 1"], ["1- 1", "-1 1"], ["0 1"], ["1 1"], ["10 1", "01 1"]
CHOOSE = ["11- 1", "0-1 1"]  # the second where the first is 1, else the third
SHAPES = {}


def shape(size):
    """Enters a shape, with the least of its sizes."""

    def enter(make):
        SHAPES[make.__name__] = make, size
        return make

    return enter


class Files:
    """The words of a call, and the files that it names."""

    def __init__(self, *words, **texts):
        self.words, self.texts = words, texts


def model(name, inputs, outputs, lines):
    return "\n".join([f".model {name}", " ".join([".inputs", *inputs]), " ".join([".outputs", *outputs]), *lines, ".end", ""])


def gate(rows, output, *pins):
    return "\n".join([" ".join([".names", *pins, output]), *rows])


def numbered(word, count):
    return [f"{word}{k}" for k in range(count)]


def wide(word, value, count):
    """The one row of a gate of so many pins with the same entry."""
    return [word * count + f" {value}"]


def check(text, care=None, *options):
    words = ["check", "net.blif", *(["--care", "net.care"] if care else []), *options]
    return Files(*words, net_blif=text, **({"net_care": care} if care else {}))


def pair(x, word=""):
    """Two units of one bit that share a loop; the select c says which comes first."""
    return [
        gate(CHOOSE, f"{word}s", f"{word}c", x, f"{word}g"),
        gate(NOT, f"{word}f", f"{word}s"),
        gate(CHOOSE, f"{word}t", f"{word}c", f"{word}f", x),
        gate(AND, f"{word}g", f"{word}t", f"{word}d"),
        gate(CHOOSE, f"{word}y", f"{word}c", f"{word}g", f"{word}f"),
    ]


@shape(20000)
def columns(n):
    """n inputs beside a loop."""
    return check(model("columns", [*numbered("i", n), "x", "c", "d"], ["y"], pair("x")))


@shape(20000)
def columns_refused(n):
    """n inputs beside a gate that reads itself."""
    return check(model("columns", [*numbered("i", n), "x"], ["y"], [gate(OR, "y", "x", "y")]))


@shape(500)
def and_chain(n):
    """An AND chain of n inputs before a gate that reads itself."""
    chain = [gate(AND, "a1", "i0", "i1"), *[gate(AND, f"a{k}", f"a{k - 1}", f"i{k}") for k in range(2, n)]]
    return check(model("chain", numbered("i", n), ["z"], [*chain, gate(OR, "z", f"a{n - 1}", "z")]))


def shuffled(links, count, word="loops"):
    """One gate for each number, which reads those that link to it, in random order."""
    places = list(range(count))
    random.shuffle(places)
    reads = [[] for _ in range(count)]
    for source, reader in links:
        reads[places[reader]].append(f"g{places[source]}")
    lines = [gate(wide("1", 1, len(pins)), f"g{k}", *pins) for k, pins in enumerate(reads)]
    return Files(word, "net.blif", net_blif=model("net", [], ["g0"], lines))


@shape(20000)
def random_loop(n):
    """A ring in random order, each gate of which reads one more."""
    return shuffled([(k, (k + 1) % n) for k in range(n)] + [(random.randrange(n), k) for k in range(n)], n)


@shape(20000)
def torus(n):
    """A square in random order, each gate of which reads the one above and the one to the left, around."""
    s = int(n**0.5)
    links = [(((i - 1) % s) * s + j, i * s + j) for i in range(s) for j in range(s)]
    return shuffled(links + [(i * s + (j - 1) % s, i * s + j) for i in range(s) for j in range(s)], s * s)


@shape(250)
def barrier(n):
    """A gate that n others read, each of which it reads: so 1,024 at most."""
    return shuffled([(0, k) for k in range(1, n)] + [(k, 0) for k in range(1, n)], n)


@shape(20000)
def barrier_tree(n):
    """A tree of gates up to one root, from which another tree leads down to the leaves."""
    half = n // 2
    links = [(half + (k - 1) // 2, half + k) for k in range(1, half)] + [(0, half)]
    for k in range(half):
        below = [b for b in (2 * k + 1, 2 * k + 2) if b < half]
        links += [(b, k) for b in below] or [(half + k, k)]
    return shuffled(links, n)


def random_rows(pins, rows):
    return ["".join(random.choices("01-", [1, 1, 4], k=pins)) + " 1" for _ in range(rows)]


@shape(100)
def random_cover(n):
    """No loop: a cover of 30 pins and n random rows."""
    pins = numbered("i", 30)
    return check(model("cover", pins, ["y"], [gate(random_rows(30, n), "y", *pins)]))


@shape(50)
def random_covers(n):
    """No loop: four covers of 40 pins and n random rows each."""
    pins = numbered("i", 40)
    return check(model("covers", pins, numbered("y", 4), [gate(random_rows(40, n), f"y{k}", *pins) for k in range(4)]))


@shape(64)
def pairs_invariant(n):
    """An invariant with a row for each pair of n latches: no two are 1."""
    bits = numbered("l", n)
    rows = ["".join("1" if k in (i, j) else "-" for k in range(n)) + " 0" for i in range(n) for j in range(i)]
    net = model("ring", ["x", "c", "d"], ["y"], [*[f".latch l{(k - 1) % n} l{k} {int(k == 0)}" for k in range(n)], *pair("x")])
    return check(net, model("invariant", bits, ["ok"], [gate(rows, "ok", *bits)]))


@shape(500)
def or_invariant(n):
    """An invariant as a chain of ORs over n latches."""
    bits = numbered("l", n)
    net = model("ring", ["x", "c", "d"], ["y"], [*[f".latch l{(k - 1) % n} l{k} {int(k == 0)}" for k in range(n)], *pair("x")])
    chain = [gate(COPY, "o0", "l0"), *[gate(OR, f"o{k}", f"o{k - 1}", f"l{k}") for k in range(1, n)]]
    return check(net, model("invariant", bits, ["ok"], [*chain, gate(COPY, "ok", f"o{n - 1}")]))


@shape(1000)
def two_way_bus(n):
    """n cells in a row, each of which hands data on to the right or to the left, as one select says."""
    lines = []
    for k in range(n):
        left, right = f"r{k - 1}" if k else "x", f"l{k + 1}" if k < n - 1 else "x"
        lines += [gate(["11- 1", "1-1 1"], f"r{k}", "c", left, f"l{k}"), gate(["01- 1", "0-1 1"], f"l{k}", "c", right, f"r{k}")]
    return check(model("bus", ["x", "c"], ["l0", f"r{n - 1}"], lines))


def simulated(text, tick, ticks=1):
    return Files("sim", "net.blif", "net.vectors", net_blif=text, net_vectors=(tick + "\n") * ticks)


def holes(n):
    """Rows that say that one of n + 1 pigeons has no hole of n, or two have one, and how many pins they have."""
    pins = [(p, h) for p in range(n + 1) for h in range(n)]
    rows = ["".join("0" if q == p else "-" for q, _ in pins) + " 1" for p in range(n + 1)]
    rows += ["".join("1" if h == g and p in (a, b) else "-" for p, h in pins) + " 1" for g in range(n) for a in range(n + 1) for b in range(a)]
    return len(pins), rows


@shape(2)
def pigeons(n):
    """A cover that says that one of n + 1 pigeons has no hole of n, or two have one, where all is unknown."""
    count, rows = holes(n)
    names = numbered("i", count)
    return simulated(model("pigeons", names, ["y"], [gate(rows, "y", *names)]), "x" * count)


@shape(2)
def minterms(n):
    """All rows without an X of n pins."""
    pins = numbered("i", n)
    return simulated(model("minterms", pins, ["y"], [gate([f"{k:0{n}b} 1" for k in range(2**n)], "y", *pins)]), "x" * n)


def late(n):
    """A gate of n pins before the inverters that drive it, each of which reads the one before it."""
    pins = numbered("p", n)
    chain = [gate(NOT, "p0", "x"), *[gate(NOT, f"p{k}", f"p{k - 1}") for k in range(1, n)]]
    return model("late", ["x"], ["y"], [gate(["-" * k + "1" + "-" * (n - k - 1) + " 1" for k in range(n)], "y", *pins), *chain])


@shape(250)
def late_pins_simulated(n):
    """A gate of n pins that stands before what drives it."""
    return simulated(late(n), "1")


@shape(250)
def late_pins_delayed(n):
    """The same in `delays`, without a round."""
    return Files("delays", "net.blif", "net.vectors", "net.schedule", net_blif=late(n), net_vectors="1\n", net_schedule=f"schedule 1\nlatches\ngates {'0' * (n + 1)}\ntick\n")


@shape(4)
def doubling(n):
    """Models that double n times over a gate of 200 pins."""
    pins = numbered("i", 200)
    text = model("m0", ["a"], ["y"], [".subckt m1 a=a y=y", ".subckt m1 a=a y=z"])
    for k in range(1, n):
        text += model(f"m{k}", ["a"], ["y"], [f".subckt m{k + 1} a=a y=y", f".subckt m{k + 1} a=a y=z"])
    return Files("flat", "net.blif", net_blif=text + model(f"m{n}", ["a"], ["y"], [gate(wide("1", 1, 200), "y", *["a"] * len(pins))]))


@shape(4)
def doubling_names(n):
    """Models that double n times over a wire whose name has 4,000 bytes."""
    text = model("m0", ["a"], ["y"], [".subckt m1 a=a y=y", ".subckt m1 a=a y=z"])
    for k in range(1, n):
        text += model(f"m{k}", ["a"], ["y"], [f".subckt m{k + 1} a=a y=y", f".subckt m{k + 1} a=a y=z"])
    name = "w" * 4000
    return Files("flat", "net.blif", net_blif=text + model(f"m{n}", ["a"], ["y"], [gate(NOT, name, "a"), gate(NOT, "y", name)]))


@shape(1000)
def marks(n):
    """A name of n marks, and n instances."""
    lines = [f".subckt m a=x y=y{k}" for k in range(n)]
    return Files("flat", "net.blif", net_blif=model("top", ["x"], ["~" * n], [gate(COPY, "~" * n, "x"), *lines]) + model("m", ["a"], ["y"], [gate(NOT, "b", "a"), gate(NOT, "y", "b")]))


@shape(1000)
def long_names_in_a_storm(n):
    """A storm of 1,000 rounds over a gate with a name of n bytes."""
    return Files("storm", "net.blif", "1000", net_blif=model("net", ["x"], ["a" * n], [gate(OR, "a" * n, "x", "a" * n)]))


@shape(1000)
def long_names_traced(n):
    """1,000 rounds over a gate with a name of n bytes, each change of which is told."""
    net = model("net", ["x"], ["a" * n], [gate(OR, "a" * n, "x", "a" * n)])
    rounds = ("round\n" + "".join(f"e {'a' * n} {age} 1\n" for age in (0, 1))) * 1000
    text = f"schedule 2\nwindow 1\npast 00\nstate\ngates 1\ntick\n{rounds}"
    return Files("delays", "net.blif", "net.vectors", "net.schedule", "--probe", "trace", net_blif=net, net_vectors="0\n", net_schedule=text)


@shape(10)
def rail_covers(n):
    """A ring of four gates, each a cover of 30 inputs and of the gate before it, with n random rows."""
    pins = numbered("i", 30)
    lines = [gate(random_rows(31, n), f"g{k}", *pins, f"g{(k - 1) % 4}") for k in range(4)]
    return check(model("covers", pins, ["g0"], lines))


def parity_rows(n):
    """Rows that say that some node of a random 4-regular graph of n nodes has the wrong parity; its edges are the pins.
    The parities that are asked add up to 1, so always some node has (Tseitin 1968)."""
    while True:
        ends = [k for k in range(n) for _ in range(4)]
        random.shuffle(ends)
        edges = list(zip(ends[::2], ends[1::2]))
        if len({tuple(sorted(e)) for e in edges}) == len(edges) and all(a != b for a, b in edges):
            break
    rows = []
    for node in range(n):
        at = [k for k, edge in enumerate(edges) if node in edge]
        for bits in range(16):
            if bin(bits).count("1") % 2 != int(node == 0):
                row = ["-"] * len(edges)
                for j, k in enumerate(at):
                    row[k] = str(bits >> j & 1)
                rows.append("".join(row) + " 1")
    return len(edges), rows


@shape(5)
def parity_cover(n):
    """A cover that says that a parity formula over a random graph of n nodes fails, as it always does, where all is unknown."""
    count, rows = parity_rows(n)
    names = numbered("i", count)
    return simulated(model("parity", names, ["y"], [gate(rows, "y", *names)]), "x" * count)


@shape(5)
def parity_cover_checked(n):
    """Two such covers, each of which also reads the other, under `--observe outputs`."""
    count, rows = parity_rows(n)
    names = numbered("i", count)
    rows = ["-" + row for row in rows]
    lines = [gate(rows, "y", "z", *names), gate(rows, "z", "y", *names)]
    return check(model("parity", names, ["y"], lines), None, "--observe", "outputs")


@shape(16)
def grid_directions(n):
    """n by n cells with four wires each, one a direction; a select of each row and column says which way data goes."""
    lines = []
    for i in range(n):
        for j in range(n):
            for way, (di, dj), select in (("e", (0, -1), f"r{i}"), ("w", (0, 1), f"r{i}"), ("s", (-1, 0), f"c{j}"), ("n", (1, 0), f"c{j}")):
                a, b = (i + di) % n, (j + dj) % n
                turn = {"e": "s", "w": "n", "s": "e", "n": "w"}[way]
                lines.append(gate(["1-1- 1", "0--1 1"] if way in "es" else ["0-1- 1", "1--1 1"], f"{way}{i}_{j}", select, "x", f"{way}{a}_{b}", f"d{i}_{j}"))
    columns = ["x", *numbered("r", n), *numbered("c", n), *[f"d{i}_{j}" for i in range(n) for j in range(n)]]
    return check(model("grid", columns, ["e0_0"], lines))


def multiplexer_ring(n):
    return [gate(CHOOSE, f"g{k}", f"s{k}", f"d{k}", f"g{(k - 1) % n}") for k in range(n)]


def explained(text, care=None):
    return Files("explain", "net.blif", *(["--care", "net.care"] if care else []), net_blif=text, **({"net_care": care} if care else {}))


@shape(500)
def explain_ring(n):
    """A ring of n multiplexers, each with a select and data of its own."""
    return explained(model("ring", [*numbered("s", n), *numbered("d", n)], ["g0"], multiplexer_ring(n)))


@shape(500)
def explain_chords(n):
    """A ring of n gates, each of which reads one more at random beside a side of its own."""
    lines = [gate(["11- 1", "-11 1"], f"g{k}", f"g{(k - 1) % n}", f"s{k}", f"g{random.randrange(n)}") for k in range(n)]
    return explained(model("chords", numbered("s", n), ["g0"], lines))


@shape(250)
def explain_way(n):
    """A gate that reads itself before n multiplexers in a line, the last of which is the first that isn't determined."""
    lines = [gate(CHOOSE, f"m{k}", f"s{k}", f"d{k}", f"m{k + 1}") for k in range(n - 1)]
    lines += [gate(OR, f"m{n - 1}", f"s{n - 1}", f"m{n - 1}")]
    return explained(model("way", [*numbered("s", n), *numbered("d", n)], ["m0"], lines))


@shape(60)
def explain_sides(n):
    """A ring of n gates, each of which reads 16 sides."""
    lines = [gate(["1" + "1" * 16 + " 1"], f"g{k}", f"g{(k - 1) % n}", *[f"s{k}_{j}" for j in range(16)]) for k in range(n)]
    return explained(model("sides", [f"s{k}_{j}" for k in range(n) for j in range(16)], ["g0"], lines))


@shape(250)
def explain_wide(n):
    """A ring of three gates of n pins each."""
    lines = [gate(wide("1", 1, n), f"g{k}", f"g{(k - 1) % 3}", *[f"s{k}_{j}" for j in range(n - 1)]) for k in range(3)]
    return explained(model("wide", [f"s{k}_{j}" for k in range(3) for j in range(n - 1)], ["g0"], lines))


@shape(100)
def explain_or(n):
    """A ring of three ORs of n pins each, as a row for each pin."""
    rows = ["-" * k + "1" + "-" * (n - k - 1) + " 1" for k in range(n)]
    lines = [gate(rows, f"g{k}", f"g{(k - 1) % 3}", *[f"s{k}_{j}" for j in range(n - 1)]) for k in range(3)]
    return explained(model("wide", [f"s{k}_{j}" for k in range(3) for j in range(n - 1)], ["g0"], lines))


@shape(2000)
def explain_accepted(n):
    """n loops of two gates that are accepted."""
    inputs = ["x", *[f"u{k}{w}" for k in range(n) for w in "cd"]]
    lines = [line for k in range(n) for line in pair("x", f"u{k}")]
    return explained(model("loops", inputs, [f"u{k}y" for k in range(n)], lines))


def compared(first, second):
    return Files("equal", "net.blif", "other.blif", net_blif=first, other_blif=second)


@shape(64)
def equal_adders(n):
    """A ripple adder of n bits beside one whose operands are exchanged."""
    def adder(a, b):
        lines = [gate(["11 1"], "c0", a + "0", b + "0"), gate(XOR, "s0", a + "0", b + "0")]
        for k in range(1, n):
            lines += [gate(["100 1", "010 1", "001 1", "111 1"], f"s{k}", f"{a}{k}", f"{b}{k}", f"c{k - 1}"), gate(["11- 1", "1-1 1", "-11 1"], f"c{k}", f"{a}{k}", f"{b}{k}", f"c{k - 1}")]
        return model("adder", [*numbered("a", n), *numbered("b", n)], [*numbered("s", n), f"c{n - 1}"], lines)
    return compared(adder("a", "b"), adder("b", "a"))


@shape(100)
def care_parity(n):
    """An invariant that is a parity of n latches in random order, which are a ring."""
    order = list(range(n))
    random.shuffle(order)
    lines = [f".latch l{(k - 1) % n} l{k} {int(k == 0)}" for k in range(n)]
    care = [gate(COPY, "p0", f"l{order[0]}"), *[gate(XOR, f"p{k}", f"p{k - 1}", f"l{order[k]}") for k in range(1, n)]]
    return check(model("net", ["x", "c", "d"], ["y"], [*lines, *pair("x")]), model("invariant", numbered("l", n), [f"p{n - 1}"], care))


@shape(2)
def storm_holes(n):
    """A storm over n + 1 pigeons and n holes, whose pins are gates that read themselves."""
    count, rows = holes(n)
    names = numbered("i", count)
    lines = [gate(OR, name, "x", name) for name in names] + [gate(rows, "y", *names)]
    return Files("storm", "net.blif", "10", net_blif=model("holes", ["x"], ["y"], lines))


# From here on linear.


@shape(1000)
def ticks_without_rounds(n):
    """n inverters in a line, over n ticks without a round."""
    chain = [gate(NOT, "g0", "x"), *[gate(NOT, f"g{k}", f"g{k - 1}") for k in range(1, n)]]
    return Files(
        "delays", "net.blif", "net.vectors", "net.schedule",
        net_blif=model("chain", ["x"], [f"g{n - 1}"], chain),
        net_vectors="1\n" * n, net_schedule=f"schedule 1\nlatches\ngates {'0' * n}\n" + "tick\n" * n,
    )


@shape(50000)
def chain_read(n):
    """A chain of n gates, flattened and written."""
    return Files("flat", "net.blif", net_blif=model("chain", ["x"], [f"g{n - 1}"], [gate(NOT, "g0", "x"), *[gate(NOT, f"g{k}", f"g{k - 1}") for k in range(1, n)]]))


@shape(50000)
def joined_lines(n):
    """One logical line of n physical ones."""
    return Files("flat", "net.blif", net_blif=model("joined", ["\\\n".join([*numbered("i", n), ""]) + "\n"], ["i0"], []))


@shape(20000)
def ring(n):
    """One ring of n gates in order."""
    return Files("loops", "net.blif", net_blif=model("ring", [], ["g0"], [gate(NOT, f"g{k}", f"g{(k - 1) % n}") for k in range(n)]))


@shape(5000)
def many_loops(n):
    """n pairs of units that share a loop each."""
    inputs = ["x", *[f"u{k}{w}" for k in range(n) for w in "cd"]]
    lines = [line for k in range(n) for line in pair("x", f"u{k}")]
    return check(model("loops", inputs, [f"u{k}y" for k in range(n)], lines))


@shape(1000)
def many_parts(n):
    """n loops that are closed in no case, since their two selects are made of the same inputs."""
    lines = []
    for k in range(n):
        lines += [gate(AND, f"e{k}", f"a{k}", f"b{k}"), gate(["0- 1", "-0 1"], f"f{k}", f"a{k}", f"b{k}")]
        lines += [gate(CHOOSE, f"p{k}", f"e{k}", "x", f"q{k}"), gate(CHOOSE, f"q{k}", f"f{k}", "x", f"p{k}")]
    return check(model("parts", ["x", *numbered("a", n), *numbered("b", n)], numbered("q", n), lines))


@shape(1000)
def transparent_latches(n):
    """n transparent latches, each read only while it is open."""
    lines = []
    for k in range(n):
        lines += [gate(CHOOSE, f"q{k}", f"e{k}", f"d{k}", f"q{k}"), gate(AND, f"y{k}", f"q{k}", f"e{k}")]
    return check(model("latches", [*numbered("d", n), *numbered("e", n)], numbered("y", n), lines), None, "--observe", "outputs")


@shape(1000)
def latch_pipeline(n):
    """n transparent latches in a line, open by turns, the first of which is read while it is open."""
    lines, last = [], "d"
    for k in range(n):
        lines.append(gate(CHOOSE, f"m{k}", "c", *([f"m{k}", last] if k % 2 == 0 else [last, f"m{k}"])))
        last = f"m{k}"
    return check(model("pipeline", ["d", "c"], ["y"], [*lines, gate(["10 1"], "y", "m0", "c")]), None, "--observe", "outputs")


def rewritten(files, *options):
    """The same netlist, rewritten."""
    return Files("rewrite", "net.blif", *files.words[2:], *options, **files.texts)


@shape(1000)
def many_parts_rewritten(n):
    """n loops that are closed in no case, rewritten."""
    return rewritten(many_parts(n))


@shape(1000)
def transparent_latches_rewritten(n):
    """n transparent latches, rewritten."""
    return rewritten(transparent_latches(n))


def carries(n):
    """n carries over 8 cells, each of which runs up or down as a wire of its own says."""
    inputs, outputs, lines = [], [], []
    for k in range(n):
        inputs += [f"up{k}", f"x{k}", *(f"{side}{k}_{i}" for i in range(8) for side in "ab")]
        outputs += [f"s{k}_{i}" for i in range(8)]
        for i in range(8):
            below, above = f"k{k}_{i - 1}" if i else f"x{k}", f"k{k}_{i + 1}" if i < 7 else f"x{k}"
            own = f"a{k}_{i}", f"b{k}_{i}", f"c{k}_{i}"
            lines += [gate(CHOOSE, own[2], f"up{k}", below, above), gate(["11- 1", "1-1 1", "-11 1"], f"k{k}_{i}", *own)]
            lines.append(gate(["100 1", "010 1", "001 1", "111 1"], f"s{k}_{i}", *own))
    return check(model("carries", inputs, outputs, lines))


@shape(75)
def carries_by_cases(n):
    """n carries that run up or down, rewritten by cases."""
    return rewritten(carries(n), "--cases", "16")


@shape(2000)
def parity_chain(n):
    """A chain of n XORs, decided."""
    chain = [gate(XOR, "p1", "i0", "i1"), *[gate(XOR, f"p{k}", f"p{k - 1}", f"i{k}") for k in range(2, n)]]
    return check(model("parity", numbered("i", n), [f"p{n - 1}"], chain))


@shape(20000)
def vectors(n):
    """n ticks of a shift register of eight latches."""
    net = model("shift", ["x"], ["l7"], [f".latch {'x' if k == 0 else f'l{k - 1}'} l{k} 0" for k in range(8)])
    return simulated(net, "1", n)


@shape(5000)
def events(n):
    """A schedule of n rounds over ten inverters."""
    chain = [gate(NOT, "g0", "x"), *[gate(NOT, f"g{k}", f"g{k - 1}") for k in range(1, 10)]]
    rounds = ("round\n" + "".join(f"e g{k} 0\n" for k in range(10))) * n
    return Files("delays", "net.blif", "net.vectors", "net.schedule", net_blif=model("chain", ["x"], ["g9"], chain), net_vectors="1\n", net_schedule="schedule 1\nlatches\ngates 0000000000\ntick\n" + rounds)


@shape(5000)
def cut_hub(n):
    """n rings of eight gates through one hub, which reads them by a tree."""
    links, gates = [], 1
    ends = []
    for _ in range(n):
        links += [(0, gates)] + [(gates + k, gates + k + 1) for k in range(6)]
        ends.append(gates + 6)
        gates += 7
    while len(ends) > 1:
        links += [(a, gates + k // 2) for k, a in enumerate(ends)]
        fresh = (len(ends) + 1) // 2
        ends = list(range(gates, gates + fresh))
        gates += fresh
    return shuffled(links + [(ends[0], 0)], gates)


@shape(100)
def cut_barriers(n):
    """A ring of n layers of 30 gates, each of which reads all of the layer before it."""
    links = [(k * 30 + i, (k + 1) % n * 30 + j) for k in range(n) for i in range(30) for j in range(30)]
    return shuffled(links, 30 * n)


@shape(20000)
def random_regular(n):
    """A graph in which each gate reads three others at random."""
    return shuffled([(random.randrange(n), k) for k in range(n) for _ in range(3)], n)


@shape(20000)
def nested_loops(n):
    """n gates in a row, each of which reads the one before it and the one behind it."""
    links = [(k, k + 1) for k in range(n - 1)] + [(k + 1, k) for k in range(n - 1)]
    return shuffled(links, n)


@shape(20000)
def nested_rings(n):
    """A line of n gates with edges back that are nested: the gate k reads the gate n - k."""
    links = [(k, k + 1) for k in range(n - 1)] + [(n - 1 - k, k) for k in range(n // 2)]
    return shuffled(links, n)


@shape(250)
def arbiter_onehot(n):
    """A round robin arbiter of n requests, whose pointer is a register of n bits; the invariant has a row for each of its states."""
    lines = [f".latch p{(k - 1) % n} p{k} {int(k == 0)}" for k in range(n)]
    for k in range(n):
        lines += [gate(["1- 1", "-1 1"], f"t{k}", f"p{k}", f"u{(k - 1) % n}"), gate(AND, f"g{k}", f"t{k}", f"r{k}"), gate(["10 1"], f"u{k}", f"t{k}", f"r{k}")]
    bits = numbered("p", n)
    rows = ["".join("1" if j == k else "0" for j in range(n)) + " 1" for k in range(n)]
    return check(model("arbiter", numbered("r", n), numbered("g", n), lines), model("invariant", bits, ["ok"], [gate(rows, "ok", *bits)]))


@shape(20000)
def equal_itself(n):
    """A netlist of n random gates without a loop, beside itself."""
    signals = numbered("i", 64)
    lines = []
    for k in range(n):
        lines.append(gate(random.choice([AND, OR, XOR]), f"g{k}", *random.sample(signals[-200:], 2)))
        signals.append(f"g{k}")
    text = model("net", numbered("i", 64), signals[-32:], lines)
    return compared(text, text)


@shape(5000)
def equal_latches(n):
    """n latches, each of which loads an XOR of its neighbours, beside the same with other wires."""
    def net(word):
        lines = []
        for k in range(n):
            lines += [f".latch {word}{k} l{k} 0", gate(XOR, f"{word}{k}", f"l{(k - 1) % n}", f"l{(k + 1) % n}")]
        return model("latches", [], ["l0"], lines)
    return compared(net("a"), net("b"))


@shape(20000)
def care_leaves(n):
    """An assumption that is an OR of n inputs as a tree, as wide as the netlist."""
    care, wires = [], [f"i{k}" for k in range(n)]
    while len(wires) > 1:
        fresh = []
        for k in range(0, len(wires) - 1, 2):
            care.append(gate(OR, f"w{len(care)}", wires[k], wires[k + 1]))
            fresh.append(f"w{len(care) - 1}")
        wires = fresh + (wires[-1:] if len(wires) % 2 else [])
    return check(model("net", [*numbered("i", n), "x", "c", "d"], ["y"], pair("x")), model("assume", numbered("i", n), wires, care))


@shape(2000)
def care_initial(n):
    """An invariant that says of each of n latches that it equals the next one."""
    lines = [f".latch l{(k - 1) % n} l{k} 0" for k in range(n)]
    care = [gate(["11 1", "00 1"], f"e{k}", f"l{k}", f"l{(k + 1) % n}") for k in range(n)]
    care += [gate(COPY, "a0", "e0"), *[gate(AND, f"a{k}", f"a{k - 1}", f"e{k}") for k in range(1, n)]]
    return check(model("net", ["x", "c", "d"], ["y"], [*lines, *pair("x")]), model("invariant", numbered("l", n), [f"a{n - 1}"], care))


@shape(10000)
def storm_gates(n):
    """A storm of 100 rounds over n gates behind one that reads itself."""
    lines = [gate(OR, "g0", "x", "g0"), *[gate(NOT, f"g{k}", f"g{k - 1}") for k in range(1, n)]]
    return Files("storm", "net.blif", "100", net_blif=model("storm", ["x"], [f"g{n - 1}"], lines))


@shape(100)
def sim_wide_loop(n):
    """A loop of n gates, each of which reads all n, over 100 ticks."""
    lines = [gate(wide("1", 1, n + 1), f"g{k}", "x", *numbered("g", n)) for k in range(n)]
    net = model("loop", ["x"], ["g0"], lines)
    return Files("sim", "net.blif", "net.vectors", net_blif=net, net_vectors="1\n0\n" * 50)


@shape(1000)
def explain_few(n):
    """A gate that reads itself beside 5 n gates over n inputs, of which it needs few."""
    signals, lines = numbered("i", n), []
    for k in range(5 * n):
        lines.append(gate(random.choice([AND, XOR]), f"w{k}", *random.sample(signals[-3 * n :], 2)))
        signals.append(f"w{k}")
    return explained(model("few", numbered("i", n), ["y"], [*lines, gate(OR, "y", signals[-1], "y")]))


def run(program, files, seconds, memory):
    """The user seconds, the peak memory in MB and the status of a call, or None past the limits."""
    with tempfile.TemporaryDirectory() as folder:
        for name, text in files.texts.items():
            pathlib.Path(folder, name.replace("_", ".")).write_text(text)
        child = os.fork()
        if child == 0:
            os.chdir(folder)
            resource.setrlimit(resource.RLIMIT_CPU, (seconds, seconds))
            resource.setrlimit(resource.RLIMIT_AS, (memory << 20, memory << 20))
            null = os.open(os.devnull, os.O_WRONLY)
            os.dup2(null, 1)
            os.dup2(null, 2)
            os.execv(program, [program, *files.words])
        _, status, usage = os.wait4(child, 0)
    if os.WIFSIGNALED(status):
        return None
    return usage.ru_utime, usage.ru_maxrss / 1024, os.WEXITSTATUS(status)


def measure(program, name, size, seconds, memory):
    make = SHAPES[name][0]
    cells, times = [], []
    for n in (size, 2 * size, 4 * size):
        random.seed(n)
        found = run(program, make(n), seconds, memory)
        if found is None or found[2] not in (0, 1):
            cells.append(f"{n} -" if found is None else f"{n} status {found[2]}")
            break
        times.append(found[0])
        cells.append(f"{n} {found[0]:.2f} s {found[1]:.0f} MB")
    ratio = f"{times[-1] / times[-2]:.1f}" if len(times) == 3 and times[-2] >= 0.02 else "-"
    print(f"{name:<24} {ratio:>5}   " + "   ".join(f"{cell:<24}" for cell in cells), flush=True)


def main():
    parser = argparse.ArgumentParser(description=__doc__, formatter_class=argparse.RawDescriptionHelpFormatter)
    parser.add_argument("--cyc", default=str(TOP / "crates/cyc/out/cyc"))
    parser.add_argument("--seconds", type=int, default=60)
    parser.add_argument("--memory", type=int, default=4000)
    parser.add_argument("shapes", nargs="*")
    words = parser.parse_args()
    chosen = []
    for word in words.shapes:
        if word.isdigit() and chosen:
            chosen[-1] = chosen[-1][0], int(word)
        elif word in SHAPES:
            chosen.append((word, SHAPES[word][1]))
        else:
            sys.exit("shapes: " + " ".join(SHAPES))
    for name, size in chosen or [(name, size) for name, (_, size) in SHAPES.items()]:
        measure(words.cyc, name, size, words.seconds, words.memory)


if __name__ == "__main__":
    main()
