#!/usr/bin/env python3
"""Netlists with loops, in families of any size, each with the verdict that its construction gives it.

  bench/families.py FAMILY SIZE FOLDER    writes FOLDER/FAMILY.blif and, where the family has one, FOLDER/FAMILY.care.
                                          Prints a pattern of the verdict's line, and a line of options for `check`

Two units share a loop where each may be fed by the other's output and a select says which comes first.

  pairs N              N pairs of units of one bit that share a loop, each reads the one before it
  multiplier N         a multiplier of N bits, row by row, beside one such pair
  beside N             the multiplier beside a loop that isn't harmless: a gate that reads itself
  behind N             the multiplier fed by that loop
  reader_before N      the same, where the multiplier stands before the loop in the file
  unobserved N         the multiplier beside that loop, of which no output is observed
  units N              two adders of N bits that share a loop; one reads its operand rotated, so that all bits are in it
  units_data_first N   an adder and a rotation of N bits that share a loop, gate by gate as Yosys writes them, each
                       multiplexer with the pins data, data, select
  alu_shifter N        an ALU of N bits beside a shifter, likewise
  both_selects N       two adders that share a loop, with a select each: both may read the other
  three_units N        two adders of N bits and a rotation in any order, which a word of three bits chooses
  four_units N         three adders of N bits and a rotation in any order, which a word of five bits chooses
  multiplied_select N  two adders of eight bits, the select being a middle bit of a product of N bits
  carry_either_way N   an adder of N bits whose carry runs up or down, as one wire says
  looped_multiplier N  a multiplier of N bits and an adder that share a loop
  equal_words N        a loop closed where a = b, and b = c, and not a = c, for words of N bits
  equal_pairs N        a loop closed where a = b and b = c
  formula_select N     a loop closed where a formula of 4.6 N random clauses of three literals holds: nowhere
  lock N               a gate that reads itself where a key of N bits is the right one
  decoded_selects N    N adders of eight bits around a ring; a word that is decoded says which comes first
  wide_multiplexers N  N multiplexers of 18 inputs in a line; each reads its data or a neighbour, all from one side
  mesh N               N by N routers of four directions; a select says whether turns into columns or into rows come
  parity N             a loop whose two selects are a parity of N bits as a chain, and its opposite as a shuffled tree
  enable_last N        no loop: one gate, an OR of N inputs behind an enable, which is its last pin
  enable_first N       the same, with the enable as the first pin
  end_around N         an adder of N bits in ones' complement; cared for where some position doesn't propagate
  round_robin N        an arbiter of N requests, whose pointer is a register with one bit set
  allocator N          a wavefront allocator of N by N that wraps around; one bit of its diagonal is set
  bus N                a bus of N stations and eight bits around a ring; one station has the token
"""
import itertools
import random
import sys

AND, OR, NOT, COPY = ["11 1"], ["1- 1", "-1 1"], ["0 1"], ["1 1"]
XOR = ["10 1", "01 1"]
SUM, CARRY = ["100 1", "010 1", "001 1", "111 1"], ["11- 1", "1-1 1", "-11 1"]
CHOOSE = ["11- 1", "0-1 1"]  # the second where the first is 1, else the third
MULTIPLEX = ["1-0 1", "-11 1"]  # the first where the third is 0, else the second
FAMILIES = {}


def family(refused=None, ones=lambda n: (), still_open=None):
    """Enters a family: which wire is refused, and which columns its least vector has at 1. Else it is accepted, and
    where only outputs are observed, so many gates stay open."""

    def enter(make):
        FAMILIES[make.__name__] = make, refused, ones, still_open
        return make

    return enter


class Model:
    def __init__(self, name, inputs, outputs):
        self.lines = [f".model {name}", " ".join([".inputs", *inputs]), " ".join([".outputs", *outputs])]
        self.columns = list(inputs)
        self.gates = self.latches = 0

    def gate(self, rows, output, *pins):
        self.lines += [" ".join([".names", *pins, output]), *rows]
        self.gates += 1
        return output

    def latch(self, source, output, init):
        self.lines.append(f".latch {source} {output} {init}")
        self.columns.append(output)
        self.latches += 1

    def text(self):
        return "\n".join([*self.lines, ".end", ""])


def numbered(word, count):
    return [f"{word}{k}" for k in range(count)]


def add_pair(m, i, x):
    """Two units of one bit: NOT, and AND with d. The select c says which comes first."""
    m.gate(CHOOSE, f"s{i}", f"c{i}", x, f"g{i}")
    m.gate(NOT, f"f{i}", f"s{i}")
    m.gate(CHOOSE, f"t{i}", f"c{i}", f"f{i}", x)
    m.gate(AND, f"g{i}", f"t{i}", f"d{i}")
    return m.gate(CHOOSE, f"y{i}", f"c{i}", f"g{i}", f"f{i}")


@family()
def pairs(n):
    m = Model("pairs", ["x", *[f"{w}{i}" for i in range(n) for w in "cd"]], [f"y{n - 1}"])
    x = "x"
    for i in range(n):
        x = add_pair(m, i, x)
    return m, None


def full_adder(m, a, b, carry, total, out):
    m.gate(SUM, total, a, b, carry)
    m.gate(CARRY, out, a, b, carry)


def operands(n):
    return numbered("a", n), numbered("b", n)


def results(n):
    return [f"r{i}_0" for i in range(n)] + [f"r{n - 1}_{i}" for i in range(1, n)]


def add_multiplier(m, a, b):
    """Row by row: each adds the first operand, where its bit of the second is set, to the sum so far."""
    n = len(a)
    m.gate([], "zero")
    for j in range(n):
        for i in range(n):
            m.gate(AND, f"p{j}_{i}", a[i], b[j])
    for i in range(n):
        m.gate(COPY, f"r0_{i}", f"p0_{i}")
    m.gate(COPY, f"r0_{n}", "zero")
    for j in range(1, n):
        m.gate(COPY, f"k{j}_0", "zero")
        for i in range(n):
            full_adder(m, f"r{j - 1}_{i + 1}", f"p{j}_{i}", f"k{j}_{i}", f"r{j}_{i}", f"k{j}_{i + 1}")
        m.gate(COPY, f"r{j}_{n}", f"k{j}_{n}")


@family()
def multiplier(n):
    a, b = operands(n)
    m = Model("multiplier", ["x", "c0", "d0", *[bit for pair in zip(a, b) for bit in pair]], ["y0", *results(n)])
    add_multiplier(m, a, b)
    add_pair(m, 0, "x")
    return m, None


@family(refused="h")
def beside(n):
    a, b = operands(n)
    m = Model("beside", ["x", *a, *b], ["h", *results(n)])
    add_multiplier(m, a, b)
    m.gate(OR, "h", "x", "h")
    return m, None


@family(refused="h")
def behind(n):
    a, b = operands(n)
    m = Model("behind", ["x", *a[1:], *b], results(n))
    add_multiplier(m, [m.gate(OR, "h", "x", "h"), *a[1:]], b)
    return m, None


@family()
def units(n):
    m = Model("units", ["c", *numbered("x", n), *numbered("a", n), *numbered("b", n)], numbered("y", n))
    for word, bus in (("f", "a"), ("g", "b")):
        carry = m.gate([], f"{word}k0")
        for i in range(n):
            first = (f"x{i}", f"g{i}") if word == "f" else (f"f{(i + 1) % n}", f"x{i}")
            m.gate(CHOOSE, f"{word}i{i}", "c", *first)
            full_adder(m, f"{word}i{i}", f"{bus}{i}", carry, f"{word}{i}", f"{word}k{i + 1}")
            carry = f"{word}k{i + 1}"
    for i in range(n):
        m.gate(CHOOSE, f"y{i}", "c", f"g{i}", f"f{i}")
    return m, None


@family()
def end_around(n):
    inputs = numbered("a", n) + numbered("b", n)
    m = Model("end_around", inputs, numbered("s", n))
    care = Model("assume", inputs, [f"o{n - 1}"])
    for i in range(n):
        full_adder(m, f"a{i}", f"b{i}", f"c{(i - 1) % n}", f"s{i}", f"c{i}")
        care.gate(["00 1", "11 1"], f"e{i}" if i else "o0", f"a{i}", f"b{i}")
        if i:
            care.gate(OR, f"o{i}", f"o{i - 1}", f"e{i}")
    return m, care


def one_hot(name, inputs):
    """A model that is 1 where just one of its inputs is: bit by bit, whether none was set so far, and whether one was."""
    m = Model(name, inputs, ["ok"])
    none, one = m.gate(NOT, "none0", inputs[0]), m.gate(COPY, "one0", inputs[0])
    for i, bit in enumerate(inputs[1:], 1):
        one = m.gate(["01- 1", "1-1 1"], f"one{i}", bit, one, none)
        none = m.gate(["10 1"], f"none{i}", none, bit)
    m.gate(COPY, "ok", one)
    return m


@family()
def round_robin(n):
    m = Model("round_robin", ["en", *numbered("r", n)], numbered("g", n))
    for i in range(n):
        m.latch(f"d{i}", f"p{i}", 0 if i else 1)
    for i in range(n):
        m.gate(["1-- 1", "-10 1"], f"c{i}", f"p{i}", f"c{(i - 1) % n}", f"r{(i - 1) % n}")
        m.gate(AND, f"g{i}", f"c{i}", f"r{i}")
    m.gate(["-" * i + "1" + "-" * (n - 1 - i) + " 1" for i in range(n)], "any", *numbered("g", n))
    m.gate(AND, "move", "any", "en")
    for i in range(n):
        m.gate(CHOOSE, f"d{i}", "move", f"g{(i - 1) % n}", f"p{i}")
    return m, one_hot("invariant", numbered("p", n))


@family()
def allocator(n):
    cells = [(i, j) for i in range(n) for j in range(n)]
    m = Model("allocator", numbered("d", n) + [f"r{i}_{j}" for i, j in cells], [f"g{i}_{j}" for i, j in cells])
    for i, j in cells:
        diagonal = f"d{(i + j) % n}"
        left, above = f"{i}_{(j - 1) % n}", f"{(i - 1) % n}_{j}"
        m.gate(["1-- 1", "-10 1"], f"x{i}_{j}", diagonal, f"x{left}", f"g{left}")
        m.gate(["1-- 1", "-10 1"], f"y{i}_{j}", diagonal, f"y{above}", f"g{above}")
        m.gate(["111 1"], f"g{i}_{j}", f"x{i}_{j}", f"y{i}_{j}", f"r{i}_{j}")
    return m, one_hot("assume", numbered("d", n))


@family()
def bus(n, bits=8):
    data = [f"a{i}_{b}" for i in range(n) for b in range(bits)]
    m = Model("bus", numbered("t", n) + data, [f"w{n - 1}_{b}" for b in range(bits)])
    for i in range(n):
        for b in range(bits):
            m.gate(CHOOSE, f"w{i}_{b}", f"t{i}", f"a{i}_{b}", f"w{(i - 1) % n}_{b}")
    return m, one_hot("assume", numbered("t", n))


@family(refused="p0_0", ones=lambda n: ["b0"])
def reader_before(n):
    a, b = operands(n)
    m = Model("reader_before", ["x", *a[1:], *b], results(n))
    add_multiplier(m, ["h", *a[1:]], b)
    m.gate(OR, "h", "x", "h")
    return m, None


@family(still_open=1)
def unobserved(n):
    a, b = operands(n)
    m = Model("unobserved", ["x", *a, *b], results(n))
    add_multiplier(m, a, b)
    m.gate(OR, "h", "x", "h")
    return m, None


def add_adder(m, word, a, b):
    """A ripple-carry adder: the sum of two words, without the last carry."""
    carry = m.gate([], f"{word}_k0")
    for i, pins in enumerate(zip(a, b)):
        full_adder(m, *pins, carry, f"{word}{i}", f"{word}_k{i + 1}")
        carry = f"{word}_k{i + 1}"
    return numbered(word, len(a))


def add_select(m, word, select, then, otherwise):
    """A word: the one where the select is 1, else the other."""
    return [m.gate(CHOOSE, f"{word}{i}", select, *bits) for i, bits in enumerate(zip(then, otherwise))]


def rotated(bits, places=1):
    return bits[places:] + bits[:places]


@family(refused="fi0", ones=lambda n: ["c", "e"])
def both_selects(n):
    x, f, g = (numbered(word, n) for word in "xfg")
    m = Model("both_selects", ["c", "e", *x, *numbered("a", n), *numbered("b", n)], numbered("y", n))
    add_adder(m, "f", add_select(m, "fi", "c", g, x), numbered("a", n))
    add_adder(m, "g", add_select(m, "gi", "e", rotated(f), x), numbered("b", n))
    add_select(m, "y", "e", g, f)
    return m, None


def add_data_first(m, word, zero, one, select):
    """A word of multiplexers with the pins data, data, select."""
    return [m.gate(MULTIPLEX, f"{word}{i}", *bits, select) for i, bits in enumerate(zip(zero, one))]


def add_adder_of_gates(m, word, a, b, carry):
    for i, (p, q) in enumerate(zip(a, b)):
        half = m.gate(XOR, f"{word}_h{i}", p, q)
        m.gate(XOR, f"{word}{i}", half, carry)
        both, passed = m.gate(AND, f"{word}_b{i}", p, q), m.gate(AND, f"{word}_p{i}", half, carry)
        carry = m.gate(OR, f"{word}_k{i}", both, passed)
    return numbered(word, len(a))


def add_barrel(m, word, bits, amount, fill=None):
    """Stage by stage: the bits rotated by an amount, or shifted where bits come in from outside."""
    for stage, select in enumerate(amount):
        places = 2**stage % len(bits)
        moved = rotated(bits, places)
        if fill:
            moved[len(bits) - places :] = [fill] * places
        bits = add_data_first(m, f"{word}{stage}_", bits, moved, select)
    return bits


def two_units(name, n, inputs, add_first, add_second):
    """Two units of N bits that share a loop, their multiplexers with data first. Each unit is given its input."""
    m = Model(name, ["c", *numbered("x", n), *inputs], numbered("y", n))
    x, g = numbered("x", n), numbered("g", n)
    f = add_first(m, add_data_first(m, "fi", g, x, "c"))
    for output, bit in zip(g, add_second(m, add_data_first(m, "gi", x, f, "c"))):
        m.gate(COPY, output, bit)
    add_data_first(m, "y", f, g, "c")
    return m, None


def amount_of(n):
    return numbered("r", (n - 1).bit_length())


@family()
def units_data_first(n):
    def adder(m, bits):
        return add_adder_of_gates(m, "f", bits, numbered("a", n), m.gate([], "zero"))

    def rotation(m, bits):
        return add_barrel(m, "t", bits, amount_of(n))

    return two_units("units_data_first", n, [*numbered("a", n), *amount_of(n)], adder, rotation)


@family()
def alu_shifter(n):
    def alu(m, bits):
        a = [m.gate(XOR, f"n{i}", f"a{i}", "minus") for i in range(n)]
        total = add_adder_of_gates(m, "s", bits, a, "minus")
        both = [m.gate(AND, f"b{i}", *pins) for i, pins in enumerate(zip(bits, a))]
        differ = [m.gate(XOR, f"d{i}", *pins) for i, pins in enumerate(zip(bits, a))]
        return add_data_first(m, "f", total, add_data_first(m, "l", both, differ, "o1"), "o0")

    def shifter(m, bits):
        return add_barrel(m, "t", bits, amount_of(n), m.gate([], "zero"))

    return two_units("alu_shifter", n, [*numbered("a", n), "minus", "o0", "o1", *amount_of(n)], alu, shifter)


def is_equal_to(bits, number):
    """The row of a gate that is 1 where its pins, the lowest first, are this number."""
    return ["".join(str(number >> i & 1) for i in range(len(bits))) + " 1"]


def add_selection(m, output, *pairs):
    """One gate: an OR of pairs of a select and data."""
    rows = ["--" * i + "11" + "--" * (len(pairs) - 1 - i) + " 1" for i in range(len(pairs))]
    return m.gate(rows, output, *itertools.chain(*pairs))


def add_tree(m, word, data, select):
    """Stage by stage, multiplexers with the pins data, data, select: the one of the data that a word chooses."""
    for stage, bit in enumerate(select):
        pairs = zip(data[::2], data[1::2])
        data = [m.gate(MULTIPLEX, f"{word}_{stage}_{i}", *pair, bit) for i, pair in enumerate(pairs)]
    return data[0]


def ordered_units(name, count, n):
    """Adders and a rotation in any order. The word o chooses it; where it chooses none, each unit is fed x. A word of each
    unit, made of o, says what feeds it: x, or another unit."""
    orders = list(itertools.permutations(range(count)))
    o = numbered("o", (len(orders) - 1).bit_length())
    operand = [numbered(f"a{unit}_", n) for unit in range(count - 1)]
    m = Model(name, [*o, *numbered("x", n), *itertools.chain(*operand), *amount_of(n)], numbered("y", n))
    zero = m.gate([], "zero")

    def add_word(word, numbers):
        """A word that is the number of the order that o chooses."""
        bits = range(max(numbers).bit_length())
        rows = [[is_equal_to(o, k)[0] for k, number in enumerate(numbers) if number >> bit & 1] for bit in bits]
        return [m.gate(rows[bit], f"{word}{bit}", *o) for bit in bits]

    def padded(data):
        return data + [zero] * ((1 << (len(data) - 1).bit_length()) - len(data))

    for v in range(count):
        others = [u for u in range(count) if u != v]
        before = [it[it.index(v) - 1] if it[0] != v else None for it in orders]
        select = add_word(f"s{v}_", [0 if u is None else others.index(u) + 1 for u in before])
        fed = []
        for i in range(n):
            data = padded([f"x{i}", *(f"f{u}_{(i + u + 1) % n}" for u in others)])
            fed.append(add_tree(m, f"in{v}_{i}", data, select))
        if v < count - 1:
            add_adder_of_gates(m, f"f{v}_", fed, operand[v], zero)
        else:
            for i, bit in enumerate(add_barrel(m, "t", fed, amount_of(n))):
                m.gate(COPY, f"f{v}_{i}", bit)
    select = add_word("last", [it[-1] for it in orders])
    for i in range(n):
        m.gate(COPY, f"y{i}", add_tree(m, f"out{i}", padded([f"f{u}_{i}" for u in range(count)]), select))
    return m, None


@family()
def three_units(n):
    return ordered_units("three_units", 3, n)


@family()
def four_units(n):
    return ordered_units("four_units", 4, n)


@family()
def multiplied_select(n, bits=8):
    a, b = operands(n)
    x, f, g = (numbered(word, bits) for word in "xfg")
    m = Model("multiplied_select", [*a, *b, *x, *numbered("u", bits), *numbered("v", bits)], numbered("y", bits))
    add_multiplier(m, a, b)
    select = results(n)[n - 1]
    add_adder(m, "f", add_select(m, "fi", select, x, g), numbered("u", bits))
    add_adder(m, "g", add_select(m, "gi", select, rotated(f), x), numbered("v", bits))
    add_select(m, "y", select, g, f)
    return m, None


@family()
def looped_multiplier(n):
    a, b = operands(n)
    x, g = numbered("x", n), numbered("g", n)
    m = Model("looped_multiplier", ["c", *x, *a, *b], numbered("y", n))
    add_multiplier(m, add_select(m, "fi", "c", x, g), a)
    f = results(n)[n // 2 : n // 2 + n]
    add_adder(m, "g", add_select(m, "gi", "c", f, x), b)
    add_select(m, "y", "c", g, f)
    return m, None


def add_equal(m, output, a, b):
    """Whether two words are the same: a chain."""
    for i, bits in enumerate(zip(a, b)):
        same = m.gate(["00 1", "11 1"], f"{output}_s{i}", *bits)
        so_far = m.gate(AND, f"{output}_u{i}", f"{output}_u{i - 1}", same) if i else m.gate(COPY, f"{output}_u0", same)
    return m.gate(COPY, output, so_far)


def closed_by(name, inputs, add_selects):
    """Two gates, each of which reads the other where its select is 1. Both are closed where both selects are."""
    m = Model(name, ["x", *inputs], ["f", "g"])
    c, e = add_selects(m)
    m.gate(CHOOSE, "f", c, "g", "x")
    m.gate(CHOOSE, "g", e, "f", "x")
    return m, None


def three_words(n):
    return numbered("a", n), numbered("b", n), numbered("c", n)


@family()
def equal_words(n):
    a, b, c = three_words(n)

    def add_selects(m):
        second, third = add_equal(m, "bc", b, c), add_equal(m, "ac", a, c)
        return add_equal(m, "ab", a, b), m.gate(["10 1"], "only_bc", second, third)

    return closed_by("equal_words", [*a, *b, *c], add_selects)


@family(refused="f")
def equal_pairs(n):
    a, b, c = three_words(n)
    return closed_by(
        "equal_pairs", [*a, *b, *c], lambda m: (add_equal(m, "ab", a, b), add_equal(m, "bc", b, c))
    )


@family()
def formula_select(n):
    """No such formula of 150, 175, 200 or 225 variables holds anywhere."""
    choose = random.Random(n)
    variables = numbered("v", n)

    def add_formula(m):
        for i in range(int(4.6 * n)):
            rows = ["-" * k + choose.choice("01") + "-" * (2 - k) + " 1" for k in range(3)]
            clause = m.gate(rows, f"c{i}", *choose.sample(variables, 3))
            m.gate(*((AND, f"h{i}", f"h{i - 1}", clause) if i else (COPY, "h0", clause)))
        return f"h{i}", f"h{i}"

    return closed_by("formula_select", variables, add_formula)


def right_key(n):
    return numbered("k", n)[::3]


@family(refused="h", ones=right_key)
def lock(n):
    key = numbered("k", n)
    m = Model("lock", key, ["h"])
    right = None
    for i, bit in enumerate(key):
        fits = m.gate(COPY if bit in right_key(n) else NOT, f"fits{i}", bit)
        right = m.gate(AND, f"right{i}", right, fits) if right else m.gate(COPY, "right0", fits)
    m.gate(["0- 1", "-1 1"], "h", right, "h")
    return m, None


@family()
def decoded_selects(n, bits=8):
    """The word's numbers from N on choose the last."""
    s = numbered("s", (n - 1).bit_length())
    operand = [[f"a{i}_{b}" for b in range(bits)] for i in range(n)]
    inputs = [*s, *numbered("x", bits), *itertools.chain(*operand)]
    m = Model("decoded_selects", inputs, [f"f{n - 1}_{b}" for b in range(bits)])
    for i in range(n - 1):
        m.gate(is_equal_to(s, i), f"is{i}", *s)
    m.gate(["0" * (n - 1) + " 1"], f"is{n - 1}", *numbered("is", n - 1))
    for i in range(n):
        before = rotated([f"f{(i - 1) % n}_{b}" for b in range(bits)])
        add_adder(m, f"f{i}_", add_select(m, f"in{i}_", f"is{i}", numbered("x", bits), before), operand[i])
    return m, None


@family()
def wide_multiplexers(n, width=16):
    words = [[f"s{i}_{k}" for k in range((width - 1).bit_length())] for i in range(n)]
    data = [[f"d{i}_{j}" for j in range(width)] for i in range(n)]
    inputs = ["right", "x", "y", *itertools.chain(*([f"own{i}", *words[i], *data[i]] for i in range(n)))]
    m = Model("wide_multiplexers", inputs, [f"w{n - 1}", "w0"])
    wires = ["x", *numbered("w", n), "y"]
    for i in range(n):
        pins = [*words[i], f"own{i}"]
        own = [m.gate(is_equal_to(pins, j + width), f"is{i}_{j}", *pins) for j in range(width)]
        m.gate(["01 1"], f"from_left{i}", f"own{i}", "right")
        m.gate(["00 1"], f"from_right{i}", f"own{i}", "right")
        sides = (f"from_left{i}", wires[i]), (f"from_right{i}", wires[i + 2])
        add_selection(m, f"w{i}", *zip(own, data[i]), *sides)
    return m, None


@family()
def mesh(n):
    """A word of two bits says what an output takes: the local bit, what goes straight on, or a turn from either side."""
    places = [(i, j) for i in range(n) for j in range(n)]
    steps = {"e": (0, 1), "w": (0, -1), "s": (1, 0), "n": (-1, 0)}
    outputs = [(i, j, to) for i, j in places for to in steps]
    inputs = ["rows", *(f"l{i}_{j}" for i, j in places), *(f"{bit}{i}_{j}{to}" for i, j, to in outputs for bit in "pq")]
    m = Model("mesh", inputs, [f"{to}{i}_{j}" for i, j, to in outputs])
    zero, columns = m.gate([], "zero"), m.gate(NOT, "columns", "rows")
    for i, j, to in outputs:
        at = f"{i}_{j}{to}"

        def arriving(direction):
            row, column = i - steps[direction][0], j - steps[direction][1]
            return f"{direction}{row}_{column}" if 0 <= row < n and 0 <= column < n else zero

        may_turn = "rows" if to in "ew" else columns
        sides = "ns" if to in "ew" else "ew"
        for k, rows in enumerate((["00- 1"], ["10- 1"], ["011 1"], ["111 1"])):
            m.gate(rows, f"take{k}_{at}", f"p{at}", f"q{at}", may_turn)
        add_selection(
            m, f"{to}{i}_{j}", (f"take0_{at}", f"l{i}_{j}"), (f"take1_{at}", arriving(to)),
            *((f"take{k}_{at}", arriving(side)) for k, side in enumerate(sides, 2)),
        )
    return m, None


@family()
def parity(n):
    bits = numbered("b", n)

    def add_selects(m):
        chain = bits[0]
        for i in range(1, n):
            chain = m.gate(XOR, f"chain{i}", chain, bits[i])
        tree = list(bits)
        random.Random(1).shuffle(tree)
        for k in range(n - 1):
            tree.append(m.gate(XOR, f"tree{k}", tree.pop(0), tree.pop(0)))
        return chain, m.gate(NOT, "opposite", tree[0])

    return closed_by("parity", bits, add_selects)


@family()
def carry_either_way(n):
    a, b = operands(n)
    m = Model("carry_either_way", ["up", *itertools.chain(*zip(a, b)), "x"], numbered("s", n))
    for i in range(n):
        below = f"u{i - 1}" if i else "x"
        above = f"d{i + 1}" if i < n - 1 else "x"
        m.gate(CHOOSE, f"c{i}", "up", below, above)
        m.gate(CARRY, f"k{i}", a[i], b[i], f"c{i}")
        m.gate(COPY, f"u{i}", f"k{i}")
        m.gate(COPY, f"d{i}", f"k{i}")
        m.gate(SUM, f"s{i}", a[i], b[i], f"c{i}")
    return m, None


@family()
def enable_last(n):
    m = Model("enable_last", [*numbered("x", n), "enable"], ["y"])
    m.gate(["-" * i + "1" + "-" * (n - 1 - i) + "1 1" for i in range(n)], "y", *numbered("x", n), "enable")
    return m, None


@family()
def enable_first(n):
    m = Model("enable_first", ["enable", *numbered("x", n)], ["y"])
    m.gate(["1" + "-" * i + "1" + "-" * (n - 1 - i) + " 1" for i in range(n)], "y", "enable", *numbered("x", n))
    return m, None


def verdict(model, refused, ones, still_open):
    """A pattern of the line that `check` prints."""
    if refused:
        vector = (f"{it}={int(it in ones)}" for it in model.columns)
        return " ".join([f"refused undetermined wire={refused} at", *vector])
    accepted = f"accepted gates={model.gates} loops=* latches={model.latches}"
    return accepted if still_open is None else f"{accepted} open={still_open}"


def main(name, size, folder):
    make, refused, ones, still_open = FAMILIES[name]
    models = make(int(size))
    for model, ending in zip(models, ("blif", "care")):
        if model:
            with open(f"{folder}/{name}.{ending}", "w", encoding="ascii") as it:
                it.write(model.text())
    print(verdict(models[0], refused, ones(int(size)), still_open))
    print("" if still_open is None else "--observe outputs")


if __name__ == "__main__":
    main(*sys.argv[1:])
