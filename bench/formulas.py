#!/usr/bin/env python3
"""Formulas in DIMACS form, in families of any size, for `bench/sat.sh`.

  bench/formulas.py FAMILY SIZE [SEED]     writes the formula to standard output

  pigeons N           N pigeons in N - 1 holes: no
  factors N           the number N is a product of two numbers, neither of them 1, by an array of adders
  random N SEED       4.26 N clauses of three of N variables
  sparse N SEED       4.0 N of them, which mostly have a model
  products N          two multipliers of N bits, one with its operands the other way around, differ: no
  adders N            a chain of carries and a chain of carries that skip over four bits differ in a sum of N bits: no
  parity N SEED       the parities of N bits, by two chains in different orders, differ: no
  clique N SEED       the edges of a graph of N nodes in two colours without a triangle of one colour
  queens N            N queens on N by N squares
  grid N SEED         sums of two over the nodes of a grid of N by N, one of which is odd: no
  tseitin N SEED      the same over a random graph of N nodes with four edges each
"""
import itertools
import random
import sys


class Formula:
    def __init__(self):
        self.variables, self.clauses = 0, []

    def new(self):
        self.variables += 1
        return self.variables

    def news(self, count):
        return [self.new() for _ in range(count)]

    def add(self, *clause):
        self.clauses.append(clause)

    def both(self, a, b):
        x = self.new()
        self.add(-x, a), self.add(-x, b), self.add(x, -a, -b)
        return x

    def either(self, a, b):
        return -self.both(-a, -b)

    def differ(self, a, b):
        x = self.new()
        self.add(-x, a, b), self.add(-x, -a, -b), self.add(x, -a, b), self.add(x, a, -b)
        return x

    def full(self, a, b, c):
        """The sum and the carry of three bits."""
        half = self.differ(a, b)
        return self.differ(half, c), self.either(self.both(a, b), self.both(half, c))

    def text(self):
        lines = [f"p cnf {self.variables} {len(self.clauses)}"]
        return "\n".join(lines + [" ".join(map(str, [*c, 0])) for c in self.clauses]) + "\n"


def pigeons(f, n, seed):
    at = [f.news(n - 1) for _ in range(n)]
    for row in at:
        f.add(*row)
    for hole in range(n - 1):
        for a, b in itertools.combinations(range(n), 2):
            f.add(-at[a][hole], -at[b][hole])


def product(f, a, b):
    """The bits of a product, the lowest first, row by row."""
    total, zero = [], f.new()
    f.add(-zero)
    rest = [zero] * len(a)
    for bit in b:
        carry, row = zero, []
        for digit, factor in zip(rest, a):
            digit, carry = f.full(digit, f.both(factor, bit), carry)
            row.append(digit)
        total.append(row[0])
        rest = row[1:] + [carry]
    return total + rest


def factors(f, n, seed):
    width = n.bit_length()
    a, b = f.news(width // 2 + width % 2), f.news(width // 2 + width % 2)
    f.add(*a[1:]), f.add(*b[1:])
    for place, bit in enumerate(product(f, a, b)):
        f.add(bit if n >> place & 1 else -bit)


def three(f, n, seed, ratio):
    choose = random.Random(seed)
    f.news(n)
    for _ in range(int(ratio * n)):
        f.add(*(v if choose.random() < 0.5 else -v for v in choose.sample(range(1, n + 1), 3)))


def products(f, n, seed):
    a, b = f.news(n), f.news(n)
    f.add(*(f.differ(x, y) for x, y in zip(product(f, a, b), product(f, b, a))))


def adders(f, n, seed):
    a, b, carry = f.news(n), f.news(n), f.new()
    chain, skip, block, sums = carry, carry, carry, []
    passes = None
    for place, (x, y) in enumerate(zip(a, b)):
        half, both = f.differ(x, y), f.both(x, y)
        sums.append(f.differ(f.differ(half, chain), f.differ(half, skip)))
        chain = f.either(both, f.both(half, chain))
        skip = f.either(both, f.both(half, skip))
        passes = half if passes is None else f.both(passes, half)
        if place % 4 == 3:
            skip = f.either(f.both(passes, block), f.both(-passes, skip))
            block, passes = skip, None
    f.add(*sums, f.differ(chain, skip))


def parity(f, n, seed):
    bits = f.news(n)
    chains = []
    for order in (bits, random.Random(seed).sample(bits, n)):
        total = order[0]
        for bit in order[1:]:
            total = f.differ(total, bit)
        chains.append(total)
    f.add(f.differ(*chains))


def clique(f, n, seed):
    choose = random.Random(seed)
    edges = {e: f.new() for e in itertools.combinations(range(n), 2) if choose.random() < 0.78}
    for a, b, c in itertools.combinations(range(n), 3):
        if {(a, b), (a, c), (b, c)} <= edges.keys():
            three = edges[a, b], edges[a, c], edges[b, c]
            f.add(*three), f.add(*(-e for e in three))


def queens(f, n, seed):
    at = [f.news(n) for _ in range(n)]
    squares = list(itertools.product(range(n), range(n)))
    for row in at:
        f.add(*row)
    for (a, b), (c, d) in itertools.combinations(squares, 2):
        if a == c or b == d or abs(a - c) == abs(b - d):
            f.add(-at[a][b], -at[c][d])


def add_sums(f, nodes, edges):
    """The edges at the first node have an odd sum, and those at each other node an even one (Tseitin 1968)."""
    for node in nodes:
        around = [e for ends, e in edges.items() if node in ends]
        odd = node == nodes[0]
        for signs in itertools.product((0, 1), repeat=len(around)):
            if sum(signs) % 2 != odd:
                f.add(*(-e if s else e for s, e in zip(signs, around)))


def grid(f, n, seed):
    edges = {}
    nodes = list(itertools.product(range(n), range(n)))
    for x, y in nodes:
        for to in ((x + 1) % n, y), (x, (y + 1) % n):
            edges[frozenset([(x, y), to])] = f.new()
    add_sums(f, nodes, edges)


def tseitin(f, n, seed):
    choose = random.Random(seed)
    edges = set()
    while len(edges) < 2 * n:
        ends = choose.sample([node for node in range(n) for _ in range(4)], 4 * n)
        edges = {frozenset(pair) for pair in zip(ends[::2], ends[1::2]) if pair[0] != pair[1]}
    add_sums(f, range(n), {edge: f.new() for edge in sorted(edges, key=sorted)})


FAMILIES = {
    "pigeons": pigeons,
    "factors": factors,
    "random": lambda f, n, seed: three(f, n, seed, 4.26),
    "sparse": lambda f, n, seed: three(f, n, seed, 4.0),
    "products": products,
    "adders": adders,
    "parity": parity,
    "clique": clique,
    "queens": queens,
    "grid": grid,
    "tseitin": tseitin,
}


def main(name, size, seed="1"):
    formula = Formula()
    FAMILIES[name](formula, int(size), int(seed))
    sys.stdout.write(formula.text())


if __name__ == "__main__":
    if len(sys.argv) not in (3, 4) or sys.argv[1] not in FAMILIES:
        sys.exit(__doc__.rstrip())
    main(*sys.argv[1:])
