#!/usr/bin/env python3
"""Times `cyc sim` against Icarus Verilog on a stream of vectors, and compares what both show.

  bench/simulate.py CYC [GATES [VECTORS [HOLD]]]

CYC is the built program. The netlist is random and has no loop: 64 inputs, 200 latches, 32 outputs, and gates of two
or three pins that mostly read late ones. An input keeps its value from vector to vector with the probability HOLD.
Icarus (`iverilog` and `vvp`) gets the same gates as assignments, and fewer vectors where that is told by a third
number behind HOLD, since it takes long.
"""
import os
import random
import subprocess
import sys
import tempfile
import time

INPUTS, LATCHES, OUTPUTS = 64, 200, 32
TWO = (["11"], ["1-", "-1"], ["10", "01"], ["00"], ["0-", "-0"], ["11", "00"])
THREE = (["11-", "0-1"], ["11-", "1-1", "-11"], ["111"], ["1--", "-1-", "--1"])


def netlist(count, chance):
    """The gates as (pins, name, rows), and what each latch loads."""
    signals = [f"i{k}" for k in range(INPUTS)] + [f"q{k}" for k in range(LATCHES)]

    def pin():
        if chance.random() < 0.7:
            return signals[max(0, len(signals) - 1 - int(chance.expovariate(1 / 300)))]
        return chance.choice(signals)

    gates = []
    for k in range(count):
        rows = chance.choice(THREE if chance.random() < 0.3 else TWO)
        gates.append(([pin() for _ in rows[0]], f"g{k}", rows))
        signals.append(f"g{k}")
    driven = signals[INPUTS + LATCHES:]
    outputs = list(dict.fromkeys(chance.choice(driven) for _ in range(OUTPUTS)))
    return gates, [chance.choice(driven) for _ in range(LATCHES)], outputs


def blif(gates, loads, outputs):
    yield ".model m\n.inputs " + " ".join(f"i{k}" for k in range(INPUTS))
    yield ".outputs " + " ".join(outputs)
    yield from (f".latch {load} q{k} 0" for k, load in enumerate(loads))
    for pins, name, rows in gates:
        yield " ".join([".names", *pins, name])
        yield from (f"{row} 1" for row in rows)
    yield ".end\n"


def verilog(gates, loads, outputs, count):
    yield f"module t; reg [0:{INPUTS - 1}] in; reg [0:{INPUTS - 1}] rows [0:{count - 1}]; integer k;"
    yield f"reg [0:{LATCHES - 1}] q;"
    yield from (f"wire i{k} = in[{k}];" for k in range(INPUTS))
    yield from (f"wire q{k} = q[{k}];" for k in range(LATCHES))
    yield from (f"wire {name};" for _, name, _ in gates)
    for pins, name, rows in gates:
        terms = (" & ".join(p if c == "1" else "~" + p for p, c in zip(pins, row) if c != "-") for row in rows)
        yield f"assign {name} = " + " | ".join(f"({term})" for term in terms) + ";"
    yield f'initial begin $readmemb("t.vec", rows); q = 0; for (k = 0; k < {count}; k = k + 1) begin'
    yield "in = rows[k]; #1; $display(\"tick %0d outputs=%b\", k + 1, {" + ", ".join(outputs) + "});"
    yield "q = {" + ", ".join(loads) + "}; end $finish; end endmodule\n"


def vectors(count, hold, chance):
    bits = ["0"] * INPUTS
    for _ in range(count):
        bits = [b if chance.random() < hold else chance.choice("01") for b in bits]
        yield "".join(bits)


def timed(words):
    start = time.time()
    text = subprocess.run(words, check=True, capture_output=True, text=True).stdout
    return time.time() - start, [line for line in text.splitlines() if line.startswith("tick")]


def main():
    if len(sys.argv) < 2:
        sys.exit(__doc__)
    program = os.path.abspath(sys.argv[1])
    numbers = sys.argv[2:] + ["10000", "10000", "0", "200"][len(sys.argv) - 2:]
    gates, count, hold, few = int(numbers[0]), int(numbers[1]), float(numbers[2]), int(numbers[3])
    chance = random.Random(1)
    parts = netlist(gates, chance)
    rows = list(vectors(count, hold, chance))
    few = min(few, count)
    with tempfile.TemporaryDirectory() as folder:
        os.chdir(folder)
        for name, lines in (("t.blif", blif(*parts)), ("t.v", verilog(*parts, few)), ("all.vec", rows), ("t.vec", rows[:few])):
            with open(name, "w", encoding="ascii") as it:
                it.write("\n".join(lines) + "\n")
        subprocess.run(["iverilog", "-o", "t.vvp", "t.v"], check=True)
        ours, told = timed([program, "sim", "t.blif", "all.vec"])
        theirs, wanted = timed(["vvp", "t.vvp"])
    same = told[:few] == wanted
    print(f"cyc sim: {count} vectors in {ours:.2f} s, {1000 * ours / count:.3f} ms each")
    print(f"vvp: {few} vectors in {theirs:.2f} s, {1000 * theirs / few:.3f} ms each")
    print("the outputs are the same" if same else "the outputs DIFFER")
    sys.exit(0 if same else 1)


main()
