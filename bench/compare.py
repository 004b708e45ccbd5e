#!/usr/bin/env python3
"""Random netlists with loops, decided vector by vector and compared with `cyc`.

  bench/compare.py [CASES] [SEED]      1,000 cases of seed 1, if nothing else is said

Each case is a netlist of at most eight gates, three inputs and two latches, with or without a care file, and observed
in one of the two ways. It is decided here by simulation with 0, 1 and unknown at each vector alone. What `check`
prints must be the same text. Of an accepted netlist `explain` must show each loop's gates, cut wires, sweeps and
columns, as they are defined. What `rewrite` writes of an accepted netlist, as it is and split into at most 2 to 8
cases, must have no loop, and that netlist and the graph of `aiger` must have the same outputs and next states at each
care vector. What `explain` shows of an undetermined wire must be a shortest cycle that leads to it and the shortest
way from there, by pins that matter, and the wires beside the cycle and the columns that hold these gates open, all of
them needed. What `assume` writes must have the same invariant, and within it let a vector through exactly where the
given assumption does and each observed wire is determined; `check` must accept it; and where no such file is
accepted, `assume` must tell what refuses the netlist on these vectors. And `equal` must tell of the netlist and a
version of it, with all in another order and perhaps one thing changed, what is found of them here: the first name
that isn't matched, the refusal of one, the least vector of a difference with its output or latch, or that they are
equal. A case that differs is printed with its files, and the status is then 1.

CYC=PROGRAM in the environment compares that program in place of ./cyc.
"""
import itertools
import os
import random
import subprocess
import sys
import tempfile

TOP = os.path.dirname(os.path.dirname(os.path.abspath(__file__)))
PROGRAM = os.environ.get("CYC", f"{TOP}/cyc")
UNKNOWN = 2


# ---- covers and netlists

def value(cover, bits):
    """The value of a cover on bits: a cover is its rows and the value where one of them matches."""
    rows, on = cover
    if not rows:
        return 0
    hit = any(all(place in ("-", str(bit)) for place, bit in zip(row, bits)) for row in rows)
    return int(hit == (on == "1"))


def extension(cover, trits):
    """The value that the cover has for all completions, or unknown."""
    choices = [(0, 1) if trit == UNKNOWN else (trit,) for trit in trits]
    found = {value(cover, bits) for bits in itertools.product(*choices)}
    return found.pop() if len(found) == 1 else UNKNOWN


class Netlist:
    """Inputs, latches (source, init) and gates (pins, cover); signals are numbered in this order."""

    def __init__(self, inputs, latches, gates, outputs, names):
        self.inputs, self.latches, self.gates, self.outputs, self.names = inputs, latches, gates, outputs, names
        self.first = inputs + len(latches)

    def fixpoint(self, vector):
        state = [UNKNOWN] * len(self.gates)
        while True:
            wires = [*vector, *state]
            after = [extension(cover, [wires[pin] for pin in pins]) for pins, cover in self.gates]
            if after == state:
                return wires
            state = after

    def reach(self):
        """For each gate the gates to which a walk leads from it."""
        after = [set() for _ in self.gates]
        for gate, (pins, _) in enumerate(self.gates):
            for pin in pins:
                if pin >= self.first:
                    after[pin - self.first].add(gate)
        found = []
        for gate in range(len(self.gates)):
            seen, front = set(), [gate]
            while front:
                new = after[front.pop()] - seen
                seen |= new
                front += new
            found.append(seen)
        return found

    def loops(self):
        """For each loop, in the order of their first gates, its gates in flat order."""
        reach = self.reach()
        looped = [gate for gate in range(len(reach)) if gate in reach[gate]]
        found = [tuple(other for other in looped if other in reach[gate] and gate in reach[other]) for gate in looped]
        return list(dict.fromkeys(found))


# ---- BLIF

def cover_text(cover):
    return "".join(f"{row} {cover[1]}\n" if row else f"{cover[1]}\n" for row in cover[0])


def text_of(net):
    name = net.names
    text = f".model m\n.inputs {' '.join(name[: net.inputs])}\n"
    text += f".outputs {' '.join(name[signal] for signal in net.outputs)}\n"
    for number, (source, init) in enumerate(net.latches):
        text += f".latch {name[source]} {name[net.inputs + number]} {init}\n"
    for number, (pins, cover) in enumerate(net.gates):
        text += f".names {' '.join(name[signal] for signal in [*pins, net.first + number])}\n{cover_text(cover)}"
    return text + ".end\n"


def netlist_of(text):
    """Reads what `rewrite` writes: one model, one line a directive."""
    inputs, outputs, latches, gates = [], [], [], []
    for line in text.split("\n"):
        word, *rest = line.split() or [""]
        if word == ".inputs":
            inputs = rest
        elif word == ".outputs":
            outputs = rest
        elif word == ".latch":
            latches.append(rest)
        elif word == ".names":
            gates.append((rest, []))
        elif word and not word.startswith("."):
            gates[-1][1].append([word, *rest])
    names = [*inputs, *[latch[1] for latch in latches], *[pins[-1] for pins, _ in gates]]
    number = {name: place for place, name in enumerate(names)}
    covers = [(["" if len(row) == 1 else row[0] for row in rows], rows[0][-1] if rows else "1") for _, rows in gates]
    return Netlist(
        len(inputs),
        [(number[latch[0]], latch[-1]) for latch in latches],
        [([number[name] for name in pins[:-1]], cover) for (pins, _), cover in zip(gates, covers)],
        [number[name] for name in outputs],
        names,
    )


# ---- cases

def random_cover(pins):
    rows = ["".join(random.choice("01--") for _ in range(pins)) for _ in range(random.choice([0, 1, 1, 2, 2, 3]))]
    return rows, random.choice("01")


def random_netlist():
    inputs, latches, gates = random.randint(0, 3), random.choice([0, 0, 1, 2]), random.randint(1, 8)
    first = inputs + latches
    signal = lambda: random.randrange(first + gates)
    names = [*[f"x{k}" for k in range(inputs)], *[f"q{k}" for k in range(latches)], *[f"g{k}" for k in range(gates)]]
    parts = [(signal(), random.randint(0, 3)) for _ in range(latches)]
    pins = [[signal() for _ in range(random.choice([0, 1, 2, 2, 2, 3]))] for _ in range(gates)]
    outputs = dict.fromkeys(signal() for _ in range(random.randint(0, 2)))
    return Netlist(inputs, parts, [(on, random_cover(len(on))) for on in pins], list(outputs), names)


def random_model(net, columns):
    """A model of a care file on some of these columns: its columns, and a netlist without loops whose last gate counts."""
    on = [column for column in columns if random.random() < 0.8]
    gates = []
    for _ in range(random.randint(1, 2)):
        there = len(on) + len(gates)
        pins = [random.randrange(there) for _ in range(random.randint(0, 3))] if there else []
        gates.append((pins, random_cover(len(pins))))
    names = [*[net.names[column] for column in on], *[f"n{k}" for k in range(len(gates))]]
    return on, Netlist(len(on), [], gates, [len(on) + len(gates) - 1], names)


def model_text(word, model):
    return text_of(model[1]).replace(".model m", f".model {word}", 1)


def holds(model, vector):
    if model is None:
        return True
    columns, net = model
    return net.fixpoint([vector[column] for column in columns])[net.outputs[0]] == 1


def vectors(columns):
    return list(itertools.product((0, 1), repeat=columns))


def told(names, bits):
    return "".join(f" {name}={bit}" for name, bit in zip(names, bits))


def observed(net, observe):
    """The gates that are observed, in flat order."""
    seen = {*net.outputs, *[source for source, _ in net.latches]}
    return [gate for gate in range(net.first, len(net.names)) if observe == "all" or gate in seen]


def decide(net, assume, invariant, observe, counts=lambda vector: True):
    """The text of the verdict, and the care vectors, which are among those that count."""
    states, name = net.names[net.inputs : net.first], net.names
    inside = lambda state: holds(invariant, [0] * net.inputs + list(state))
    for state in vectors(len(net.latches)):
        if all(init >= 2 or init == bit for (_, init), bit in zip(net.latches, state)) and not inside(state):
            return "refused initial" + told(states, state), []
    care = [it for it in vectors(net.first) if inside(it[net.inputs :]) and holds(assume, it) and counts(it)]
    if not care:
        return "refused empty care", []
    fixpoints = [net.fixpoint(vector) for vector in care]
    for gate in observed(net, observe):
        for vector, wires in zip(care, fixpoints):
            if wires[gate] == UNKNOWN:
                at = " at" + told(name, vector) if vector else ""
                return f"refused undetermined wire={name[gate]}{at}", care
    for vector, wires in zip(care, fixpoints):
        after = [wires[source] for source, _ in net.latches]
        if not inside(after):
            return "refused leaves at" + told(name, vector) + " next" + told(states, after), care
    loose = sum(any(wires[gate] == UNKNOWN for wires in fixpoints) for gate in range(net.first, len(name)))
    tail = "" if observe == "all" else f" open={loose}"
    return f"accepted gates={len(net.gates)} loops={len(net.loops())} latches={len(net.latches)}{tail}", care


def seen(net, vector):
    """The outputs and what the latches load."""
    wires = net.fixpoint(vector)
    return [wires[signal] for signal in [*net.outputs, *[source for source, _ in net.latches]]]


def differs(net, new, care):
    """Why a rewritten netlist isn't as good as the netlist, if it isn't."""
    if new.loops():
        return "it has a loop"
    return next((f"it differs at {vector}" for vector in care if seen(net, vector) != seen(new, vector)), "")


# ---- graphs

def graph_differs(net, text, care):
    """Why an and-inverter graph isn't as good as the netlist, if it isn't."""
    lines = [line.split() for line in text.split("\n")]
    count, inputs, latches, outputs, ands = map(int, lines[0][1:])
    rows = iter(lines[1:])
    take = lambda number: [next(rows) for _ in range(number)]
    columns = take(inputs)
    loads = take(latches)
    shown, pairs = take(outputs), take(ands)
    if (count, inputs, latches) != (inputs + latches + ands, net.inputs, len(net.latches)):
        return "its head is another"
    if [row[2:] for row in loads] != [{0: [], 1: ["1"]}.get(init, row[:1]) for row, (_, init) in zip(loads, net.latches)]:
        return "its latches start otherwise"
    for vector in care:
        edges = {0: 0, 1: 1}
        for (edge, *_), bit in zip([*columns, *loads], vector):
            edges[int(edge)], edges[int(edge) ^ 1] = bit, 1 - bit
        for edge, *pins in pairs:
            bit = min(edges[int(pin)] for pin in pins)
            edges[int(edge)], edges[int(edge) ^ 1] = bit, 1 - bit
        if [edges[int(row[0])] for row in shown] + [edges[int(row[1])] for row in loads] != seen(net, vector):
            return f"it differs at {vector}"
    return ""


# ---- loops

def cut_of(net, loop):
    """The gates from which a walk leads back to them through gates of the loop that come before and are none of these."""
    cut = []
    for gate in loop:
        seen, front = set(), [gate]
        while front:
            read = {pin - net.first for pin in net.gates[front.pop()][0]} & set(loop)
            front += [other for other in read - seen if other < gate and other not in cut]
            seen |= read
        if gate in seen:
            cut.append(gate)
    return cut


def sweep(net, loop, wires, cut):
    """The cut wires after one sweep more."""
    found = {}

    def value_of(signal):
        gate = signal - net.first
        return cut[gate] if gate in cut else value_at(gate) if gate in loop else wires[signal]

    def value_at(gate):
        if gate not in found:
            pins, cover = net.gates[gate]
            found[gate] = extension(cover, [value_of(pin) for pin in pins])
        return found[gate]

    return {gate: value_at(gate) for gate in cut}


def sweeps_of(net, loop, care):
    """How many sweeps the loop needs at most on these vectors."""
    most = 0
    for vector in care:
        wires, cut = net.fixpoint(vector), dict.fromkeys(cut_of(net, loop), UNKNOWN)
        for number in itertools.count():
            if all(wires[net.first + gate] == bit for gate, bit in cut.items()):
                break
            cut = sweep(net, loop, wires, cut)
        most = max(most, number)
    return most


def upstream_of(net, gates):
    seen, front = set(gates), list(gates)
    while front:
        read = {pin - net.first for pin in net.gates[front.pop()][0] if pin >= net.first} - seen
        seen |= read
        front += read
    return seen


def told_of_loops(net, care):
    """What `explain` tells of the loops of an accepted netlist."""
    lines = []
    for number, loop in enumerate(net.loops(), 1):
        names = lambda gates: "".join(" " + net.names[net.first + gate] for gate in gates)
        columns = sorted({pin for gate in upstream_of(net, loop) for pin in net.gates[gate][0] if pin < net.first})
        lines.append(f"loop {number} gates{names(loop)}")
        lines.append(f"loop {number} cut{names(cut_of(net, loop))}")
        lines.append(f"loop {number} sweeps {sweeps_of(net, loop, care)}")
        lines.append(f"loop {number} columns" + "".join(" " + net.names[column] for column in columns))
    return lines


# ---- explanations

def held_open(net, given):
    """The greatest set of gates that stay unknown as long as all of it does, where some columns have these values."""
    known = net.fixpoint(given)
    held = {net.first + gate for gate in range(len(net.gates)) if known[net.first + gate] == UNKNOWN}

    def is_held(signal):
        pins, cover = net.gates[signal - net.first]
        choices = [(UNKNOWN,) if pin in held or known[pin] != UNKNOWN else (0, 1) for pin in pins]
        return all(
            extension(cover, [known[pin] if len(choice) == 1 else bit for pin, choice, bit in zip(pins, choices, bits)]) == UNKNOWN
            for bits in itertools.product(*choices)
        )

    while True:
        out = {signal for signal in held if not is_held(signal)}
        if not out:
            return held
        held -= out


def matter(net, wires, signal):
    """The gates on those unknown pins of a gate of which, at some values of all of these, a flip flips the gate."""
    pins, cover = net.gates[signal - net.first]
    choices = [(0, 1) if wires[pin] == UNKNOWN else (wires[pin],) for pin in pins]
    flip = lambda bits, place: (*bits[:place], 1 - bits[place], *bits[place + 1 :])
    return {
        pin
        for place, pin in enumerate(pins)
        if wires[pin] == UNKNOWN
        and any(value(cover, bits) != value(cover, flip(bits, place)) for bits in itertools.product(*choices))
    }


def distances(reads, start, most):
    """How many steps lead from a gate back to each gate that leads to it."""
    found, front = {}, [start]
    for far in range(1, most + 1):
        front = [pin for signal in front for pin in reads[signal] if found.setdefault(pin, far) == far]
        front = list(dict.fromkeys(front))
        if not front:
            break
    return found


def shortest_cycle(reads, goal):
    """The number of gates on a shortest cycle of unknown gates that leads to a gate."""
    leading = {goal, *distances(reads, goal, len(reads))}
    return min(distances(reads, signal, len(reads)).get(signal, len(reads) + 1) for signal in leading)


def stays_open(net, cycle, sides):
    """Whether each gate of a cycle stays unknown whatever the wires are that are neither on it nor among the sides."""

    def stays(signal):
        pins, cover = net.gates[signal - net.first]
        choices = [(UNKNOWN,) if pin in cycle else (sides[pin],) if pin in sides else (0, 1) for pin in pins]
        return all(extension(cover, bits) == UNKNOWN for bits in itertools.product(*choices))

    return all(map(stays, cycle))


def held_wrong(net, given, further, gates, wires):
    """What is wrong in further values of columns that hold gates open beside those that are given, if something is."""
    if any(wires[column] != bit for column, bit in {**given, **further}.items()):
        return "a needed value isn't the vector's"
    holds = lambda values: held_open(net, [values.get(column, UNKNOWN) for column in range(net.first)]) >= set(gates)
    if not holds({**given, **further}):
        return "the needed values hold it not open"
    for out in further:
        if out in given or holds({**given, **{column: bit for column, bit in further.items() if column != out}}):
            return f"{net.names[out]} isn't needed"
    return ""


def why_explained_wrong(net, text):
    """What is wrong in an explanation of an undetermined wire, if something is."""
    verdict, *lines = text.strip().split("\n")
    number = {name: signal for signal, name in enumerate(net.names)}
    values = dict(word.split("=") for word in verdict.split(" at ")[1].split()) if " at " in verdict else {}
    vector = [int(values[name]) for name in net.names[: net.first]]
    wires = net.fixpoint(vector)
    goal = number[verdict.split("wire=")[1].split()[0]]
    parts = {line.split()[0]: line.split()[1:] for line in lines}
    if list(parts) not in (["cycle", "sides", "needs"], ["cycle", "sides", "needs", "reaches", "also"]):
        return f"its lines are {list(parts)}"
    cycle, way = [number[name] for name in parts["cycle"]], [number[name] for name in parts.get("reaches", [])]
    unknown = [signal for signal in range(net.first, len(wires)) if wires[signal] == UNKNOWN]
    reads = {signal: matter(net, wires, signal) for signal in unknown}
    if any(signal not in reads for signal in cycle + way):
        return "it shows a known wire"
    if not all(pin in reads[signal] for signal, pin in zip(cycle, cycle[-1:] + cycle[:-1])):
        return "its cycle is none"
    if len(cycle) != shortest_cycle(reads, goal):
        return f"a shortest cycle has {shortest_cycle(reads, goal)} gates"
    if way and not (reads[way[0]] & set(cycle) and all(pin in reads[signal] for signal, pin in zip(way[1:], way))):
        return "its way is none"
    if len({*cycle, *way}) != len(cycle + way):
        return "a gate is on it twice"
    if goal not in (way[-1:] or cycle):
        return "it doesn't lead to the wire"
    back = {goal: 0, **{signal: far for signal, far in distances(reads, goal, len(reads)).items() if signal != goal}}
    if len(way) != min(back.get(signal, len(reads)) for signal in cycle):
        return "a shorter way leads to the wire"
    bit_of = {"0": 0, "1": 1, "x": UNKNOWN}
    told = lambda line: {number[word[:-2]]: bit_of[word[-1]] for word in parts.get(line, [])}
    sides, needs, also = told("sides"), told("needs"), told("also")
    if any(wires[signal] != bit for signal, bit in sides.items()) or set(sides) & set(cycle):
        return "a side isn't as the wire is"
    if not stays_open(net, cycle, sides):
        return "the sides hold it not open"
    for out in sides:
        if stays_open(net, cycle, {signal: bit for signal, bit in sides.items() if signal != out}):
            return f"side {net.names[out]} isn't needed"
    return held_wrong(net, {}, needs, cycle, wires) or held_wrong(net, needs, also, cycle + way, wires)


# ---- assumptions

def models_of(net, text):
    """The models of a care file by their names: the columns that each reads, and its netlist."""
    found = {}
    for part in text.split(".model ")[1:]:
        word, _, lines = part.partition("\n")
        model = netlist_of(lines)
        found[word] = [net.names.index(name) for name in model.names[: model.inputs]], model
    return found


def why_assumed_wrong(net, folder, words, assume, invariant, observe):
    """What is wrong in what `assume` tells, if something is."""

    def is_determined(vector):
        wires = net.fixpoint(vector)
        return all(wires[gate] != UNKNOWN for gate in observed(net, observe))

    want, _ = decide(net, assume, invariant, observe, is_determined)
    got = cyc(folder, "assume", *words)
    if want.startswith("refused"):
        return "" if got == f"{want}\n" else f"assume says {got!r}, not {want!r}"
    models = models_of(net, got)
    if not set(models) <= {"assume", "invariant"}:
        return f"assume says {got!r}"
    new, kept = models.get("assume"), models.get("invariant")
    if (kept is None) != (invariant is None):
        return f"assume has an invariant where the care file has none, or none: {got!r}"
    for vector in vectors(net.first):
        state = [0] * net.inputs + list(vector[net.inputs :])
        if holds(kept, state) != holds(invariant, state):
            return f"assume changes the invariant at {vector}: {got!r}"
        if holds(invariant, state) and holds(new, vector) != (holds(assume, vector) and is_determined(vector)):
            return f"assume is wrong at {vector}: {got!r}"
    with open(f"{folder}/n.care", "w", encoding="utf-8") as it:
        it.write(got)
    again = cyc(folder, "check", words[0], "--observe", observe, "--care", "n.care").strip()
    return "" if again == want else f"check says {again!r} with {got!r}"


# ---- two netlists

def shuffled(count):
    order = list(range(count))
    random.shuffle(order)
    return order


def version_of(net):
    """The same netlist with all in another order, and perhaps another gate, another name or another start of a latch."""
    inputs, latches, gates = shuffled(net.inputs), shuffled(len(net.latches)), shuffled(len(net.gates))
    order = [*inputs, *[net.inputs + k for k in latches], *[net.first + k for k in gates]]
    place = {signal: number for number, signal in enumerate(order)}
    parts = [([place[pin] for pin in net.gates[k][0]], net.gates[k][1]) for k in gates]
    starts = [(place[net.latches[k][0]], net.latches[k][1]) for k in latches]
    outputs = [place[net.outputs[k]] for k in shuffled(len(net.outputs))]
    names = [net.names[signal] for signal in order]
    change = random.choice(["none", "none", "gate", "gate", "name", "start", "output"])
    if change == "gate":
        gate = random.randrange(len(parts))
        parts[gate] = (parts[gate][0], random_cover(len(parts[gate][0])))
    elif change == "name":
        names[random.randrange(len(names))] = "other"
    elif change == "start" and starts:
        latch = random.randrange(len(starts))
        starts[latch] = (starts[latch][0], random.randint(0, 3))
    elif change == "output" and outputs:
        outputs.pop()
    return Netlist(len(inputs), starts, parts, outputs, names)


def unmatched(net, other):
    """The first name that only one of the two has, as an input, a latch with this start, or an output."""
    kinds = [
        (net.names[: net.inputs], other.names[: other.inputs]),
        ([(name, min(init, 2)) for name, (_, init) in zip(net.names[net.inputs :], net.latches)],
         [(name, min(init, 2)) for name, (_, init) in zip(other.names[other.inputs :], other.latches)]),
        ([net.names[signal] for signal in net.outputs], [other.names[signal] for signal in other.outputs]),
    ]
    for ours, theirs in kinds:
        for name in [name for name in ours if name not in theirs] + [name for name in theirs if name not in ours]:
            return name if isinstance(name, str) else name[0]
    return None


def model_for(net, other, model):
    """A care model of one netlist for another that has the same columns by name."""
    if model is None:
        return None
    return [other.names.index(net.names[column]) for column in model[0]], model[1]


def compared(net, other, assume, invariant, verdict, care):
    """What `equal` tells, where this is the verdict on the first with all gates observed."""
    name = unmatched(net, other)
    if name:
        return f"unmatched {name}"
    if verdict.startswith("refused"):
        return f"first {verdict}"
    second, _ = decide(other, model_for(net, other, assume), model_for(net, other, invariant), "all")
    if second.startswith("refused"):
        return f"second {second}"
    at = [net.names.index(name) for name in other.names[: other.first]]
    for vector in care:
        ours, theirs = net.fixpoint(vector), other.fixpoint([vector[column] for column in at])
        said = " at" + told(net.names, vector) if vector else ""
        for signal in net.outputs:
            if ours[signal] != theirs[other.names.index(net.names[signal])]:
                return f"differ output={net.names[signal]}{said}"
        for latch, (source, _) in enumerate(net.latches):
            name = net.names[net.inputs + latch]
            if ours[source] != theirs[other.latches[other.names.index(name) - other.inputs][0]]:
                return f"differ latch={name}{said}"
    return "equal"


def cyc(folder, *words):
    ran = subprocess.run([PROGRAM, *words], cwd=folder, capture_output=True, text=True)
    return ran.stdout if ran.returncode == 0 else ran.stdout + ran.stderr


def why_made_wrong(net, folder, words, care):
    """What is wrong in what is written of an accepted netlist without loops, if something is."""
    return differs(net, netlist_of(cyc(folder, "rewrite", *words)), care) or graph_differs(
        net, cyc(folder, "aiger", *words), care
    )


def why_decided_wrong(net, folder, words, want, care):
    """What is wrong in what the commands that decide one netlist tell, if something is."""
    got = cyc(folder, "check", *words).strip()
    if got != want:
        return f"check says {got!r}, not {want!r}"
    shown = cyc(folder, "explain", *words)
    if want.startswith("accepted"):
        lines = [want, *told_of_loops(net, care)]
        if shown.split("\n") != [*lines, ""]:
            return f"explain says {shown!r}, not {lines}"
        cases = ["--cases", str(random.randint(2, 8))]
        return why_made_wrong(net, folder, words, care) or why_made_wrong(net, folder, [*words, *cases], care)
    if shown.split("\n")[0] != want:
        return f"explain says {shown!r}"
    return why_explained_wrong(net, shown) if want.startswith("refused undetermined") else ""


def why_compared_wrong(net, folder, words, assume, invariant):
    """What is wrong in what `equal` tells of a netlist and a version of it, if something is; and that version's text."""
    other = version_of(net)
    text = text_of(other)
    with open(f"{folder}/r.blif", "w", encoding="utf-8") as it:
        it.write(text)
    verdict, care = decide(net, assume, invariant, "all")
    want = compared(net, other, assume, invariant, verdict, care)
    got = cyc(folder, "equal", "m.blif", "r.blif", *words).strip()
    return ("" if got == want else f"equal says {got!r}, not {want!r}"), text


def case(folder):
    """What differs in one random case, with what the netlist came to."""
    net = random_netlist()
    assume = random_model(net, range(net.first)) if random.random() < 0.5 else None
    invariant = random_model(net, range(net.inputs, net.first)) if net.latches and random.random() < 0.6 else None
    observe = random.choice(["all", "all", "outputs"])
    files = {"m.blif": text_of(net)}
    on_care = []
    if assume or invariant:
        models = {"assume": assume, "invariant": invariant}
        files["c.blif"] = "".join(model_text(word, model) for word, model in models.items() if model)
        on_care = ["--care", "c.blif"]
    for file, text in files.items():
        with open(f"{folder}/{file}", "w", encoding="utf-8") as it:
            it.write(text)
    want, care = decide(net, assume, invariant, observe)
    words = ["m.blif", "--observe", observe, *on_care]
    why = why_decided_wrong(net, folder, words, want, care) or why_assumed_wrong(
        net, folder, words, assume, invariant, observe
    )
    if not why:
        why, files["r.blif"] = why_compared_wrong(net, folder, on_care, assume, invariant)
    return (f"{why}\n" + "".join(files.values()) if why else ""), " ".join(want.split()[: 1 + want.startswith("refused")])


def main():
    cases = int(sys.argv[1]) if len(sys.argv) > 1 else 1000
    seed = int(sys.argv[2]) if len(sys.argv) > 2 else 1
    random.seed(seed)
    failed, kinds = 0, {}
    subprocess.run([PROGRAM, "check", f"{TOP}/examples/full_adder.blif"], capture_output=True)  # builds it once
    with tempfile.TemporaryDirectory() as folder:
        for _ in range(cases):
            why, kind = case(folder)
            kinds[kind] = kinds.get(kind, 0) + 1
            failed += bool(why)
            if why:
                print(why)
    print(f"cases={cases} differ={failed}", *(f"{kind}={number}" for kind, number in sorted(kinds.items())))
    return 1 if failed else 0


sys.exit(main())
