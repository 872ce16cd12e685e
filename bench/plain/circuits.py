"""Diagnoses of circuits by trial: every set of gates, with every value that a gate of it may give, without automata, runs or steps.

    python3 bench/plain/circuits.py PROGRAM

asks the program about c17 (all 32 inputs with all 4 outputs, and sets of two and three patterns that are drawn by chance), and by tools/sets.py for all minimal diagnoses of the full adder (all 8 inputs
with all 4 outputs) and of the polybox (9 pairs of numbers), with the models of examples/circuit, and prints each answer that differs. PROGRAM is the compiled program.

On 30 November 2026 it asked 185 questions, and none of the answers differed.

Status 0: no answer differs, 1: some does.
"""
import os
import random
import subprocess
import sys
import tempfile
from itertools import chain, combinations, product

TOP = os.path.dirname(os.path.dirname(os.path.dirname(os.path.abspath(__file__))))
sys.path.append(os.path.join(TOP, "tools"))
import sets as listed  # noqa: E402
from blocks import model_of  # noqa: E402

GATES = {"nand": lambda x, y: 1 - x * y, "and": lambda x, y: x * y, "or": lambda x, y: max(x, y), "xor": lambda x, y: (x + y) % 2}
# Inputs, outputs, and each gate with its kind, the wires that it reads and the one that it sets.
C17 = (["1", "2", "3", "6", "7"], ["22", "23"], [("g10", "nand", "1", "3", "10"), ("g11", "nand", "3", "6", "11"), ("g16", "nand", "2", "11", "16"), ("g19", "nand", "11", "7", "19"),
                                               ("g22", "nand", "10", "16", "22"), ("g23", "nand", "16", "19", "23")])
ADDER = (["A", "B", "C"], ["SUM", "CARRY"], [("x1", "xor", "A", "B", "half"), ("x2", "xor", "half", "C", "SUM"), ("a1", "and", "A", "B", "both"), ("a2", "and", "half", "C", "carried"),
                                             ("o1", "or", "both", "carried", "CARRY")])
MULTIPLIERS, ADDERS, PRODUCT, TOP_VALUE = ["m1", "m2", "m3"], {"a1": ("m1", "m2"), "a2": ("m2", "m3")}, 6, 15
STEPS, BUDGET = 12, "1000000"


def outputs(circuit, inputs, given):
    """What the circuit shows, where some gates give a fixed value."""
    first, last, gates = circuit
    values = dict(zip(first, inputs))
    for gate, kind, one, other, wire in gates:
        values[wire] = given[gate] if gate in given else GATES[kind](values[one], values[other])
    return tuple(values[wire] for wire in last)


def stuck_sets(circuit, patterns, size):
    """The sets of so many gates that, stuck at some values, show all patterns."""
    for gates in combinations([gate for gate, *_ in circuit[2]], size):
        for values in product((0, 1), repeat=size):
            given = dict(zip(gates, values))
            if all(outputs(circuit, inputs, given) == shown for inputs, shown in patterns):
                yield tuple(sorted(f"{gate}-sticks-{value}" for gate, value in given.items()))


def broken_sets(circuit, patterns, size):
    """The sets of so many gates that show each pattern if they give what they like."""
    for gates in combinations([gate for gate, *_ in circuit[2]], size):
        choices = [dict(zip(gates, values)) for values in product((0, 1), repeat=size)]
        if all(any(outputs(circuit, inputs, given) == shown for given in choices) for inputs, shown in patterns):
            yield tuple(sorted(f"{gate}-breaks" for gate in gates))


def polybox_sets(shown):
    """All sets of parts that show these two numbers if they give what they like, and none of whose parts is one."""
    parts, whole = MULTIPLIERS + list(ADDERS), []
    for gates in chain.from_iterable(combinations(parts, size) for size in range(len(parts) + 1)):
        broken = [it for it in MULTIPLIERS if it in gates]
        values = [{**dict.fromkeys(MULTIPLIERS, PRODUCT), **dict(zip(broken, given))} for given in product(range(TOP_VALUE + 1), repeat=len(broken))]
        if any(all(adder in gates or it[one] + it[other] == number for (adder, (one, other)), number in zip(ADDERS.items(), shown)) for it in values):
            whole.append(tuple(sorted(f"{gate}-breaks" for gate in gates)))
    return sorted(one for one in whole if not any(set(other) < set(one) for other in whole))


def least_sets(circuit, patterns, kind):
    """All diagnoses with the fewest gates."""
    found = (list(kind(circuit, patterns, size)) for size in range(len(circuit[2]) + 1))
    return next(filter(None, found), [])


def minimal_sets(circuit, patterns, kind):
    """All diagnoses none of whose parts is one."""
    whole = list(chain.from_iterable(kind(circuit, patterns, size) for size in range(len(circuit[2]) + 1)))
    return sorted(one for one in whole if not any(set(other) < set(one) for other in whole))


def wanted_lines(faults, found):
    """The lines of `verdicts` that these sets stand for; [] for none."""
    said = {True: "CERTAIN", False: "EXCLUDED"}
    of = [{fault in one for one in found} for fault in faults]
    return [f"EXPLAINED {len(found[0])}"] + [f"{said[min(it)] if len(it) == 1 else 'POSSIBLE'} {fault}" for fault, it in zip(faults, of)] if found else [f"NONE {STEPS}"]


def labels(circuit, patterns, form):
    """The labels of the patterns: inputs and then outputs."""
    for number, (inputs, shown) in enumerate(patterns, 1):
        for wires, values, side in ((circuit[0], inputs, "IN"), (circuit[1], shown, "OUT")):
            for wire, value in zip(wires, values):
                yield form.format(P=number, SIDE=side, W=wire, B=value)


class Asked:
    """The program with a model and a log in a folder of their own."""

    def __init__(self, program, room):
        self.program, self.paths, self.count, self.wrong = program, [os.path.join(room, name) for name in ("model", "log")], 0, 0

    def put(self, model, alarms):
        rows = "".join(f"alarm,a{number},{label}\n" for number, label in enumerate(alarms, 1))
        for path, text in zip(self.paths, (model, rows)):
            with open(path, "w", encoding="utf-8") as it:
                it.write(text)

    def compare(self, what, said, wanted):
        """Counts a question, and prints an answer that differs."""
        self.count += 1
        if said != wanted:
            self.wrong += 1
            print(f"{what}: the program says {said}, and by trial it is {wanted}")

    def verdicts(self, what, faults, found):
        """Asks what is certain, possible and excluded."""
        ran = subprocess.run([self.program, "verdicts", *self.paths, str(STEPS), BUDGET], stdout=subprocess.PIPE, text=True)
        words = ("EXPLAINED", "NONE", "CERTAIN", "POSSIBLE", "EXCLUDED", "OPEN", "UNDECIDED")
        self.compare(what, [line for line in ran.stdout.split("\n") if line.startswith(words)], wanted_lines(faults, found))

    def all_sets(self, what, wanted, steps=STEPS):
        """Asks for all minimal sets."""
        found = set()
        listed.sets(listed.Question(self.program, *self.paths, str(steps), BUDGET), found, 9)
        self.compare(what, sorted(it for it in found if not any(listed.is_part(other, it) for other in found)), wanted)


def text_of(name, values=()):
    """The model of a circuit."""
    with open(os.path.join(TOP, "examples", "circuit", f"{name}.blocks"), encoding="utf-8") as it:
        return model_of(it.read(), values)


def faults_of(model):
    return [line.split()[1] for line in model.split("\n") if line.startswith("event") and " fault :" in line]


def ask_c17(asked):
    draw = random.Random(1)
    single = [[(inputs, shown)] for inputs in product((0, 1), repeat=5) for shown in product((0, 1), repeat=2)]
    several = []
    for count in (2, 3) * 8:
        given = {gate: draw.randint(0, 1) for gate in draw.sample([gate for gate, *_ in C17[2]], draw.choice((1, 2)))}
        inputs = [tuple(draw.randint(0, 1) for _ in range(5)) for _ in range(count)]
        several.append([(it, outputs(C17, it, given)) for it in inputs])
    for patterns in single + several:
        model = text_of("c17", [("PATTERNS", str(len(patterns)))])
        asked.put(model, labels(C17, patterns, "P{P}-{SIDE}-{W}-{B}"))
        asked.verdicts(f"c17 {patterns}", faults_of(model), least_sets(C17, patterns, stuck_sets))


def ask_adder(asked):
    model = text_of("adder")
    for inputs in product((0, 1), repeat=3):
        for shown in product((0, 1), repeat=2):
            asked.put(model, labels(ADDER, [(inputs, shown)], "{W}-{B}"))
            asked.all_sets(f"adder {inputs} {shown}", minimal_sets(ADDER, [(inputs, shown)], broken_sets))


def ask_polybox(asked):
    model = text_of("polybox")
    for shown in product((10, 12, 4), (12, 10, 15)):
        asked.put(model, (f"{output}-{number}" for output, number in zip("FG", shown)))
        asked.all_sets(f"polybox {shown}", polybox_sets(shown), 6)


def main(words):
    with tempfile.TemporaryDirectory() as room:
        asked = Asked(os.path.abspath(words[0]), room)
        ask_c17(asked)
        ask_adder(asked)
        ask_polybox(asked)
    print(f"{asked.count} questions, {asked.wrong} answered otherwise")
    return 1 if asked.wrong else 0


if __name__ == "__main__":
    sys.exit(main(sys.argv[1:]))
