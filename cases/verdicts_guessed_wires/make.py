"""Copies the model of examples/adder, writes the logs, and sees to it that answers.txt has all diagnoses with the fewest gates, by trial of every gate and every pair of gates, stuck at every value.

The log 6_3_0_7.csv is that of 6 and 3 without a carry, where 7 is shown. The netlist is that of adder.blocks; what a gate does is said here anew.
"""
import os
import re
from itertools import combinations, product

HERE = os.path.join(os.environ["TOP"], "examples", "adder")
KINDS = {"no": lambda it: 1 - it[0], "an": min, "na": lambda it: 1 - min(it), "xo": lambda it: sum(it) % 2}
with open(os.path.join(HERE, "adder.blocks"), encoding="utf-8") as it:
    GATES = [words for words in map(str.split, re.findall(r"(?m)^use ((?:not|nor|nand|and|xor).*)", it.read()))]


def bits(number, count):
    return [number >> place & 1 for place in range(count)]


def shown(inputs, stuck):
    """The sum that the circuit shows, where some gates are stuck."""
    wires = dict(inputs)
    for kind, gate, *read, wire in GATES:
        values = [wires[it] for it in read]
        right = 1 - max(values) if kind.startswith("nor") else KINDS[kind[:2]](values)
        wires[wire] = stuck.get(gate, right)
    return sum(wires[wire] << place for place, wire in enumerate(["s0", "s1", "s2", "s3", "c4"]))


def diagnoses(one, other, carry, total):
    """The sets with the fewest stuck gates."""
    inputs = {f"a{place}": bit for place, bit in enumerate(bits(one, 4))} | {f"b{place}": bit for place, bit in enumerate(bits(other, 4))} | {"c0": carry}
    for size in range(3):
        tried = [dict(zip(gates, values)) for gates in combinations([it[1] for it in GATES], size) for values in product((0, 1), repeat=size)]
        found = [[f"{gate}-stuck-{value}" for gate, value in stuck.items()] for stuck in tried if shown(inputs, stuck) == total]
        if found:
            return found
    raise ValueError("more than two gates are stuck")


def lines(found):
    """What `verdicts` prints, without its runs."""
    events = [f"{it[1]}-stuck-{value}" for it in GATES for value in (0, 1)]
    said = {event: [event in it for it in found] for event in events}
    return [f"EXPLAINED {len(found[0])}"] + [f"{'CERTAIN' if all(said[it]) else 'POSSIBLE' if any(said[it]) else 'EXCLUDED'} {it}" for it in events]


with open(os.path.join(HERE, "model.des"), encoding="utf-8") as it, open("model.des", "w", encoding="utf-8") as copy:
    copy.write(it.read())
with open("answers.txt", encoding="ascii") as it:
    ASKED = re.findall(r"(?m)^\$ verdicts model\.des (\S+)\.csv .*\n((?:.*\n)*?)status 0\n", it.read())
for name, told in ASKED:
    one, other, carry, total = map(int, name.split("_"))
    rows = [f"c0,C0-{carry}"] + [f"{side}{place},{side.upper()}{place}-{bit}" for side, number in (("a", one), ("b", other)) for place, bit in enumerate(bits(number, 4))]
    rows += [f"{it[1]},CHECK-{it[1]}" for it in GATES] + [f"s{place},{'C4' if place == 4 else f'S{place}'}-{bit}" for place, bit in enumerate(bits(total, 5))]
    with open(f"{name}.csv", "w", encoding="ascii") as it:
        it.write("".join(f"alarm,{row}\n" for row in rows))
    if [line for line in told.split("\n") if line not in ("", "...")] != lines(diagnoses(one, other, carry, total)):
        raise SystemExit(f"by trial the diagnoses of {name} are {diagnoses(one, other, carry, total)}")
