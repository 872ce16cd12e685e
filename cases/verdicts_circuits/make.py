"""Writes the circuits of examples/circuit, and the log of each pattern: `c17_11100_10.csv` has these inputs and outputs of c17, and `twice_11100_10_01001_01.csv` two patterns."""
import os
import re
import sys

TOP = os.environ["TOP"]
sys.path.append(os.path.join(TOP, "tools"))
from blocks import model_of  # noqa: E402

WIRES = {"c17": ["P1-IN-1", "P1-IN-2", "P1-IN-3", "P1-IN-6", "P1-IN-7", "P1-OUT-22", "P1-OUT-23"], "adder": ["A", "B", "C", "SUM", "CARRY"]}
WIRES["twice"] = WIRES["c17"] + [wire.replace("P1", "P2") for wire in WIRES["c17"]]
TEXTS = {"c17": ("c17", []), "twice": ("c17", [("PATTERNS", "2")]), "adder": ("adder", []), "polybox": ("polybox", [])}


def write(name, text):
    with open(name, "w", encoding="ascii") as it:
        it.write(text)


for name, (text, values) in TEXTS.items():
    with open(os.path.join(TOP, "examples", "circuit", f"{text}.blocks"), encoding="utf-8") as it:
        write(f"{name}.des", model_of(it.read(), values))
with open("answers.txt", encoding="utf-8") as it:
    logs = sorted(set(re.findall(r"([a-z0-9]+)_([0-9_]+)\.csv", it.read())))
for name, shown in logs:
    values = shown.split("_") if name == "polybox" else shown.replace("_", "")
    wires = ["F", "G"] if name == "polybox" else WIRES[name]
    write(f"{name}_{shown}.csv", "".join(f"alarm,a{number},{wire}-{value}\n" for number, (wire, value) in enumerate(zip(wires, values), 1)))
