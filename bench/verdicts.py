"""Times `verdicts` beside `diagnose` on plants with 20 to 200 fault events, and prints a table.

    python3 bench/verdicts.py PROGRAM

PROGRAM is the program as `rt run` builds it, crates/diagnose_cli/out/diagnose_cli. It's no part of the gate.

The plants are those of diagnose.py: a bus and Z units as the program's `generate` makes it, each with one fault event, meshes of a telecom network, and grids of 20
components that reboot. The seconds are those of the processor for the whole command, the least of three runs. The last columns say how many fault events are
certain, excluded, possible and open.

On 1 December 2026, by a build of the same code without its proof, on four shared processors of an Intel Xeon under heavy load, the least of two runs:

| Plant | Steps | Fault events | `diagnose` | `verdicts` | Ratio | MiB | certain | excluded | possible | open | Status |
|---|---|---|---|---|---|---|---|---|---|---|---|
| 20 units | 6 | 20 | 0.01 | 0.01 | 1.3 | 15 | 5 | 15 | 0 | 0 | 0 |
| 20 units | 8 | 20 | 0.01 | 0.01 | 1.5 | 15 | 5 | 15 | 0 | 0 | 0 |
| 40 units | 10 | 40 | 0.01 | 0.03 | 2.0 | 15 | 9 | 31 | 0 | 0 | 0 |
| 40 units | 12 | 40 | 0.02 | 0.03 | 1.9 | 15 | 9 | 31 | 0 | 0 | 0 |
| 64 units | 16 | 64 | 0.05 | 0.12 | 2.2 | 15 | 15 | 49 | 0 | 0 | 0 |
| 64 units | 18 | 64 | 0.04 | 0.12 | 2.7 | 15 | 15 | 49 | 0 | 0 | 0 |
| 100 units | 26 | 100 | 0.24 | 0.68 | 2.8 | 34 | 25 | 75 | 0 | 0 | 0 |
| 100 units | 28 | 100 | 0.28 | 0.69 | 2.4 | 35 | 25 | 75 | 0 | 0 | 0 |
| 200 units | 50 | 200 | 2.32 | 8.22 | 3.5 | 213 | 49 | 151 | 0 | 0 | 0 |
| 200 units | 52 | 200 | 2.02 | 7.64 | 3.8 | 218 | 49 | 151 | 0 | 0 | 0 |
| mesh of 20 nodes | 10 | 90 | 0.06 | 0.23 | 3.8 | 15 | 0 | 68 | 22 | 0 | 0 |
| mesh of 30 nodes | 12 | 180 | 0.82 | 3.44 | 4.2 | 61 | 1 | 158 | 21 | 0 | 0 |
| grid of 20, 1 fault, whole order | 5 | 20 | 0.01 | 0.01 | 1.1 | 16 | 1 | 19 | 0 | 0 | 0 |
| grid of 20, 1 fault, order of each component | 5 | 20 | 0.01 | 0.01 | 1.1 | 16 | 1 | 19 | 0 | 0 | 0 |
| grid of 20, 3 faults, whole order | 10 | 20 | 0.02 | 0.03 | 1.3 | 16 | 3 | 17 | 0 | 0 | 0 |
| grid of 20, 3 faults, order of each component | 10 | 20 | 0.04 | 0.08 | 1.9 | 16 | 3 | 17 | 0 | 0 | 0 |
| grid of 20, 5 faults, whole order | 16 | 20 | 0.15 | 0.37 | 2.4 | 16 | 5 | 15 | 0 | 0 | 0 |
| grid of 20, 5 faults, order of each component | 16 | 20 | 1.74 | 3.46 | 2.0 | 54 | 2 | 12 | 6 | 0 | 0 |

So `verdicts` took at most 4.2 times as long as `diagnose` of the same log. Before counts up to each event were tried first, in one run each on the same day, it took 15.3 and 13.4 seconds on 200 units
(6.5 and 6.6 times as long as `diagnose`), 1.3 on 100 (5.4 and 4.4 times), 0.45 and 4.2 on meshes of 20 and 30 nodes (6.3 and 4.9 times), and 0.32 and 5.6 on the grid with 5 faults.
"""
import re
import sys
import tempfile

from diagnose import generated, written
from grids import question
from measure import spent
from meshes import mesh

START = 7
BUDGET = 1_000_000
SECONDS = 200
RUNS = 3
VERDICTS = ["CERTAIN", "EXCLUDED", "POSSIBLE", "OPEN"]


def questions(program):
    """Each with its name, the steps, model and log."""
    for units in [20, 40, 64, 100, 200]:
        model, log = generated(program, units)
        trips = sum(line.startswith("alarm,") for line in log)
        for more in [1, 3]:
            yield f"{units} units", trips + more, model, log
    yield "mesh of 20 nodes", 10, *mesh(20, 3, 3, 6, 10)
    yield "mesh of 30 nodes", 12, *mesh(30, 4, 4, 8, 10)
    for faults in [1, 3, 5]:
        for is_ordered, order in [(True, "whole order"), (False, "order of each component")]:
            yield f"grid of 20, {faults} fault{'s' * (faults > 1)}, {order}", *question(4, 5, faults, START, is_ordered)


def least(program, command, files, steps):
    """The least seconds of some runs, with the most memory, and status and text of the last one."""
    runs = [spent("timeout", str(SECONDS), program, command, *files, str(steps), str(BUDGET)) for _ in range(RUNS)]
    _, _, status, out = runs[-1]
    return min(seconds for seconds, *_ in runs), max(memory for _, memory, *_ in runs), status, out


def main(program, folder):
    print("| Plant | Steps | Fault events | `diagnose` | `verdicts` | Ratio | MiB | certain | excluded | possible | open | Status |")
    print("|---|---|---|---|---|---|---|---|---|---|---|---|")
    for name, steps, model, log in questions(program):
        files = written(folder, model, log)
        one, _, _, _ = least(program, "diagnose", files, steps)
        every, memory, status, out = least(program, "verdicts", files, steps)
        counts = [len(re.findall(f"^{word} ", out, flags=re.M)) for word in VERDICTS]
        cells = [name, steps, sum(counts), f"{one:.2f}", f"{every:.2f}", f"{every / one:.1f}", f"{memory:.0f}", *counts, status]
        print("| " + " | ".join(map(str, cells)) + " |", flush=True)


if __name__ == "__main__":
    with tempfile.TemporaryDirectory() as scratch:
        main(sys.argv[1], scratch)
