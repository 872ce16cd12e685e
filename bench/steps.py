"""Times the writing of the clauses of runs, and prints a table: size of the question, variables, clauses, literals, seconds, memory.

    python3 bench/steps.py [FOLDER]

The networks are rings of components with 60 states, in which 40 events touch each component; a question on such a ring within n
steps has a size of n times 10,000 for each component. No command writes clauses alone, so this makes a scratch
repository in FOLDER, or in a temporary folder, with a small program, whose files stand in `steps.program` beside this script. `rt run`
proves and builds it there; in a FOLDER that is kept a later run is quick. It's no part of the gate.

On 28 November 2026, on four shared processors of an Intel Xeon under load, one run each: with a clause for each two of which at most one
is so, and with chains over more than four.

| Components | Steps | | Variables | Clauses | Literals | Seconds | Memory MiB |
|---|---|---|---|---|---|---|---|
| 10 | 20 | pairs | 16600 | 982500 | 2936590 | 0.07 | 76 |
| | | chains | 32890 | 581360 | 2134310 | 0.05 | 52 |
| 100 | 2 | pairs | 22000 | 1147200 | 3265900 | 0.10 | 88 |
| | | chains | 43600 | 602600 | 2176700 | 0.07 | 55 |
| 100 | 20 | pairs | 166000 | 9825000 | 29365900 | 0.73 | 751 |
| | | chains | 328900 | 5813600 | 21343100 | 0.53 | 507 |
| 100 | 100 | pairs | 806000 | 48393000 | 145365900 | 3.45 | 3698 |
| | | chains | 1596900 | 28973600 | 106527100 | 2.46 | 2513 |
| 2 | 1000 | pairs | 160120 | 9245660 | 28207318 | 0.68 | 714 |
| | | chains | 317238 | 5390472 | 20496942 | 0.44 | 478 |
"""
import sys
import tempfile

from measure import timed
from scratch import built

USED = ["des_base", "prop_core", "card_counter", "des_net", "indep", "log_order", "replay", "question_clauses", "step_encode"]
CASES = [(10, 20), (100, 2), (100, 20), (100, 100), (2, 1000)]


def main(folder):
    program = built(folder, "steps", USED, "2", "1")
    print("| Components | Steps | Size | Variables | Clauses | Literals | Seconds | Memory MiB | Bytes a clause |")
    print("|---|---|---|---|---|---|---|---|---|")
    for comps, steps in CASES:
        seconds, memory, _, out = timed(program, str(comps), str(steps))
        variables, clauses, literals = map(int, out.split())
        size = steps * comps * 10_000
        print(f"| {comps} | {steps} | {size} | {variables} | {clauses} | {literals} | {seconds:.2f} | {memory:.0f} | {memory * 2**20 / clauses:.0f} |", flush=True)


if __name__ == "__main__":
    if len(sys.argv) > 1:
        main(sys.argv[1])
    else:
        with tempfile.TemporaryDirectory() as scratch:
            main(scratch)
