"""Times `cheapest` beside `diagnose`, and prints a table: plant, steps, what is asked, size, variables, seconds, memory, answer.

    python3 bench/cheapest.py PROGRAM

PROGRAM is the program as `rt run` builds it, crates/diagnose_cli/out/diagnose_cli. It's no part of the gate.

The plant is a bus and Z units as `generate` makes it, with its log; so each unit that trips has jammed, and the least total is the sum of
their costs. Jams cost 1, or from 1 to the greatest cost, by their number. The size is that of docs/formats.md, counted here. The variables
of `diagnose` are those of the formula that `cnf` prints for its answer. A question of costs has those of the formula for any number of
faults, and 1,001 for each fault event in each step.

On 29 November 2026, by the proved program on shared processors: 40 units in 12 steps have 8,236 variables for `diagnose`, which takes 0.07 seconds and 15 MiB.
With costs they have 483,916, and `cheapest` takes 0.8 seconds with costs of 1, 1.1 with costs of 1 to 10 and 0.9 with costs of 1 to 1,000, each time 110 MiB.
"""
import os
import sys
import tempfile

from measure import timed

START = 7
BUDGET = 1_000_000
SECONDS = 200


def answered(program, *words):
    """What the program prints, which must not be a mistake."""
    _, _, status, text = timed(program, *words)
    if status != 0:
        sys.exit(f"{' '.join(words)} ended with status {status}")
    return text


def costs(units, most):
    """Each jam its cost: 1 or more, up to the greatest."""
    return "\n".join(["costs 1"] + [f"cost jam-{unit} {1 + 377 * unit % most}" for unit in range(1, units + 1)])


def size(units, trips, steps):
    """By components, alarms, pairs and faults."""
    sides = (1 + units) ** 2 + units * 36
    return steps * (sides + 2 * trips + max(0, trips - 1)) + 256 * steps * units


def variables(program, model, log, steps, bound):
    return int(answered(program, "cnf", model, log, str(steps), bound).split(maxsplit=3)[2])


def written(folder, name, text):
    path = os.path.join(folder, name)
    with open(path, "w", encoding="ascii") as f:
        f.write(text + "\n" if text else "")
    return path


def rows(program, folder, units, more):
    """What is asked, the words, the size and the variables of each question about a plant."""
    model = written(folder, "model.des", answered(program, "generate", "model", str(units), str(START)))
    text = answered(program, "generate", "log", str(units), str(START))
    log, trips = written(folder, "log.csv", text), text.count("alarm,")
    steps = trips + more
    whole = size(units, trips, steps)
    yield steps, "faults", ["diagnose", model, log], whole, variables(program, model, log, steps, str(trips))
    for most in [1, 10, 1000]:
        path = written(folder, f"{most}.costs", costs(units, most))
        asked = "costs of 1" if most == 1 else f"costs of 1 to {most:,}"
        yield steps, asked, ["cheapest", model, log, path], whole + 1000 * steps * units, variables(program, model, log, steps, "any") + 1001 * steps * units


def main(program, folder):
    print("| Plant | Steps | Asked | Size | Variables | Seconds | Memory MiB | Answer |")
    print("|---|---|---|---|---|---|---|---|")
    for units in [4, 12, 20, 40]:
        for more in [1, 3]:
            for steps, asked, words, whole, count in rows(program, folder, units, more):
                seconds, memory, status, out = timed("timeout", str(SECONDS), program, *words, str(steps), str(BUDGET))
                answer = out.split("\n")[0] if status != 124 else "none"
                print(f"| {units} units | {steps} | {asked} | {whole:,} | {count:,} | {seconds:.2f} | {memory:.0f} | {answer} |", flush=True)


if __name__ == "__main__":
    with tempfile.TemporaryDirectory() as scratch:
        main(sys.argv[1], scratch)
