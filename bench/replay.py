"""Times `replay` on a long run and on large logs, and prints a table: size, time, rate, ratio to a plain read, memory, answer.

    python3 bench/replay.py PROGRAM

PROGRAM is the program as `rt run` builds it, crates/diagnose_cli/out/diagnose_cli. The inputs are made in a temporary
folder. It's no part of the gate.
"""
import os
import random
import sys

from measure import tabulate

COMPONENTS = 1000
EVENTS = 1_000_000
ALARMS = 2000
PAIRS = 20_000


def plant():
    """1,000 components that go round three states, each by an event of its own and with its neighbours; one more event is seen."""
    lines = ["des 1"]
    for c in range(COMPONENTS):
        lines += [f"component c{c}", "state s0 init", "state s1", "state s2"]
        lines += [f"trans s{s} go s{(s + 1) % 3}" for s in range(3)]
        lines += [f"trans s{s} beat s{s}" for s in range(3)]
    for c in range(COMPONENTS):
        fault = " fault" if c % 7 == 0 else ""
        lines.append(f"event go-{c}{fault} : c{c}.go c{(c + 1) % COMPONENTS}.beat")
        lines.append(f"event seen-{c} alarm L{c % 50} : c{c}.beat")
    return "\n".join(lines) + "\n"


def run_text():
    """1,000,000 events, the last 2,000 of which are seen and name the alarms in order."""
    lines = [f"run {EVENTS}"] + [f"go-{(7 * k) % COMPONENTS}" for k in range(EVENTS - ALARMS)]
    lines += [f"seen-{k % COMPONENTS} a{k}" for k in range(ALARMS)]
    return "\n".join(lines) + "\n"


def log_text(pairs):
    lines = [f"alarm,a{k},L{(k % COMPONENTS) % 50}" for k in range(ALARMS)]
    return "\n".join(lines + [f"before,a{i},a{j}" for i, j in pairs]) + "\n"


def forward_pairs():
    """Each alarm before the next, and further pairs that agree."""
    made = {(k, k + 1) for k in range(ALARMS - 1)}
    chosen = random.Random(7)
    while len(made) < PAIRS:
        i, j = sorted(chosen.sample(range(ALARMS), 2))
        made.add((i, j))
    return sorted(made)


def backward_pairs():
    """Each alarm after the next, the last pair first, and further pairs that agree: each turns the order so far round."""
    return [(ALARMS - 1 - i, ALARMS - 1 - j) for i, j in reversed(forward_pairs())]


def forward_log():
    return log_text(forward_pairs())


def backward_log():
    return log_text(backward_pairs())


def no_run():
    return "run 0\n"


def main():
    tabulate(os.path.abspath(sys.argv[1]), "replay", [
        ("1,000,000 events, 2,000 alarms, 20,000 pairs", plant, forward_log, run_text),
        ("no event, 20,000 pairs", plant, forward_log, no_run),
        ("no event, 20,000 pairs the other way round", plant, backward_log, no_run),
    ], "1000")


if __name__ == "__main__":
    main()
