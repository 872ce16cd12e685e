"""Times `show` and `trace` on models of 16 MiB, and prints how many times as long `show` takes.

    python3 bench/show.py PROGRAM

PROGRAM is the program as `rt run` builds it, crates/diagnose_cli/out/diagnose_cli. The inputs are made in a temporary folder, each
command is timed three times, and the least time counts. It's no part of the gate.
"""
import os
import sys
import tempfile

from measure import timed, written
from trace import one_component, states, transitions

CASES = [
    ("50,000 transitions, 1,000 components", transitions),
    ("50,000 transitions, one component", one_component),
    ("states under long names", states),
]


def least(*words):
    """The least of three times, and the status."""
    runs = [timed(*words) for _ in range(3)]
    return min(run[0] for run in runs), runs[0][2]


def main():
    program = os.path.abspath(sys.argv[1])
    print(f"{'input':40} {'MiB':>6} {'trace':>8} {'show':>8} {'ratio':>6}  status")
    with tempfile.TemporaryDirectory() as folder:
        model, run = os.path.join(folder, "model.des"), os.path.join(folder, "run")
        written(run, lambda: "run 0\n")
        for name, text_of in CASES:
            size = written(model, text_of) / 2**20
            traced, _ = least(program, "trace", model, run)
            shown, status = least(program, "show", model)
            print(f"{name:40} {size:6.1f} {traced:8.2f} {shown:8.2f} {shown / traced:6.2f}  {status}")


if __name__ == "__main__":
    main()
