"""Tries which sets of faults tools/sets.py lists.

    python3 tools/sets_test.py PROGRAM

PROGRAM is the compiled program, crates/diagnose_cli/out/diagnose_cli. The answers on the full adder and the polybox are those that were published (Reiter 1987; de Kleer and Williams 1987), the others are short enough to be found by hand.

Status 0: all is as it should be, 1: something isn't.
"""
import os
import subprocess
import sys
import tempfile

TOP = os.path.dirname(os.path.dirname(os.path.abspath(__file__)))
sys.path.append(os.path.join(TOP, "tools"))
from blocks import model_of  # noqa: E402

# An alarm A needs two leaks, or one burst; a B needs nothing.
TANK = """des 1
component tank
state full init
state half
state empty
trans full leak half
trans half leak empty
trans full burst empty
trans empty show empty
event leak fault : tank.leak
event burst fault : tank.burst
event a alarm A : tank.show
component lamp
state on init
trans on blink on
event b alarm B : lamp.blink
"""
ONE, DOUBTFUL = "alarm,a1,A\n", "maybe,a1,A\nalarm,a2,B\n"
REITER = "1 x1-breaks\n2 a2-breaks x2-breaks\n2 o1-breaks x2-breaks\n"
DE_KLEER = "1 a1-breaks\n1 m1-breaks\n2 a2-breaks m2-breaks\n2 m2-breaks m3-breaks\n"


def read(name):
    with open(os.path.join(TOP, "examples", name), encoding="utf-8") as it:
        return it.read()


def listed(program, model, log, *words):
    """What the script prints, and its status."""
    with tempfile.TemporaryDirectory() as room:
        paths = [os.path.join(room, name) for name in ("model", "log")]
        for path, text in zip(paths, (model, log)):
            with open(path, "w", encoding="utf-8") as it:
                it.write(text)
        ran = subprocess.run([sys.executable, os.path.join(TOP, "tools", "sets.py"), program, *paths, *words], capture_output=True, text=True)
    return ran.stdout, ran.returncode


def main(words):
    adder, polybox = (model_of(read(f"circuit/{name}.blocks")) for name in ("adder", "polybox"))
    wrong = 0
    tried = [
        (adder, read("circuit/adder.csv"), ("8", "100000", "4"), (REITER, 0)),
        (polybox, read("circuit/polybox.csv"), ("6", "100000", "1"), (DE_KLEER, 0)),
        (TANK, ONE, ("4", "1000"), ("1 burst\n", 0)),
        (TANK, ONE, ("4", "1000", "1"), ("1 burst\n2 leak leak\n", 0)),
        (TANK, ONE, ("2", "1000", "1"), ("1 burst\n", 0)),
        (TANK, DOUBTFUL, ("4", "1000", "3"), ("1 ! a1\n1 burst\n2 leak leak\n", 0)),
        (TANK, "", ("4", "1000", "1"), ("0\n", 0)),
        (TANK.replace("alarm A", "alarm fault"), "alarm,a1,fault\n", ("4", "1000"), ("1 burst\n", 0)),
        (TANK, "alarm,a1,C\n", ("4", "1000"), ("", 10)),
        (TANK, "alarm;a1\n", ("4", "0"), ("", 6)),
        ("des 2\n", ONE, ("4", "0"), ("", 5)),
        (TANK, ONE, ("4",), ("", 2)),
    ]
    for model, log, numbers, wanted in tried:
        answer = listed(os.path.abspath(words[0]), model, log, *numbers)
        if answer != wanted:
            wrong += 1
            print(f"of the log\n{log}within {' '.join(numbers)} it should list\n{wanted}\nand it lists\n{answer}")
    print(f"{len(tried)} lists of sets, of which {wrong} aren't as they should be")
    return 1 if wrong else 0


if __name__ == "__main__":
    sys.exit(main(sys.argv[1:]))
