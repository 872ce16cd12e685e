"""Tries which alarms tools/equal.py takes for equal, and that a log with its pairs has the same answers.

    python3 tools/equal_test.py PROGRAM [SEED]

PROGRAM is the compiled program, crates/diagnose_cli/out/diagnose_cli. 300 small logs are drawn by SEED. For each, all orders that keep its pairs are listed, as what can be seen of an alarm (its labels, and whether it is doubtful): with the
pairs that are added there are fewer orders, and they look the same. The program is asked for the fewest faults with and without them.

Status 0: all is as it should be, 1: something isn't.
"""
import itertools
import os
import random
import subprocess
import sys
import tempfile

TOP = os.path.dirname(os.path.dirname(os.path.abspath(__file__)))
sys.path.append(os.path.join(TOP, "tools"))
from equal import ordered  # noqa: E402
from texts import log_of  # noqa: E402

LOGS, ASKED = 300, 20
# A tank that may leak twice; each A needs a leak before it, a B needs none.
TANK = "des 1\ncomponent tank\nstate full init\nstate low\ntrans full leak low\ntrans low fill full\ntrans full hum full\nevent leak fault : tank.leak\nevent a alarm A : tank.fill\nevent b alarm B : tank.hum\n"
THREE = "alarm,a1,A\nalarm,b1,B\nalarm,a2,A\nalarm,a3,A\n"
BAD = [
    ("", 0, "", ""),
    ("alarm,a1,A\nask\n", 1, "", "line 2 of LOG is no row of a log: ask"),
    ("alarm,a1,A\n\nalarm,a1,A\n", 1, "", "line 3 of LOG has an id that is taken, or a label that is no name: alarm,a1,A"),
    ("alarm,a1,\n", 1, "", "line 1 of LOG has an id that is taken, or a label that is no name: alarm,a1,"),
    ("alarm,a1,A\nbefore,a1,a2\n", 1, "", "line 2 of LOG names an alarm that isn't above it: before,a1,a2"),
    ("alarm,a1,A\nalarm,a2,A\nbefore,a1,a2\nbefore,a2,a1\n", 1, "", "the pairs of the log close a cycle"),
    (THREE, 0, THREE + "before,a1,a2\nbefore,a2,a3\n", "equal, and in this order now: a1 a2 a3"),
    (THREE.rstrip("\n"), 0, THREE + "before,a1,a2\nbefore,a2,a3\n", "equal, and in this order now: a1 a2 a3"),
    # b1 stands between, so only the first and the third are alike; with a doubt none is
    (THREE + "before,a2,b1\n", 0, THREE + "before,a2,b1\nbefore,a1,a3\n", "equal, and in this order now: a1 a3"),
    ("alarm,a1,A\nmaybe,a2,A\n", 0, "alarm,a1,A\nmaybe,a2,A\n", ""),
    ("alarm,a1,A|B\nalarm,a2,B|A|B\n", 0, "alarm,a1,A|B\nalarm,a2,B|A|B\nbefore,a1,a2\n", "equal, and in this order now: a1 a2"),
]


def in_file(text, then):
    """What comes of a log in a file, given the file's path."""
    with tempfile.TemporaryDirectory() as room:
        path = os.path.join(room, "LOG")
        with open(path, "w", encoding="utf-8") as it:
            it.write(text)
        return then(path)


def called_on(path):
    """What the script prints for a log, its status, and what it says on standard error."""
    ran = subprocess.run([sys.executable, os.path.join(TOP, "tools", "equal.py"), path], capture_output=True, text=True)
    return ran.stdout, ran.returncode, ran.stderr.replace(path, "LOG").rstrip("\n")


def drawn(draw):
    """A log of at most six alarms of few labels, with some pairs."""
    names = [f"a{number}" for number in range(1, draw.randint(2, 6) + 1)]
    rows = [f"{draw.choice(['alarm', 'alarm', 'maybe'])},{name},{draw.choice(['A', 'A', 'B', 'A|B'])}" for name in names]
    pairs = [pair for pair in itertools.combinations(draw.sample(names, len(names)), 2) if draw.random() < 0.15]
    return "\n".join(rows + [f"before,{first},{second}" for first, second in pairs]) + "\n"


def looks(text):
    """How many orders keep the pairs, and what they look like."""
    log = in_file(text, log_of)
    orders = [order for order in itertools.permutations(log.labels) if all(order.index(first) < order.index(second) for first, second in log.pairs)]
    return len(orders), {tuple((frozenset(log.labels[name]), name in log.doubtful) for name in order) for order in orders}


def fewest(program, log):
    with tempfile.TemporaryDirectory() as room:
        paths = [os.path.join(room, name) for name in ("model", "log")]
        for path, text in zip(paths, (TANK, log)):
            with open(path, "w", encoding="utf-8") as it:
                it.write(text)
        return subprocess.run([program, "diagnose", *paths, "12", "100000"], capture_output=True, text=True).stdout.split("\n")[0]


def main(words):
    if len(words) not in (1, 2):
        sys.exit(__doc__)
    program, draw, wrong, fewer = words[0], random.Random(words[1] if len(words) > 1 else "equal"), 0, 0
    for text, status, printed, said in BAD:
        found = in_file(text, called_on)
        if found != (printed, status, said):
            wrong += 1
            print(f"{text!r}: {found}")
    for number in range(LOGS):
        log = drawn(draw)
        printed, _ = in_file(log, ordered)
        (before, seen), (after, now) = looks(log), looks(printed)
        fewer += after < before
        same = number >= ASKED or fewest(program, log) == fewest(program, printed) != ""
        if seen != now or (after < before) != (log != printed) or not same:
            wrong += 1
            print(f"otherwise with the pairs that were added:\n{log}")
    print(f"{len(BAD)} texts, {LOGS} logs of which {fewer} have equal alarms: {wrong} otherwise")
    return 1 if wrong or not fewer else 0


if __name__ == "__main__":
    sys.exit(main(sys.argv[1:]))
