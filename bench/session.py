"""Times sessions beside `diagnose`, and prints two tables.

    python3 bench/session.py PROGRAM

PROGRAM is the program as `rt run` builds it, crates/diagnose_cli/out/diagnose_cli. It's no part of the gate.

In the first the alarms of the generated plant come one at a time, each with its pairs to earlier ones, and a question is asked after each. Beside
the session's seconds stands the sum of those of a new `diagnose` for each front of the log, and how long the first, the middle and the last
answer was waited for. In the second, 500 alarms come before one question, beside the `diagnose` of the whole log: 25 and 50 valves that are
shut and opened in turn, with 20 and 10 alarms each in a known order, within as many steps.

On 28 November 2026, with the proved program, on four shared processors of an Intel Xeon under load, seconds by the clock, one run:

| Plant | Steps | Alarms | session | sum of diagnose | ratio | waits: first, middle, last |
|---|---|---|---|---|---|---|
| 40 units | 10 | 9 | 0.03 | 0.26 | 0.10 | 0.016, 0.001, 0.002 |
| 64 units | 16 | 15 | 0.22 | 1.27 | 0.18 | 0.056, 0.006, 0.014 |
| 100 units | 26 | 25 | 1.38 | 7.27 | 0.19 | 0.169, 0.038, 0.073 |

| Plant | Steps | Alarms | session | diagnose | ratio |
|---|---|---|---|---|---|
| 25 valves | 20 | 500 | 1.33 | 1.25 | 1.06 |
| 50 valves | 10 | 500 | 0.53 | 0.52 | 1.01 |

In an earlier run under heavier load the ratios of the first table were 0.10, 0.33 and 0.23, and that of 25 valves 0.94. The steps are those of the last question from the beginning, so each
front of a log is asked within as many. That makes `diagnose` of a short front dearer than with as few steps as it needs.
"""
import os
import subprocess
import sys
import tempfile
import time

from diagnose import generated
from measure import timed

UNITS = [12, 20, 40, 64, 100]
BUDGET = "1000000"


def by_alarm(log):
    """The rows of a log, as lists: each alarm with the pairs that it has with those before it."""
    alarms = [line for line in log if not line.startswith("before,")]
    place = {line.split(",")[1]: at for at, line in enumerate(alarms)}
    rows = [[line] for line in alarms]
    for line in log:
        if line.startswith("before,"):
            rows[max(place[name] for name in line.split(",")[1:3])].append(line)
    return rows


def valves(count, alarms):
    """Valves that are shut and opened in turn, and so many alarms of each in their order."""
    model = ["des 1"]
    for v in range(count):
        model += [f"component v{v}", "state open init", "state shut", "trans open close shut", "trans shut open open"]
    for v in range(count):
        model += [f"event shut-{v} alarm SHUT-{v} : v{v}.close", f"event open-{v} alarm OPEN-{v} : v{v}.open"]
    log = []
    for a in range(alarms):
        for v in range(count):
            log.append(f"alarm,a{v}-{a},{['SHUT', 'OPEN'][a % 2]}-{v}")
            if a > 0:
                log.append(f"before,a{v}-{a - 1},a{v}-{a}")
    return model, log


def written(path, lines):
    with open(path, "w", encoding="ascii") as f:
        f.write("".join(line + "\n" for line in lines))
    return path


def answers(program, *words):
    """The seconds at which each answer of a session begins, its headlines, and the seconds of the whole."""
    start = time.perf_counter()
    child = subprocess.Popen([program, "session", *words], stdout=subprocess.PIPE)
    told = []
    for line in child.stdout:
        if line.split()[0] in (b"EXPLAINED", b"NONE", b"MANY", b"UNDECIDED", b"REFUSED"):
            told.append((time.perf_counter() - start, line.decode().strip()))
    if child.wait() != 0:
        sys.exit(f"session {' '.join(words)} ended with status {child.returncode}")
    return told, time.perf_counter() - start


def one_by_one(program, folder):
    print("| Plant | Steps | Alarms | session | sum of diagnose | ratio | waits: first, middle, last |")
    print("|---|---|---|---|---|---|---|")
    for units in UNITS:
        model, log = generated(program, units)
        rows = by_alarm(log)
        steps = str(len(rows) + 1)
        model = written(os.path.join(folder, "model.des"), model)
        script = written(os.path.join(folder, "script.csv"), [line for row in rows for line in row + ["ask"]])
        told, whole = answers(program, model, script, steps, BUDGET)
        total, single = 0.0, []
        for front in range(1, len(rows) + 1):
            part = written(os.path.join(folder, "log.csv"), [line for row in rows[:front] for line in row])
            seconds, _, _, text = timed(program, "diagnose", model, part, steps, BUDGET)
            total += seconds
            single.append(text.split("\n")[0])
        if [line for _, line in told] != single:
            sys.exit(f"{units} units: a session and diagnose answer otherwise")
        at = [seconds for seconds, _ in told]
        waits = [at[0]] + [late - early for early, late in zip(at, at[1:])]
        cells = [f"{units} units", steps, str(len(rows)), f"{whole:.2f}", f"{total:.2f}", f"{whole / total:.2f}"]
        print("| " + " | ".join(cells + [", ".join(f"{waits[i]:.3f}" for i in (0, len(waits) // 2, -1))]) + " |", flush=True)


def at_once(program, folder):
    print("\n| Plant | Steps | Alarms | session | diagnose | ratio |")
    print("|---|---|---|---|---|---|")
    for name, steps, (model, log) in [("25 valves", "20", valves(25, 20)), ("50 valves", "10", valves(50, 10))]:
        model = written(os.path.join(folder, "model.des"), model)
        script = written(os.path.join(folder, "script.csv"), log + ["ask"])
        log = written(os.path.join(folder, "log.csv"), log)
        told, whole = answers(program, model, script, steps, BUDGET)
        seconds, _, _, text = timed(program, "diagnose", model, log, steps, BUDGET)
        if [line for _, line in told] != [text.split("\n")[0]]:
            sys.exit(f"{name}: a session and diagnose answer otherwise")
        print(f"| {name} | {steps} | 500 | {whole:.2f} | {seconds:.2f} | {whole / seconds:.2f} |", flush=True)


if __name__ == "__main__":
    with tempfile.TemporaryDirectory() as scratch:
        one_by_one(sys.argv[1], scratch)
        at_once(sys.argv[1], scratch)
