"""Tests tools/watch.py: what it says of a log that grows, what it refuses, and what a terminal shows meanwhile.

    python3 tools/watch_test.py PROGRAM

PROGRAM is the compiled program, crates/diagnose_cli/out/diagnose_cli. What is expected was worked out by hand from examples/first. Where the program's own answer would depend on its search, or never come, a script of some lines stands in its place.

Status 0: all is as it should be, 1: something isn't.
"""
import fcntl
import json
import os
import pty
import re
import signal
import subprocess
import sys
import tempfile
import threading

TOOLS = os.path.dirname(os.path.abspath(__file__))
sys.path.insert(0, TOOLS)
import watch  # noqa: E402

MODEL = os.path.join(os.path.dirname(TOOLS), "examples", "first", "model.des")
ONE, OTHER = "alarm,a1,NO-FLOW\n", "alarm,a2,HIGH-PRESSURE\n"
FIRST = "1 alarm within 4 steps: EXPLAINED 1\n  first answer\n  possible: seize\n  possible: clog\n"
CLOGGED = "2 alarms within 5 steps: EXPLAINED 1\n  certain: clog, was possible\n  excluded: seize, was possible\n"
# The log as it is found time after time, what is printed, what goes to standard error, and the status.
LOOKS = [
    (ONE, FIRST, "", 0),
    (ONE, "", "", 0),
    (ONE + OTHER[:-7], "", "", 0),
    (ONE + OTHER, CLOGGED, "", 0),
    (ONE + OTHER[:-7], "", "log.csv: a2 is gone, and was HIGH-PRESSURE, so this isn't the log that was asked about. Nothing was asked; remove kept.json to begin anew\n", 1),
    ("", "", "log.csv: a1 is gone, and was NO-FLOW, so this isn't the log that was asked about. Nothing was asked; remove kept.json to begin anew\n", 1),
    (OTHER.replace("a2", "a1") + ONE.replace("a1", "a2"), "", "log.csv: a1 is HIGH-PRESSURE now and was NO-FLOW, so this isn't the log that was asked about. Nothing was asked; remove kept.json to begin anew\n", 1),
    (ONE + OTHER + "alarm;a3\n", "2 alarms within 5 steps: no answer: LOG 3 6\n  was EXPLAINED 1\n", "", 6),
    (ONE + OTHER + "alarm,a3,NO-FLOW\n", "3 alarms within 6 steps: EXPLAINED 1\n  was no answer: LOG 3 6\n", "", 0),
    (ONE + OTHER + "alarm,a3,NO-FLOW\nalarm,a4,NONE\n", "4 alarms within 7 steps: NONE\n  was EXPLAINED 1\n", "", 10),
    (ONE + OTHER + "alarm,a3,NO-FLOW\nmaybe,a4,NONE\n", "4 alarms within 7 steps: EXPLAINED 2\n  was NONE\n", "", 0),
    (None, "", "log.csv: No such file or directory\n", 1),
]
BAD = [("three", "1000", "kept.json"), ("+", "1000", "kept.json"), ("3", "-1", "kept.json"), ("3", "1000"), ("3", "1000", "kept.json", "0"), ("3", "1000", "kept.json", "soon"), ("3", "1000", "kept.json", "1", "1")]
SECONDS = 120
# Undecided below a budget of 16,000: the words of `verdicts` are the command, the model, the log, N and the budget.
SLOW = '#!/bin/sh\necho "$5" >> asked\nif [ "$5" -lt 16000 ]; then echo "UNDECIDED 1 3\nrun 0"; exit 11; fi\n'


class Room:
    """A folder with a log, in which the script is called."""

    def __init__(self, folder, program):
        self.folder, self.program = folder, program

    def path(self, name):
        return os.path.join(self.folder, name)

    def put(self, text, name="log.csv"):
        if text is None:
            os.remove(self.path(name))
            return
        with open(self.path(name), "w", encoding="utf-8") as it:
            it.write(text)

    def read(self, name="kept.json"):
        with open(self.path(name), encoding="utf-8") as it:
            return it.read()

    def words(self, *words):
        return [sys.executable, os.path.join(TOOLS, "watch.py"), self.program, MODEL, "log.csv", *words]

    def look(self, *words, **how):
        """What is printed, without the time, what goes to standard error, and the status."""
        ran = subprocess.run(self.words(*words), cwd=self.folder, stdin=subprocess.DEVNULL, stdout=subprocess.PIPE, text=True, check=False, **({"stderr": subprocess.PIPE} | how))
        return re.sub(r"(?m)^20\S+ ", "", ran.stdout), ran.stderr, ran.returncode


def grown(room):
    """Yields what is wrong with the news of a log that grows."""
    for text, *wanted in LOOKS:
        kept = room.read() if os.path.exists(room.path("kept.json")) else ""
        room.put(text)
        answer = room.look("+3", "1000", "kept.json")
        if answer != tuple(wanted):
            yield f"of {text!r} it should say\n{wanted}\nand it says\n{answer}"
        if wanted[2] == 1 and room.read() != kept:
            yield f"of {text!r} nothing was asked, and what is kept changed"
    if json.loads(room.read())["answer"]["kind"] != "EXPLAINED":
        yield "what is kept isn't the last answer"


def refused(room):
    """Yields what is wrong where something can't be asked, and must not be lost."""
    room.put(ONE)
    for words in BAD:
        said, beside, status = room.look(*words)
        if (said, status) != ("", 2) or "watch.py [--as-written] PROGRAM" not in beside:
            yield f"{words} has the status {status}"
    for name, text in (("log.csv", ONE), ("other.json", "{}"), ("list.json", "[1]")):
        room.put(text, name)
        answer = room.look("+3", "1000", name)
        if answer != ("", f"{name} doesn't hold what this script keeps, so nothing was asked; remove it to begin anew\n", 1) or room.read(name) != text:
            yield f"where {name} is what is kept it says {answer}"
    with open(room.path("kept.json.lock"), "w", encoding="utf-8") as it:
        fcntl.flock(it, fcntl.LOCK_EX)
        answer = room.look("+3", "1000", "kept.json")
        if answer != ("", "kept.json: another call is working with it, so nothing was asked\n", 1):
            yield f"the second of two calls says {answer}"
    if room.look("+3", "1000", "kept.json")[0] != FIRST:
        yield "after the other call has ended nothing is asked"
    # If nobody can read what is printed, it isn't kept as said.
    room.put(ONE + OTHER)
    kept = room.read()
    with open("/dev/full", "w", encoding="utf-8") as it:
        subprocess.run(room.words("+3", "1000", "kept.json"), cwd=room.folder, stdin=subprocess.DEVNULL, stdout=it, stderr=subprocess.DEVNULL, check=False)
    if room.read() != kept or room.look("+3", "1000", "kept.json")[0] != CLOGGED:
        yield "news that couldn't be printed are lost"


def asked(folder):
    """Yields what is wrong with the budgets, and with what a terminal shows."""
    if watch.budgets_to(100000) != [1562, 6250, 25000, 100000] or watch.budgets_to(10) != [10] or any(sum(watch.budgets_to(it)) > it * 4 / 3 for it in range(0, 100000, 37)):
        yield f"the budgets are {watch.budgets_to(100000)}"
    slow = os.path.join(folder, "slow")
    for last, wanted in (('echo "EXPLAINED 2\nrun 0"', ("1 alarm within 4 steps: EXPLAINED 2\n  first answer\n", 0)), ("exit 9", ("1 alarm within 4 steps: no answer: status 9\n  first answer\n", 9)),
                         ("kill -9 $$", ("1 alarm within 4 steps: no answer: status -9\n  first answer\n", 137))):
        with open(slow, "w", encoding="utf-8") as it:
            it.write(SLOW + last + "\n")
        os.chmod(slow, 0o755)
        room = Room(folder, "./slow")
        room.put(ONE)
        here, there = pty.openpty()
        said, _, status = room.look("+3", "20000", "slow.json", stderr=there)
        os.close(there)
        shown = os.read(here, 1 << 16).decode()
        os.close(here)
        if (said, status) != wanted or room.read("asked").split() != ["1250", "5000", "20000"]:
            yield f"asked with more and more it says {said!r} with the status {status}, after {room.read('asked').split()}"
        lines = [it for it in shown.replace("\x1b[K", "").split("\r") if it]
        if lines[:1] != ["1 alarm within 4 steps, budget 1,250: 0 s"] or not lines[-1].startswith("1 alarm within 4 steps, budget 20,000, so far UNDECIDED 1 3: ") or not shown.endswith("\x1b[K"):
            yield f"a terminal shows {shown!r}"
        # What is no fault of the texts is asked again, and what is answered isn't.
        os.remove(room.path("asked"))
        again = room.look("+3", "20000", "slow.json")
        if (again, os.path.exists(room.path("asked"))) != (("", "", status), status != 0):
            yield f"asked again it says {again}"
        os.remove(room.path("slow.json"))
        room.put("", "asked")
    with open(slow, "w", encoding="utf-8") as it:
        it.write(SLOW.replace("asked", "/dev/null") + "sleep 60\n")
    watch.SECONDS = 0.5
    found = watch.Watch(slow, MODEL, room.path("log.csv"), "+3", "20000", "unused").asked(ONE, 1)
    if (found["status"], found["refused"]) != (124, "verdicts took more than 0.5 seconds, so far UNDECIDED 1 3"):
        yield f"a call that takes too long is kept as {found}"


def followed(room):
    """Yields what is wrong if it looks again and again."""
    room.put(ONE)
    with subprocess.Popen(room.words("+3", "1000", "follow.json", "0.1"), cwd=room.folder, stdout=subprocess.PIPE, stderr=subprocess.PIPE, text=True) as child:
        # If a line doesn't come, the script is ended, and the lines that are waited for are empty.
        late = threading.Timer(SECONDS, child.kill)
        late.start()
        said = "".join(child.stdout.readline() for _ in range(4))
        second = room.look("+3", "1000", "follow.json")
        room.put("")
        beside = child.stderr.readline()
        room.put(ONE + OTHER)
        said += "".join(child.stdout.readline() for _ in range(3))
        child.send_signal(signal.SIGTERM)
        said += child.stdout.read()
        late.cancel()
    if second != ("", "follow.json: another call is working with it, so nothing was asked\n", 1):
        yield f"beside a call that goes on the second one says {second}"
    if re.sub(r"(?m)^20\S+ ", "", said) != FIRST + CLOGGED or "a1 is gone" not in beside or child.returncode != 0:
        yield f"again and again it says {said!r} and {beside!r}, with the status {child.returncode}"


def main(words):
    program, wrong = os.path.abspath(words[0]), []
    for part in (grown, refused, followed):
        with tempfile.TemporaryDirectory() as folder:
            wrong += part(Room(folder, program))
    with tempfile.TemporaryDirectory() as folder:
        wrong += asked(folder)
    print("\n".join(wrong + [f"{len(LOOKS)} looks at a log that grows, {len(BAD)} wrong calls and others: {len(wrong)} things aren't as they should be"]))
    return 1 if wrong else 0


if __name__ == "__main__":
    sys.exit(main(sys.argv[1:]))
