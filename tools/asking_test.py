"""Tests the tools that ask the program again and again: tools/program.py and causes.py.

    python3 tools/asking_test.py PROGRAM

PROGRAM is the compiled program, crates/diagnose_cli/out/diagnose_cli. What is expected was worked out by hand from the models here and in examples/, and where a published answer exists, it is that.

Status 0: all is as it should be, 1: something isn't.
"""
import json
import os
import re
import subprocess
import sys
import tempfile

TOOLS = os.path.dirname(os.path.abspath(__file__))
TOP = os.path.dirname(TOOLS)
sys.path.insert(0, TOOLS)
from program import Late, Program, Refused, Step, Text, lines_of, replies_of  # noqa: E402

FIRST = "examples/first/model.des examples/first/log.csv".split()
PUMP = "examples/tutorial/model.des"
# Words of a shell call of program.py, and the object that is printed, with its status.
OBJECTS = [
    (["diagnose", *FIRST, "3", "1000"], {"status": 0, "kind": "EXPLAINED", "least": 1, "most": 1, "run": [{"event": "clog"}, {"event": "strained", "alarm": "a2"}, {"event": "blocked", "alarm": "a1"}]}, 0),
    (["diagnose", *FIRST, "1", "1000"], {"status": 10, "kind": "NONE"}, 10),
    (["diagnose", *FIRST, "03", "1000"], {"status": 2, "kind": "USAGE", "words": []}, 2),
    (["diagnose", *FIRST], {"status": 2, "kind": "USAGE", "words": []}, 2),
    (["diagnose", "examples/tutorial/misspelled.des", FIRST[1], "3", "1000"], {"status": 5, "kind": "MODEL", "words": ["12", "5"]}, 5),
    (["diagnose", PUMP, "examples/tutorial/log.csv", "6", "0"], {"status": 11, "kind": "UNDECIDED", "least": 0}, 11),
    (["trace", PUMP, "examples/tutorial/stuck.run"], {"status": 13, "kind": "REJECTED", "why": ["STUCK", "2"]}, 13),
    (["generate", "log", "4", "7"], {"status": 0, "kind": "TEXT", "text": "alarm,a2,T-2\n"}, 0),
    (["generate", "map", "4", "7"], {"status": 2, "kind": "USAGE", "words": []}, 2),
    (["bench", "12", "7", "12", "1000"], {"status": 0, "answer": {"status": 0, "kind": "EXPLAINED", "least": 2, "most": 2}, "units": 12, "alarms": 2, "size": 44136}, 0),
    (["proof", *FIRST, "3", "1000"], {"status": 0, "kind": "PROOF", "bound": "0"}, 0),
    (["proof", PUMP, "examples/tutorial/log.csv", "6", "0"], {"status": 11, "kind": "UNDECIDED", "least": 0}, 11),
    (["check", "none.cnf", "none.lrat"], {"status": 3, "kind": "LOAD", "words": ["1"]}, 3),
    (["cheapest", PUMP, "examples/tutorial/log.csv", "examples/first/log.csv", "6", "1000"], {"status": 15, "kind": "COST", "words": ["1", "1"]}, 15),
    (["twin", PUMP, "fall", "3", "1", "1000"], {"status": 16, "kind": "NOFAULT", "words": []}, 16),
    (["twin", FIRST[0], "clog", "1", "1", "1000"], {"status": 0, "kind": "CLEAR"}, 0),
    (["show", "."], {"status": 3, "kind": "LOAD", "words": ["1"]}, 3),
    (["fly", "examples"], {"status": 2, "kind": "USAGE", "words": []}, 2),
]
# Texts that are printed, and their replies: the first word, the lines of the run, and whether it is whole.
REPLIES = [
    ("", []),
    ("NONE 4\n", [("NONE", None, True)]),
    ("run 1\n! a1\n", [("", ["! a1"], True)]),
    ("EXPLAINED 1\nrun 2\nrun 3\nstop a1\nCERTAIN run\nPOSSIBLE stop\nrun 1\nfall\n", [("EXPLAINED", ["run 3", "stop a1"], True), ("CERTAIN", None, True), ("POSSIBLE", ["fall"], True)]),
    ("EXPLAINED 1\nrun 2\nfall\nstop a", [("EXPLAINED", ["fall"], False)]),
    ("EXPLAINED 1\nrun 2\n!\n", None),
    ("EXPLAINED 1\nrun 1\na b c\n", None),
]
# A tank that leaks or bursts: an alarm A needs two leaks or a burst, a B nothing. No state allows the event `no`.
TANK = """des 1
component tank
state full init
state half
state empty
state lost
trans full leak half
trans half leak empty
trans full burst empty
trans empty show empty
trans lost rest lost
event leak fault : tank.leak
event burst fault : tank.burst
event a alarm A : tank.show
event no alarm C : tank.rest
component lamp
state on init
trans on blink on
event b alarm B : lamp.blink
"""
TANK_SAYS = """alarm  faults  which
A      1       burst
C      never
B      0

can't happen within 6 steps: no

fault  known  told from the others  alarms that point to it
leak   -      -                     -
burst  -      -                     A
"""
# Two devices: a fault of the first is told by the next alarm, and one of the second stops all alarms.
PAIR = """des 1
component one
state good init
state bad
trans good fail bad
trans good tick good
trans bad tock bad
component other
state good init
state dead
trans good die dead
trans good go good
event fail-1 fault : one.fail
event die fault : other.die
event tick alarm TICK : one.tick other.go
event tock alarm TOCK : one.tock other.go
"""
PAIR_SAYS = """alarm  faults  which
TICK   0
TOCK   1       fail-1

fault   known  told from the others  alarms that point to it
fail-1  1      1                     TOCK
die     ?      ?                     -
"""
# The same with names that the tool would give itself, and a fault with as many parts as an event may have.
TAKEN = re.sub(r"\bother\b", "once", PAIR).replace("fail-1", "tell").replace("die", "after")
FULL = "des 1\n" + "".join(f"component c{it}\nstate a init\ntrans a b a\n" for it in range(16)) + "event all alarm L fault : " + " ".join(f"c{it}.b" for it in range(16)) + "\n"


def called(tool, *words):
    """What a tool prints, and its status."""
    ran = subprocess.run([sys.executable, os.path.join(TOOLS, tool), *words], cwd=TOP, stdin=subprocess.DEVNULL, capture_output=True, text=True, check=False)
    return ran.stdout, ran.returncode


def read(text):
    """The replies of a text; None if a line of a run is no such line."""
    try:
        return [(it.kind, it.run and [step.line() for step in it.run], it.is_whole) for it in replies_of(lines_of(text))]
    except ValueError:
        return None


def values(path):
    """Yields what is wrong with the answers as values."""
    yield from (f"{text!r} is read as {read(text)}" for text, wanted in REPLIES if read(text) != wanted)
    program = Program(path)
    model, log, script = (os.path.join(TOP, "examples/tutorial", it) for it in ("model.des", "log.csv", "script.csv"))
    verdicts = program.verdicts(model, log, 5, 1000)
    if (verdicts.answer.most, verdicts.certain, verdicts.possible, verdicts.excluded) != (2, ("bubble",), ("loosen",), ()) or len(verdicts.runs) != 1:
        yield f"the verdicts are {verdicts}"
    if [(it.kind, it.most, it.why) for it in program.session(model, script, 6, 1000)] != [("EXPLAINED", 1, ()), ("EXPLAINED", 1, ()), ("REFUSED", None, ("3",)), ("EXPLAINED", 1, ())]:
        yield "the session is another one"
    twins = program.twin(model, "bubble", 3, 1, 1000)
    if twins.kind != "AMBIGUOUS" or "bubble" not in [it.event for it in twins.faulty] or "bubble" in [it.event for it in twins.healthy]:
        yield f"the twins are {twins}"
    doubted = program.diagnose(model, Text("maybe,a1,OPEN\nalarm,a2,SHUT\nbefore,a1,a2\n"), 2, 1000)
    proof = program.proof(model, log, 6, 1000)
    if [program.check(program.cnf(model, log, 6, proof.bound), it).kind for it in (proof.text, Text("900000 0 1 0\n"))] != ["VERIFIED", "REJECTED"]:
        yield f"the proof for K {proof.bound} isn't accepted, or a wrong one is"
    if program.proof(model, Text("alarm,a1,SHUT\n"), 6, 1000).kind != "NOTHING":
        yield "a log without a fault has a proof"
    quiet = program.session(model, Text(""), 6, 1000)
    if quiet != []:
        yield f"an empty script has {quiet}"
    if doubted.run != (Step(None, "a1"), Step("shut", "a2")) or not doubted.run[0].is_false or doubted.events() != ["shut"]:
        yield f"the doubted log has {doubted}"
    try:
        program.show(Text("des 2\n"))
        yield "a wrong model is shown"
    except Refused as fault:
        if (fault.status, fault.words) != (5, ["MODEL", "1", "1"]):
            yield f"a wrong model is refused by {fault}"
    try:
        ticks = []
        Program(path, 2.5, ticks.append).diagnose(Text(model_of_equals()), Text("".join(f"alarm,a{it},L\n" for it in range(60))), 60, 10 ** 9)
        yield "a long call isn't late"
    except Late:
        if len(ticks) != 2 or not 1 <= ticks[0] < ticks[1]:
            yield f"a call of two and a half seconds says how long it has taken at {ticks}"


def model_of_equals():
    """Devices that are alike, so that sixty alarms of theirs without an order take long."""
    lines = ["des 1"]
    for it in range(8):
        lines += [f"component d{it}", "state a init", "state b", "trans a f b", "trans b g a", f"event f{it} fault : d{it}.f", f"event g{it} alarm L : d{it}.g"]
    return "\n".join(lines) + "\n"


def main(words):
    program, wrong, count = os.path.abspath(words[0]), [], 0
    for given, wanted, status in OBJECTS:
        said, ended = called("program.py", program, *given)
        found = json.loads(said)
        if "text" not in wanted:
            found.pop("text", None)
        if (found, ended) != (wanted, status):
            wrong.append(f"{given} should print\n{wanted} {status}\nand prints\n{said} {ended}")
    numbers = ("6", "3", "1000")
    tables = [(TANK, numbers, (TANK_SAYS, 0)), (PAIR, numbers, (PAIR_SAYS, 0)), (TAKEN, numbers, (PAIR_SAYS.replace("fail-1  1", "tell   1").replace("fail-1", "tell").replace("die     ", "after  ").replace("fault   ", "fault  "), 0)),
              (FULL, numbers, ("alarm  faults  which\nL      1       all\n", 1)), ("des 2\n", numbers, ("", 5)), (TANK, ("6", "0", "1000"), ("", 2))]
    for model, numbers, wanted in tables:
        with tempfile.NamedTemporaryFile("w", suffix=".des", encoding="utf-8") as it:
            it.write(model)
            it.flush()
            answer = called("causes.py", program, it.name, *numbers)
        count += 1
        if answer != wanted:
            wrong.append(f"of\n{model}within {' '.join(numbers)} it should say\n{wanted}\nand it says\n{answer}")
    wrong += values(program)
    print("\n".join(wrong + [f"{len(OBJECTS)} objects, {count} tables and answers as values: {len(wrong)} things aren't as they should be"]))
    return 1 if wrong else 0


if __name__ == "__main__":
    sys.exit(main(sys.argv[1:]))
