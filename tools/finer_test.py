"""Tries that tools/program.py, sets.py and watch.py ask about the finer model, and answer as about the model as it is written.

    python3 tools/finer_test.py PROGRAM [QUESTIONS [SEED]]

PROGRAM is the compiled program, crates/diagnose_cli/out/diagnose_cli. Asked are so many questions (40 if no number is given) about plants that are drawn with SEED (1), both ways: all but the runs must be the same, and each run that is printed must be one of the model as it is written, with as many faults. Then a script of some lines stands in the program's place, writes down about how many components it is asked, and hands the question on; some models are too large if they are written finer, and some have a mistake that the scripts pass over.

Status 0: all is as it should be, 1: something isn't.
"""
import json
import os
import random
import re
import subprocess
import sys
import tempfile
from dataclasses import replace

TOOLS = os.path.dirname(os.path.abspath(__file__))
TOP = os.path.dirname(TOOLS)
sys.path.insert(0, TOOLS)
from program import Program, Refused, Text  # noqa: E402
from refine import finer_in  # noqa: E402
from refine_test import question  # noqa: E402
from sets import Question, sets  # noqa: E402
from texts import Model, counted_in  # noqa: E402
from watch import Watch, known_of  # noqa: E402

BUDGET, SETS = 1_000_000, 4
PUMP, LOG = (os.path.join(TOP, "examples", "tutorial", it) for it in ("model.des", "log.csv"))
FIRST = [os.path.join(TOP, "examples", "first", it) for it in ("model.des", "log.csv")]
# Writes the command and the number of components of its model to a file, and asks the program.
ASIDE = '#!/bin/sh\necho "$1 $(grep -c "^component" "$2")" >> {0}/asked\n'
ON = 'exec {1} "$@"\n'
# The same, but what has more components than the pump as it is written has no answer, or is refused as too large.
SILENT = ASIDE + 'if [ "$1" != show ] && [ "$(grep -c "^component" "$2")" -gt 2 ]; then exit 9; fi\n' + ON
LARGE = ASIDE + 'if [ "$1" != show ] && [ "$(grep -c "^component" "$2")" -gt 2 ]; then echo "LARGE 20000001"; exit 8; fi\n' + ON
ROOM = 20_000_000
# How many events touch a component that one of them alone brings into a third state, so that it gets one component more; and of others how many states they have, and no event.
HUB, STATES = 1997, [63, 4, 2]


def crowded(events, states):
    """A plant whose size is that of the sum of the squares of EVENTS with three, and of these numbers of states."""
    lines = ["des 1", "component hub", "state a init", "state b", "state c", "trans a to b", "trans b to a", "trans a cut c"]
    lines += [line for place, count in enumerate(states) for line in [f"component c{place}", *(f"state s{it}" + " init" * (it == 0) for it in range(count))]]
    return Text("\n".join(lines + ["event cut alarm CUT : hub.cut"] + [f"event e{it} : hub.to" for it in range(events - 1)]) + "\n")


def without_runs(answer):
    """What two answers must have in common."""
    return replace(answer, run=None)


class Both:
    """A drawn question, asked both ways."""

    def __init__(self, path, steps, model, log, chance):
        self.n, self.chance, self.wrong = steps, chance, []
        self.model, self.log = Text("\n".join(model) + "\n"), Text("".join(f"{it}\n" for it in log))
        self.plant, self.ways = Model(counted_in(self.model)[1:]), [Program(path), Program(path, as_written=True)]
        self.is_finer = self.ways[0].finer(self.model) is not None

    def same(self, what, one, other):
        self.wrong += [f"{what}: {one}, and as written {other}"] * (one != other)

    def explains(self, what, run, faults, log=None):
        """A run that was found must be one of the model as it is written."""
        text = Text("\n".join([f"run {len(run)}", *(it.line() for it in run)]) + "\n")
        said = self.ways[1].replay(self.model, log or self.log, text, self.n)
        if said.kind != "ACCEPTED" or faults not in (None, said.most):
            self.wrong.append(f"{what}: the run {run} is {said}")

    def diagnose(self):
        one, other = (it.diagnose(self.model, self.log, self.n, BUDGET) for it in self.ways)
        self.same("diagnose", without_runs(one), without_runs(other))
        if one.run is not None:
            self.explains("diagnose", one.run, one.most)

    def verdicts(self):
        one, other = (it.verdicts(self.model, self.log, self.n, BUDGET) for it in self.ways)
        self.same("verdicts", replace(one, answer=without_runs(one.answer), runs=()), replace(other, answer=without_runs(other.answer), runs=()))
        for run in [*one.runs, *[one.answer.run] * (one.answer.run is not None)]:
            self.explains("verdicts", run, one.answer.most)

    def cheapest(self):
        costs = {name: self.chance.choice([1, 2, 5, 1000]) for name in self.plant.faults() if self.chance.random() < 0.7}
        text = Text("costs 1\n" + "".join(f"cost {name} {cost}\n" for name, cost in costs.items()))
        one, other = (it.cheapest(self.model, self.log, text, self.n, BUDGET) for it in self.ways)
        self.same("cheapest", without_runs(one), without_runs(other))
        if one.run is not None:
            self.explains("cheapest", one.run, None)
        if one.kind == "CHEAPEST":
            total = sum(1 if it.is_false else costs.get(it.event, 1) if self.plant.events[it.event].is_fault else 0 for it in one.run)
            self.same("what the cheapest run costs", total, one.most)

    def session(self):
        rows = [row for it in self.log.splitlines() for row in [it] + ["ask"] * (self.chance.random() < 0.4)] + ["ask"]
        one, other = (it.session(self.model, Text("".join(f"{it}\n" for it in rows)), self.n, BUDGET) for it in self.ways)
        self.same("session", list(map(without_runs, one)), list(map(without_runs, other)))
        asks = [place for place, row in enumerate(rows) if row == "ask"]
        for until, answer in zip(asks, one):
            if answer.run is not None:
                self.explains("session", answer.run, answer.most, Text("".join(f"{it}\n" for it in rows[:until] if it != "ask")))

    def twin(self):
        for fault in self.plant.faults()[:1]:
            one, other = (it.twin(self.model, fault, min(self.n, 6), 1, BUDGET) for it in self.ways)
            self.same(f"twin {fault}", (one.status, one.kind), (other.status, other.kind))
            for run in [it for it in (one.faulty, one.healthy) if it is not None]:
                said = self.ways[1].trace(self.model, Text("\n".join([f"run {len(run)}", *(it.line() for it in run)]) + "\n"))
                self.same(f"a run of twin {fault}", said.kind, "RAN")

    def sets(self):
        found = [set(), set()]
        for place, it in enumerate(found):
            sets(Question(self.ways[0].path, self.model, self.log, self.n, BUDGET, bool(place)), it)
        self.same("sets", *found)

    def watch(self, room):
        """What is kept of an answer, without its run."""
        path = os.path.join(room, "model.des")
        with open(path, "w", encoding="utf-8") as it:
            it.write(self.model)
        found = [Watch(self.ways[0].path, path, "none", str(self.n), str(BUDGET), "none", it).asked(self.log, 1) for it in (False, True)]
        self.same("watch", *((it["status"], it["answer"]["kind"], it["answer"].get("least"), it["answer"].get("most"), known_of(it)) for it in found))


def drawn(path, count, seed):
    """What differs of so many questions, and how many of their models are finer."""
    wrong, finer = [], 0
    with tempfile.TemporaryDirectory() as room:
        for number in range(count):
            chance = random.Random(f"{seed} {number}")
            it = Both(path, *question(chance), chance)
            for kind in (it.diagnose, it.verdicts, it.cheapest, it.session, it.twin):
                kind()
            if number % SETS == 0:
                it.sets()
            it.watch(room)
            finer += it.is_finer
            wrong += [f"question {number} of seed {seed}: {what}" for what in it.wrong]
    return wrong, finer


class Aside:
    """A script in the program's place, in a folder with what it wrote down."""

    def __init__(self, path, room, script):
        self.folder, self.path = room, os.path.join(room, "aside")
        with open(self.path, "w", encoding="utf-8") as it:
            it.write(script.format(room, path))
        os.chmod(self.path, 0o755)

    def called(self, tool, *words):
        """What a tool prints, its status, and what the script was asked."""
        said = os.path.join(self.folder, "asked")
        with open(said, "w", encoding="utf-8"):
            pass
        ran = subprocess.run([sys.executable, os.path.join(TOOLS, tool), *words], cwd=self.folder, stdin=subprocess.DEVNULL, capture_output=True, text=True, check=False)
        with open(said, encoding="utf-8") as it:
            return ran.stdout, ran.returncode, it.read().splitlines()


def asked(path):
    """Yields what is wrong with the questions that the tools ask."""
    with tempfile.TemporaryDirectory() as room:
        aside = Aside(path, room, ASIDE + ON)
        at = aside.path
        for words, wanted in [
            ((at, "diagnose", PUMP, LOG, "5", "1000"), ["show 2", "diagnose 6"]), (("--as-written", at, "diagnose", PUMP, LOG, "5", "1000"), ["diagnose 2"]),
            ((at, "verdicts", PUMP, LOG, "5", "1000"), ["show 2", "verdicts 6"]), ((at, "session", PUMP, LOG, "5", "1000"), ["show 2", "session 6"]),
            ((at, "cheapest", PUMP, LOG, FIRST[0], "5", "1000"), ["show 2", "cheapest 6"]), ((at, "twin", PUMP, "loosen", "5", "1", "1000"), ["show 2", "twin 6"]),
            ((at, "proof", PUMP, LOG, "5", "1000"), ["proof 2"]), ((at, "cnf", PUMP, LOG, "5", "0"), ["cnf 2"]), ((at, "show", PUMP), ["show 2"]),
            ((at, "diagnose", *FIRST, "5", "1000"), ["diagnose 2"]), ((at, "diagnose", "none.des", LOG, "5", "1000"), ["diagnose "]), ((at, "diagnose", "/dev/stdin", LOG, "5", "1000"), ["diagnose 0"]),
        ]:
            found = aside.called("program.py", *words)
            if found[2] != wanted:
                yield f"program.py {' '.join(words)} asks {found[2]} and not {wanted}"
        for tool, words, command in [("sets.py", (at, PUMP, LOG, "5", "1000"), "diagnose"), ("watch.py", (at, PUMP, LOG, "+3", "1000", "kept.json"), "verdicts")]:
            one, other = aside.called(tool, *words), aside.called(tool, "--as-written", *[it.replace("kept", "other") for it in words])
            if re.sub(r"(?m)^20\S+ ", "", one[0]) != re.sub(r"(?m)^20\S+ ", "", other[0]) or one[1] != 0 or other[1] != 0:
                yield f"{tool} says {one}, and as written {other}"
            counts = [[int(it.split()[1]) for it in asked if it.startswith(command)] for asked in (one[2], other[2])]
            # (a fault that may happen once is counted in a component more, and one that can't happen takes others away)
            if len(counts[0]) != len(counts[1]) or not all(one > other for one, other in zip(*counts)) or counts[1][0] != 2 or counts[0][0] != 6:
                yield f"{tool} asks about {counts} components"
            if aside.called(tool, *words[:2], "--as-written", *words[2:])[1] != 2:
                yield f"{tool} takes --as-written behind the program"


def refused(path):
    """Yields what is wrong where the finer model is too large, or the model has a mistake."""
    plain = Program(path, as_written=True).diagnose(PUMP, LOG, 5, 1000)
    with tempfile.TemporaryDirectory() as room:
        aside = Aside(path, room, LARGE)
        said = aside.called("program.py", aside.path, "diagnose", PUMP, LOG, "5", "1000")
        if json.loads(said[0])["least"] != plain.least or said[1:] != (0, ["show 2", "diagnose 6", "diagnose 2"]):
            yield f"where the finer model is too large it says {said}"
        for tool, words in [("sets.py", (aside.path, PUMP, LOG, "5", "1000")), ("watch.py", (aside.path, PUMP, LOG, "+3", "1000", "kept.json"))]:
            said = aside.called(tool, *words)
            if said[1] != (0 if tool == "watch.py" else 8) or "diagnose 2" not in said[2] and "verdicts 2" not in said[2]:
                yield f"where the finer model is too large {tool} says {said}"
        # Only `LARGE` is asked again.
        aside = Aside(path, room, SILENT)
        said = aside.called("program.py", aside.path, "diagnose", PUMP, LOG, "5", "1000")
        if said[1:] != (9, ["show 2", "diagnose 6"]):
            yield f"where memory runs out about the finer model it says {said}"
    yield from large(path)
    yield from mistaken(path)


def large(path):
    """The same with models that the program itself refuses: one within the limit, and one that comes to it with the second row of a session."""
    n, ways = 5, [Program(path), Program(path, as_written=True)]
    for model, log in [(crowded(HUB, []), Text("")), (crowded(HUB - 1, STATES), Text("alarm,a1,CUT\n"))]:
        finer = Text(finer_in(model))
        try:
            ways[1].diagnose(finer, log, n, BUDGET)
            yield "the finer model isn't too large"
        except Refused as fault:
            if fault.words[0] != "LARGE" or not ROOM < int(fault.words[1]) < ROOM + 100:
                yield f"the finer model is refused by {fault}"
        answers = [it.diagnose(model, log, n, BUDGET) for it in ways]
        if answers[0] != answers[1] or answers[0].kind != "EXPLAINED":
            yield f"where the finer model is too large the answers are {answers}"
    script = Text("ask\nalarm,a1,CUT\nask\n")
    if [it.why for it in ways[1].session(finer, script, n, BUDGET) if it.kind == "REFUSED"] != [("8",)]:
        yield "no row of the session is refused"
    answers = [it.session(model, script, n, BUDGET) for it in ways]
    if answers[0] != answers[1] or [it.kind for it in answers[0]] != ["EXPLAINED", "EXPLAINED"]:
        yield f"where a row is too much for the finer model the session says {answers}"


def mistaken(path):
    """Mistakes must be told as they are, also those that the scripts pass over."""
    with open(PUMP, encoding="utf-8") as it:
        pump = it.read()
    last = pump.rstrip("\n").split("\n")[-1]
    for text in [pump + last + "\n", pump + last.replace("event ", "event more: ") + "\n", pump + "state x y z\n", pump.replace("component ", "component a.", 1), "", "des 2\n", pump + "\udcff\n"]:
        said = []
        for way in (Program(path), Program(path, as_written=True)):
            try:
                said.append(way.diagnose(Text(text), LOG, 5, BUDGET).kind)
            except Refused as fault:
                said.append(str(fault))
        if said[0] != said[1] or not said[0].startswith("MODEL "):
            yield f"of the mistake in {text[-200:]!r} it says {said}"
    for words in [("", "3"), (LOG, "three"), ("none.csv", "3")]:
        said = []
        for way in (Program(path), Program(path, as_written=True)):
            try:
                said.append(way.diagnose(PUMP, Text("alarm;a1\n") if not words[0] else words[0], words[1], BUDGET).kind)
            except Refused as fault:
                said.append(str(fault))
        if said[0] != said[1] or said[0].split()[0] not in ("LOG", "USAGE", "LOAD"):
            yield f"of {words} it says {said}"


def main(words):
    path = os.path.abspath(words[0])
    count, seed = [int(it) for it in words[1:3]] + [40, 1][len(words[1:3]):]
    wrong, finer = drawn(path, count, seed)
    wrong += [*asked(path), *refused(path)]
    print("\n".join(wrong + [f"{count} questions about drawn plants, {finer} of which are finer, the questions that the tools ask, and what is refused: {len(wrong)} things aren't as they should be"]))
    return 1 if wrong or not finer else 0


if __name__ == "__main__":
    sys.exit(main(sys.argv[1:]))
