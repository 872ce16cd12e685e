"""The calls of the program for one question, and what they found; tools/report.py makes a page of it."""
import hashlib
import os
import shutil
import subprocess
import time

from program import lines_of, replies_of
from texts import Log, Wrong, counted, rows_of, sound_model
from timeline import Item, Run

MOST = 1 << 25
NO_QUESTION = ("MODEL", "LOG", "LOAD", "LONG", "USAGE")


class Outcome:
    """A call of the program and what came of it. A status of None is that of a call that was stopped."""

    def __init__(self, words, status, text, size, seconds):
        self.words, self.status, self.text, self.size, self.seconds = words, status, text, size, seconds
        self.is_stopped = status is None
        self.replies = whole_replies(text)
        first = self.replies[0] if self.replies else None
        self.kind, self.head, self.numbers, self.run = (first.kind, first.words, first.numbers, first.run) if first else ("", (), [], None)

    def first(self):
        return " ".join(self.head)

    def ending(self):
        return f"stopped after {self.seconds:.0f} seconds" if self.is_stopped else f"status {self.status}, {self.seconds:.1f} seconds"


def whole_replies(text):
    """The replies of a printed text. One that was cut off is left out, and all that stands behind it."""
    found = []
    try:
        for reply in replies_of(lines_of(text)):
            if not reply.is_whole or reply.run is None and reply.kind in ("POSSIBLE", "EXPLAINED"):
                break
            found.append(reply)
    except ValueError:
        pass
    return found


def digest(path):
    """The SHA-256 of a file and its size, or nothing if it can't be read."""
    try:
        with open(path, "rb") as it:
            known, size = hashlib.sha256(), 0
            for piece in iter(lambda: it.read(1 << 20), b""):
                known.update(piece)
                size += len(piece)
            return known.hexdigest(), size
    except OSError:
        return None


class Diagnosis:
    """The calls for one question, and what they found."""

    def __init__(self, program, words, seconds, folder):
        self.program, self.seconds, self.folder = program, seconds, folder
        self.model_path, self.log_path, self.n, self.budget = words[:4]
        self.costs_path = words[4] if len(words) > 4 else None
        self.asked = [self.model_path, self.log_path]
        self.files = [("program", shutil.which(program) or program), ("model", self.model_path), ("log", self.log_path)] + [("costs", self.costs_path)] * bool(self.costs_path)
        self.digests = [digest(path) for _, path in self.files]
        self.count, self.stopped = 0, []
        self.verdicts = self.call(["verdicts"] + self.asked + [self.n, self.budget])
        self.cheapest = self.call(["cheapest"] + self.asked + [self.costs_path, self.n, self.budget]) if self.costs_path else None
        self.main = self.cheapest or self.verdicts
        self.model = self.model_read()
        self.is_read = self.model is not None and self.verdicts.kind not in NO_QUESTION
        self.log = self.log_read()
        # With costs the run of least cost is drawn; if there is none, that with the fewest faults.
        self.drawn = next((it for it in (self.cheapest, self.verdicts) if it and it.run is not None), None)
        self.others = self.others_of()
        self.replayed = [self.replay(it) for it in ([self.drawn.run] if self.drawn else []) + [run for run, _ in self.others]]
        self.proof = self.refute()
        self.doubted = self.doubt()

    def call(self, words, keep=None):
        """Calls the program; what it prints goes to a file of the folder that is thrown away in the end."""
        self.count += 1
        path = os.path.join(self.folder, keep or f"reply-{self.count}")
        began = time.monotonic()
        try:
            with open(path, "wb") as out, subprocess.Popen([self.program] + words, stdin=subprocess.DEVNULL, stdout=out, stderr=subprocess.DEVNULL) as child:
                try:
                    status = child.wait(self.seconds)
                except subprocess.TimeoutExpired:
                    child.kill()
                    status = None
        except OSError as fault:
            raise Wrong(f"{self.program}: {fault.strerror}") from fault
        with open(path, "rb") as it:
            text = it.read(MOST if keep is None else 4096).decode(errors="replace")
        shown = [os.path.relpath(word, self.folder) if word.startswith(self.folder + os.sep) else word for word in words]
        reply = Outcome([self.program] + shown, status, text, os.path.getsize(path), time.monotonic() - began)
        self.stopped += [reply] * reply.is_stopped
        return reply

    def model_read(self):
        """The model, if the program accepted it."""
        if self.verdicts.kind in ("MODEL", "USAGE") or self.verdicts.first() in ("LOAD 1", "LONG 1"):
            return None
        try:
            return sound_model(self.model_path)
        except Wrong:
            return None

    def log_read(self):
        try:
            return Log(rows_of(self.log_path)) if self.is_read else Log([])
        except (OSError, ValueError):
            return Log([])

    def others_of(self):
        """The other runs with the least number of faults, each with the events that it shows to be possible."""
        found = {}
        for reply in self.verdicts.replies[1:]:
            if reply.kind == "POSSIBLE" and self.model:
                found.setdefault(reply.run, []).append(reply.words[1])
        if self.cheapest and self.drawn is self.cheapest and self.verdicts.run is not None and self.verdicts.run != self.cheapest.run:
            found = {self.verdicts.run: []} | found
        return list(found.items())

    def replay(self, run):
        path = os.path.join(self.folder, f"answer-{self.count}.run")
        with open(path, "w", encoding="utf-8") as it:
            it.write("\n".join([f"run {len(run)}"] + [step.line() for step in run]) + "\n")
        return self.call(["replay"] + self.asked + [path, self.n])

    def refute(self):
        """The refutation of fewer faults, its formula and the check of both, as far as they came."""
        if self.verdicts.kind not in ("EXPLAINED", "NONE", "MANY") or self.verdicts.first() == "EXPLAINED 0":
            return []
        made = [self.call(["proof"] + self.asked + [self.n, self.budget], "refutation.lrat")]
        if made[0].head[:2] == ("c", "cnf") and made[0].status == 0:
            made.append(self.call(["cnf"] + self.asked + [self.n, made[0].head[2]], "question.cnf"))
            if made[1].status == 0:
                made.append(self.call(["check", os.path.join(self.folder, "question.cnf"), os.path.join(self.folder, "refutation.lrat")]))
        return made

    def steps_of_refutation(self):
        with open(os.path.join(self.folder, "refutation.lrat"), "rb") as it:
            return sum(not line.startswith(b"c") for line in it)

    def doubt(self):
        """If nothing explains the log: the answer if each of its alarms may be false."""
        if self.verdicts.kind != "NONE" or not self.log.labels:
            return None
        path = os.path.join(self.folder, "doubted.csv")
        with open(path, "w", encoding="utf-8") as it:
            it.write("".join(f"maybe,{name},{'|'.join(labels)}\n" for name, labels in self.log.labels.items()) + "".join(f"before,{first},{second}\n" for first, second in self.log.pairs))
        return self.call(["diagnose", self.model_path, path, self.n, self.budget])

    # What the calls found.

    def read_run(self, run):
        """A run with its parallel steps, as it is drawn."""
        return Run("", [Item(step, self.model) for step in run])

    def false_in(self, run):
        return [step.alarm for step in run or () if step.is_false]

    def faults_in(self, run):
        """The fault events of a run in their order, each with how often it happens."""
        names = [step.event for step in run if not step.is_false]
        return {name: names.count(name) for name in dict.fromkeys(names) if self.model.events[name].is_fault}

    def strange(self):
        """The alarms that no event raises and that aren't doubtful, each with its labels."""
        known = self.model.labels()
        return [f"{name} ({' or '.join(labels)})" for name, labels in self.log.labels.items() if not known & set(labels) and name not in self.log.doubtful]

    def known_of(self):
        """What is known of each fault event, in words of one kind; nothing if the first reply wasn't EXPLAINED."""
        if self.verdicts.kind != "EXPLAINED" or not self.model:
            return {}
        told = {it.words[1]: it.kind.lower() for it in self.verdicts.replies[1:] if len(it.words) > 1}
        return {name: told.get(name, "open") for name in self.model.faults()}

    def costs(self):
        """The cost of each fault event that the file of costs names."""
        if not self.costs_path or self.cheapest.kind in ("COST", "LOAD", "LONG"):
            return {}
        try:
            return {words[1]: int(words[2]) for _, words in counted(self.costs_path) if words[0] == "cost"}
        except (OSError, IndexError, ValueError):
            return {}

    def total(self):
        """What the run that is drawn costs by the file of costs."""
        costs = self.costs()
        return sum(costs.get(name, 1) * count for name, count in self.faults_in(self.drawn.run).items()) + len(self.false_in(self.drawn.run))
