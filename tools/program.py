"""Calls the program from Python, and gives its answers as values.

    import sys; sys.path.insert(0, "tools")
    from program import Program
    program = Program("crates/diagnose_cli/out/diagnose_cli")
    answer = program.diagnose("examples/first/model.des", "examples/first/log.csv", 3, 1000)
    print(answer.kind, answer.most, [step.event for step in answer.run])

    python3 tools/program.py [--as-written] PROGRAM COMMAND WORDS..

A method has the name and the words of a command, all thirteen. A file is named by its path, or given as `Text`, which is written to a file that lasts as long as the call; what `cnf`, `proof`, `show` and `generate` print is
such a text. An answer to a question is a value, `NONE` and `UNDECIDED` among them; what is no answer is raised: `Refused` has the reply, such as `MODEL 12 5`, and `Late` says that the call took too long and was stopped.
A question (`diagnose`, `verdicts`, `cheapest`, `session`, `twin`) is asked of the model as refine.py writes it, which is answered sooner and has the same answers, unless no component is added there or the finer model is too large; with `as_written` or --as-written it is always asked as written. `cnf` and `proof` are about the model as it is written.
Called from a shell, this prints the answer as one JSON object, an object a line for a session, and ends with the program's status; words that would raise `Refused` give an object too.

`replies_of` reads what the program prints, for this module and for the other tools. This module is no part of what is proved.
"""
import inspect
import json
import os
import subprocess
import sys
import tempfile
import time
from dataclasses import asdict, dataclass
from itertools import islice
from typing import Optional

sys.path.insert(0, os.path.dirname(os.path.abspath(__file__)))
from refine import finer_in  # noqa: E402
from texts import as_written_in, contents  # noqa: E402

WITHOUT_ANSWER = {1, 2, 3, 4, 5, 6, 7, 8, 9, 15, 16}
TICK = 1.0


class Text(str):
    """The text of a file, in place of its path."""


class Refused(Exception):
    """A call without an answer: its status, what was printed, and the words of its first line."""

    def __init__(self, status, text):
        first = text.split("\n", 1)[0]
        super().__init__(first or f"status {status}")
        self.status, self.text, self.words = status, text, first.split()

    @property
    def ending(self):
        """The status as a shell says it: a call that was killed has 128 and the number of the signal."""
        return self.status if self.status >= 0 else 128 - self.status


class Late(Exception):
    """A call that took longer than it may."""


@dataclass(frozen=True)
class Step:
    """A line of a run: an event and the alarm that it raised, if any, or an alarm that is set aside as false."""
    event: Optional[str]
    alarm: Optional[str]

    @property
    def is_false(self):
        return self.event is None

    def line(self):
        return " ".join(["!" if self.is_false else self.event] + [self.alarm] * (self.alarm is not None))


@dataclass(frozen=True)
class Reply:
    """A reply as it is printed: the words of its first line, and the steps of its run, if it has one. It isn't whole if lines of the run are missing. A run text is a reply without words."""
    words: tuple
    run: Optional[tuple] = None
    is_whole: bool = True

    @property
    def kind(self):
        return self.words[0] if self.words else ""

    @property
    def numbers(self):
        return [int(it) for it in self.words[1:] if it.isdecimal()]

    def first(self):
        return " ".join(self.words)


@dataclass(frozen=True)
class Answer:
    """A reply: its status and its first word, from how many faults (or which cost) to how many the least number is known to be, and the steps of its run, if it has one.

    `most` is None if no number is known: nothing explains the log, or no run was found. `why` has the further words of `REJECTED`, and the code of `REFUSED`.
    """
    status: int
    kind: str
    least: Optional[int] = None
    most: Optional[int] = None
    run: Optional[tuple] = None
    why: tuple = ()

    def events(self):
        return [step.event for step in self.run or () if step.event]


@dataclass(frozen=True)
class Verdicts:
    """The status, the answer as of `diagnose`, the fault events by what is known of them, and the runs behind the possible ones, in their order."""
    status: int
    answer: Answer
    certain: tuple = ()
    possible: tuple = ()
    excluded: tuple = ()
    open: tuple = ()
    runs: tuple = ()


@dataclass(frozen=True)
class Twins:
    """The answer of `twin`: CLEAR, UNDECIDED, or AMBIGUOUS and two runs."""
    status: int
    kind: str
    faulty: Optional[tuple] = None
    healthy: Optional[tuple] = None


@dataclass(frozen=True)
class Proof:
    """The answer of `proof`: PROOF, with the refutation and the K of the formula that it refutes, or NOTHING or UNDECIDED, with what is known of the least number."""
    status: int
    kind: str
    bound: Optional[str] = None
    text: Optional[Text] = None
    least: Optional[int] = None
    most: Optional[int] = None


@dataclass(frozen=True)
class Measured:
    """The answer of `bench`: its status, that about the plant of so many units, how many alarms its log has, and the size of the question."""
    status: int
    answer: Answer
    units: int
    alarms: int
    size: int


def step_of(words):
    """The line of a run with these words."""
    if not 1 <= len(words) <= 2 or words == ["!"]:
        raise ValueError(f"`{' '.join(words)}` is no line of a run")
    return Step(*(words + [None])[:2]) if words[0] != "!" else Step(None, words[1])


def lines_of(text):
    """The words of each finished line."""
    return (line.split() for line in text.split("\n")[:-1])


def replies_of(lines):
    """The replies of a text, given as the words of its lines, one after another. Lines that are no line of a run raise a ValueError."""
    def begins_run(line):
        return line is not None and len(line) == 2 and line[0] == "run" and line[1].isdecimal()

    lines = iter(lines)
    line = next(lines, None)
    while line is not None:
        words, run, is_whole = (), None, True
        if not begins_run(line):
            words, line = tuple(line), next(lines, None)
        if begins_run(line):
            count = int(line[1])
            run = tuple(map(step_of, islice(lines, count)))
            is_whole, line = len(run) == count, next(lines, None)
        yield Reply(words, run, is_whole)


def answer_of(reply, status):
    """A reply as a value."""
    kind, numbers, run = reply.kind, reply.numbers, reply.run
    if kind in ("EXPLAINED", "CHEAPEST", "ACCEPTED", "RAN"):
        return Answer(status, kind, numbers[0], numbers[0], run)
    if kind in ("MANY", "DEAR"):
        return Answer(status, kind, numbers[0] + 1, None, run)
    if kind == "UNDECIDED":
        return Answer(status, kind, numbers[0], numbers[1] if len(numbers) > 1 else None, run)
    return Answer(status, kind, run=run, why=reply.words[1:] if kind in ("REJECTED", "REFUSED") else ())


# The row of a session with which its question would be too large.
TOO_LARGE = ("REFUSED", "8")


class Program:
    """The compiled program. A call may take so many seconds; without a number it may take as long as it likes. While it works, `waiting` is called each second with the seconds that have passed. If `as_written`, no question is asked of a finer model."""

    def __init__(self, path, seconds=None, waiting=None, as_written=False):
        self.path, self.seconds, self.waiting, self.as_written = path, seconds, waiting, as_written
        self.known = None, None

    def call(self, command, *words):
        """What the program prints, and its status."""
        with tempfile.TemporaryDirectory() as room:
            given = [self.placed(os.path.join(room, str(place)), word) for place, word in enumerate(words)]
            with subprocess.Popen([self.path, command, *given], stdin=subprocess.DEVNULL, stdout=subprocess.PIPE) as child:
                try:
                    text = self.printed(child, command)
                except BaseException:
                    child.kill()
                    raise
        return text.decode(), child.returncode

    def placed(self, path, word):
        """A word of a call; a text is put into a file."""
        if not isinstance(word, Text):
            return str(word)
        with open(path, "w", encoding="utf-8", errors="surrogateescape", newline="") as it:
            it.write(word)
        return path

    def printed(self, child, command):
        """What a call prints, once it has ended."""
        began = time.monotonic()
        while True:
            passed = time.monotonic() - began
            left = None if self.seconds is None else max(self.seconds - passed, 0)
            try:
                return child.communicate(timeout=min(TICK, TICK if left is None else left) if self.waiting else left)[0]
            except subprocess.TimeoutExpired as cut:
                passed = time.monotonic() - began
                if self.seconds is not None and passed >= self.seconds:
                    raise Late(f"{command} took more than {self.seconds} seconds") from cut
                if self.waiting:
                    self.waiting(passed)

    def answered(self, command, *words):
        """What a call prints that has an answer, and its status."""
        text, status = self.call(command, *words)
        if status in WITHOUT_ANSWER or status < 0 or not text and command != "session":
            raise Refused(status, text)
        return text, status

    def replies(self, command, *words):
        """The replies of a call that has an answer, and its status."""
        text, status = self.answered(command, *words)
        return list(replies_of(lines_of(text))), status

    def finer(self, model):
        """The finer model, if it has more components; None of a model with a mistake, or of what is no file, which is asked about as it is. That of the last model is kept, since many questions may be about it."""
        try:
            if not isinstance(model, Text) and not os.path.isfile(model):
                return None
            text = model if isinstance(model, Text) else Text(contents(model))
        except OSError:
            return None
        if self.known[0] != text:
            finer = finer_in(text)
            # To the scripts some models are sound that have a mistake.
            self.known = text, Text(finer) if finer is not None and self.call("show", text)[1] == 0 else None
        return self.known[1]

    def asked(self, command, model, *words):
        """The replies to a question about a model, and their status. It is asked of the finer model, and as written if there is none or it is too large."""
        finer = None if self.as_written else self.finer(model)
        if finer is not None:
            try:
                replies, status = self.replies(command, finer, *words)
                if all(it.words != TOO_LARGE for it in replies):
                    return replies, status
            except Refused as fault:
                if fault.words[:1] != ["LARGE"]:
                    raise
        return self.replies(command, model, *words)

    def one(self, command, *words):
        replies, status = self.replies(command, *words)
        return answer_of(replies[0], status)

    def best(self, command, model, *words):
        """The one answer to a question about a model."""
        replies, status = self.asked(command, model, *words)
        return answer_of(replies[0], status)

    def text(self, command, *words):
        return Text(self.answered(command, *words)[0])

    def diagnose(self, model, log, n, budget):
        return self.best("diagnose", model, log, n, budget)

    def cheapest(self, model, log, costs, n, budget):
        return self.best("cheapest", model, log, costs, n, budget)

    def replay(self, model, log, run, n):
        return self.one("replay", model, log, run, n)

    def trace(self, model, run):
        return self.one("trace", model, run)

    def check(self, cnf, lrat):
        return self.one("check", cnf, lrat)

    def verdicts(self, model, log, n, budget):
        (first, *rest), status = self.asked("verdicts", model, log, n, budget)
        by = {kind: tuple(it.words[1] for it in rest if it.kind == kind) for kind in ("CERTAIN", "POSSIBLE", "EXCLUDED", "OPEN")}
        runs = tuple(it.run for it in rest if it.run is not None)
        return Verdicts(status, answer_of(first, 0 if by["OPEN"] else status), by["CERTAIN"], by["POSSIBLE"], by["EXCLUDED"], by["OPEN"], runs)

    def session(self, model, script, n, budget):
        """The answers to the questions of a script, and the rows that were refused, in their order. Their status is that of the session, 0."""
        replies, status = self.asked("session", model, script, n, budget)
        return [answer_of(it, status) for it in replies]

    def twin(self, model, event, n, after, budget):
        replies, status = self.asked("twin", model, event, n, after, budget)
        return Twins(status, replies[0].kind, *(it.run for it in replies if it.run is not None))

    def show(self, model):
        """The plain form of a model."""
        return self.text("show", model)

    def cnf(self, model, log, n, k):
        """The question as a formula."""
        return self.text("cnf", model, log, n, k)

    def proof(self, model, log, n, budget):
        text, status = self.answered("proof", model, log, n, budget)
        first = next(replies_of(lines_of(text[:text.index("\n") + 1])))
        if status == 0:
            return Proof(status, "PROOF", first.words[2], Text(text))
        answer = answer_of(first, status)
        return Proof(status, answer.kind, least=answer.least, most=answer.most)

    def generate(self, what, z, start):
        """A plant of Z units, or a log of it: `what` is model or log."""
        return self.text("generate", what, z, start)

    def bench(self, z, start, n, budget):
        (*sizes, last), status = self.replies("bench", z, start, n, budget)
        return Measured(status, answer_of(last, status), *(it.numbers[0] for it in sizes))


COMMANDS = ("diagnose", "verdicts", "session", "cheapest", "replay", "trace", "twin", "show", "cnf", "proof", "check", "generate", "bench")


def plain(value):
    """An answer as a JSON value, without what it doesn't have."""
    if isinstance(value, Text):
        return {"status": 0, "kind": "TEXT", "text": value}
    return asdict(value, dict_factory=lambda fields: {name: it for name, it in fields if it is not None and it != ()})


def main(words):
    words, as_written = as_written_in(words)
    if len(words) < 2:
        sys.exit(__doc__)
    try:
        method = getattr(Program(words[0], as_written=as_written), words[1]) if words[1] in COMMANDS else None
        if method is None or len(inspect.signature(method).parameters) != len(words[2:]):
            raise Refused(2, "USAGE")
        answers = method(*words[2:])
        for answer in answers if isinstance(answers, list) else [answers]:
            print(json.dumps(plain(answer)))
        return getattr(answers, "status", 0)
    except Refused as fault:
        print(json.dumps({"status": fault.status, "kind": fault.words[0] if fault.words else None, "words": fault.words[1:]}))
        return fault.ending
    except OSError as fault:
        sys.exit(f"{fault.filename}: {fault.strerror}")


if __name__ == "__main__":
    sys.exit(main(sys.argv[1:]))
