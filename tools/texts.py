"""Reads the texts of docs/formats.md a second time, for the other tools: lines, records, models, logs and runs. It is no part of what is proved.

Bytes that aren't UTF-8 are kept, so that a message can name them: `shown` writes them as \\xNN.
"""
import csv
import re
import signal
import sys

NAME = re.compile(r"[A-Za-z0-9_-]{1,64}")
NUMBER = re.compile(r"0|[1-9][0-9]*")
csv.field_size_limit(1 << 30)


class Wrong(Exception):
    """A text that a tool can't use, in words."""


def contents(path):
    """The text of a file, line ends and all."""
    with open(path, encoding="utf-8", errors="surrogateescape", newline="") as it:
        return it.read()


def read(path):
    """The same; of standard input if the path is `-`."""
    return sys.stdin.buffer.read().decode("utf-8", "surrogateescape") if path == "-" else contents(path)


def shown(words):
    """A text of a file as it can be printed."""
    return words.encode("utf-8", "surrogateescape").decode("utf-8", "backslashreplace")


def counted_in(text, comment="#"):
    """The lines of a text that count, each with its number and its words."""
    lines = enumerate(text.split("\n"), 1)
    split = [(number, re.findall(r"[^ \t]+", line[:-1] if line.endswith("\r") else line)) for number, line in lines]
    return [(number, words) for number, words in split if words and not words[0].startswith(comment)]


def counted(path, comment="#"):
    return counted_in(read(path), comment)


class Row:
    """A record of a log or a script: its fields, and the line where it begins."""

    def __init__(self, line, fields):
        self.line, self.fields = line, fields
        self.kind, self.first, self.second = (fields + ["", "", ""])[:3]
        self.is_alarm = self.kind in ("alarm", "maybe")

    def text(self):
        return shown(",".join(self.fields))


def rows_of(path):
    """The records of a log or a script; row N of a reply is number N - 1 here. An empty line is none."""
    rows, end = [], 0
    with open(path, encoding="utf-8-sig", errors="surrogateescape", newline="") as it:
        reader = csv.reader(it)
        try:
            for fields in reader:
                if fields:
                    rows.append(Row(end + 1, fields))
                end = reader.line_num
        except csv.Error as fault:
            raise ValueError(str(fault)) from fault
    return rows


class Log:
    """The alarms of a log with their labels, those that are doubtful, and the pairs of which the first comes before the second."""

    def __init__(self, rows):
        self.labels = {row.first: list(dict.fromkeys(row.second.split("|"))) for row in rows if row.is_alarm}
        self.doubtful = {row.first for row in rows if row.kind == "maybe"}
        self.pairs = list(dict.fromkeys((row.first, row.second) for row in rows if row.kind == "before"))


def log_of(path):
    return Log(rows_of(path))


class Event:
    """An event of a model: the action of each component that takes part, the label of its alarm if it raises one, and whether it is a fault."""

    def __init__(self, words):
        at = words.index(":")
        marks = words[2:at]
        self.name = words[1]
        self.parts = dict(part.split(".") for part in words[at + 1:])
        self.label = marks[1] if marks[:1] == ["alarm"] else None
        self.is_fault = marks[0 if self.label is None else 2:] == ["fault"]


class Model:
    """The components of a model text with their states and transitions, and its events, each in the order of the text."""

    def __init__(self, lines):
        self.states, self.inits, self.moves, self.events = {}, {}, {}, {}
        component = None
        for _, words in lines:
            if words[0] == "component":
                component = words[1]
                self.states[component], self.inits[component], self.moves[component] = [], [], []
            elif words[0] == "state":
                self.states[component].append(words[1])
                self.inits[component] += [words[1]] * (words[2:] == ["init"])
            elif words[0] == "trans":
                start, action, to = words[1:]
                self.moves[component].append((start, action, to))
            elif words[0] == "event":
                self.events[words[1]] = Event(words)

    def faults(self):
        return [name for name, event in self.events.items() if event.is_fault]

    def labels(self):
        return {event.label for event in self.events.values() if event.label is not None}


def model_of(path):
    return Model(counted(path))


def sound_model_in(text):
    """The model of a text that has no mistake, as far as the tools rely on it; None if it has one."""
    try:
        lines = counted_in(text)
        model = Model(lines[1:])
        ends = all(end in model.states[name] for name, moves in model.moves.items() for start, _, to in moves for end in (start, to))
        parts = all(any(by == action for _, by, _ in model.moves[name]) for event in model.events.values() for name, action in event.parts.items())
        return model if lines[0][1] == ["des", "1"] and ends and parts and all(model.inits.values()) else None
    except (IndexError, KeyError, ValueError):
        return None


def sound_model(path):
    """The same of a file, which must have such a text."""
    try:
        model = sound_model_in(read(path))
    except OSError as fault:
        raise Wrong(f"{path}: {fault.strerror}") from fault
    if model is None:
        raise Wrong(f"{shown(path)} isn't a model text without a mistake; `show` prints its first one, and tools/explain.py says what it means")
    return model


def as_written_in(words):
    """The words of a call without `--as-written`, and whether it stood in front of them."""
    return (words[1:], True) if words[:1] == ["--as-written"] else (words, False)


def plural(count, word):
    return f"{count:,} {word}{'' if count == 1 else 's'}"


def called(main):
    """Calls a tool with its words, and ends with its status, or 1 and what is wrong with a text."""
    if hasattr(signal, "SIGPIPE"):
        signal.signal(signal.SIGPIPE, signal.SIG_DFL)
    sys.stdout.reconfigure(encoding="utf-8", errors="backslashreplace")
    try:
        sys.exit(main(sys.argv[1:]))
    except Wrong as fault:
        sys.exit(str(fault))
