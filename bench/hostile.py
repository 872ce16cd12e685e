"""Gives the program texts that nobody would write, looks whether each ends with a stated status, and prints what the dearest cost.

    python3 bench/hostile.py PROGRAM [COUNT [SEED]]

PROGRAM is the program as `rt run` builds it, crates/diagnose_cli/out/diagnose_cli. Of each kind of text COUNT small ones are drawn (200 where none
is given) with the seed: bytes, signs of the format, and well-formed texts that are cut, spliced, repeated and turned. Then come the large ones, each once:
lines of 16 MiB, and texts at the limits of what is read. It's no part of the gate.

A run must end with a status that its command may have and the output that goes with it. It has 120 seconds of the processor and 8 GiB; what takes longer is cut off and has no answer. For each kind the table has the
statuses with their numbers, seconds of the processor and MiB at the peak of the dearest text, and the same of a well-formed text of its size, as `well`
makes it (a child begins with some 15 MiB, so less can't be told). What went wrong is printed, and of a small text the smallest that cutting finds. Status 1: something did.

On 1 December 2026, by the proved program on four shared processors of an Intel Xeon with some other work, in one piece: 4,200 small texts and 94 large ones. None ended otherwise than it may. Of
the small ones none took more than 0.03 seconds and 18 MiB, but for a formula of 31 bytes with a large variable (192 MiB: what `check` assigns is a list up to the greatest variable). Of the large ones those that
are left out took at most 0.1 seconds and 18 MiB. One had no answer: a `session` that asks about 2,000 alarms of one label within 1,000 steps; `diagnose` comes to the end of its budget there in 114 seconds. A question of 960 million literals, whose size is below the limit, wants more than 8 GiB.
With more other work `diagnose` hadn't ended there either when its time was up.

| Texts | Kind | Statuses (runs) | Dearest: command, bytes | Seconds | MiB | Well-formed: seconds | MiB |
|---|---|---|---|---|---|---|---|
| a line of 16 MiB | model | 0 (2), 5 (4) | `show`, 16,777,216 | 0.33 | 177 | 0.05 | 20 |
| a line of 16 MiB | log | 0 (1), 6 (6) | `diagnose`, 16,777,215 | 1.34 | 513 | 0.18 | 18 |
| a line of 16 MiB | script | 0 (3), 6 (4) | `session`, 16,777,215 | 1.44 | 513 | 0.17 | 18 |
| a line of 16 MiB | formula | 7 (4), 13 (1) | `check`, 16,777,212 | 0.28 | 120 | 0.28 | 63 |
| a line of 16 MiB | proof | 7 (2), 13 (3) | `check`, 16,777,216 | 0.38 | 209 | 0.11 | 17 |
| 4,000 events of one device | model | 0 (1), 10 (1) | `diagnose`, 98,533 | 0.05 | 17 | 0.02 | 17 |
| 3,000 events of one device, 1 step | model | 17 (3) | `twin`, 73,333 | 0.04 | 17 | 0.02 | 17 |
| 40 devices with 9 events that are seen, 1,000 steps, AFTER 100 | model | 17 (1) | `twin`, 11,839 | 2.82 | 815 | `LARGE` | |
| 40 devices with 9 events that are seen, 1,000 steps, AFTER 1,000 | model | 0 (1) | `twin`, 11,839 | 7.32 | 3458 | `LARGE` | |
| 960 devices with an event that is seen, 1,000 steps, AFTER 1,000 | model | 9 (1) | `twin`, 67,859 | 9.39 | 6635 | `LARGE` | |
| 2,000 alarms with one label, without an order, 100 steps | log | 10 (1) | `diagnose`, 26,890 | 1.14 | 179 | 0.10 | 31 |
| 2,000 alarms with one label, without an order, 1,000 steps | log | 11 (1) | `diagnose`, 26,890 | 114.48 | 1750 | 1.11 | 282 |
| 2,000 alarms that no event tells, without an order, 1,000 steps | log | 10 (1) | `diagnose`, 26,890 | 1.85 | 419 | 1.10 | 282 |
| 2,000 alarms with one of 64 labels, without an order, 31 steps | log | 11 (1) | `diagnose`, 152,890 | 0.20 | 59 | 0.07 | 17 |
| 2,000 alarms with one of 64 labels, without an order, 32 steps | log | 11 (1) | `diagnose`, 152,890 | 0.21 | 60 | 0.07 | 17 |
| 2,000 alarms with 64 labels of 64 signs, without an order, 1 step | log | 11 (1) | `diagnose`, 8,342,890 | 2.55 | 151 | 0.11 | 17 |
| 2,000 alarms with 64 labels of 64 signs, without an order, 2 steps | log | 11 (1) | `diagnose`, 8,342,890 | 4.63 | 276 | 0.12 | 17 |
| 2,000 alarms with one label, without an order, 100 steps | script | 0 (1) | `session`, 26,894 | 1.03 | 167 | 0.07 | 26 |
| 2,000 alarms with one label, without an order, 1,000 steps | script | no answer (1) | `session`, 26,894 | 118.68 | 1559 | 0.61 | 233 |
| 2,000 alarms that no event tells, without an order, 1,000 steps | script | 0 (1) | `session`, 26,894 | 1.58 | 400 | 0.61 | 233 |
| 2,000 alarms with one of 64 labels, without an order, 31 steps | script | 0 (1) | `session`, 152,894 | 0.19 | 50 | 0.07 | 19 |
| 2,000 alarms with one of 64 labels, without an order, 32 steps | script | 0 (1) | `session`, 152,894 | 0.20 | 51 | 0.07 | 17 |
| 2,000 alarms with 64 labels of 64 signs, without an order, 1 step | script | 0 (1) | `session`, 8,342,894 | 2.71 | 160 | 0.11 | 17 |
| 2,000 alarms with 64 labels of 64 signs, without an order, 2 steps | script | 0 (1) | `session`, 8,342,894 | 4.79 | 297 | 0.11 | 17 |
| 4,000,000 events | run | 0 (1) | `trace`, 20,000,012 | 0.50 | 173 | 0.49 | 173 |
| 4,000,000 events | run | 13 (2) | `replay`, 32,000,012 | 1.12 | 307 | 0.52 | 185 |
| 4,000,000 events with names of 64 signs | run | 0 (1) | `trace`, 520,000,012 | 3.90 | 955 | 1.51 | 650 |
| 100,000,000 variables | formula | 7 (2), 13 (1) | `check`, 400,000,026 | 8.39 | 1527 | 7.21 | 1473 |
"""
import glob
import itertools
import os
import random
import re
import subprocess
import sys
import tempfile
import time

HERE = os.path.dirname(os.path.abspath(__file__))
CASES = os.path.join(HERE, "..", "cases")
# (a folder in cases/ is taken for a case)
sys.dont_write_bytecode = True
sys.path.insert(0, CASES)
import run as cases  # noqa: E402

# What a run may use: seconds of the processor, and memory, past which the program has no more to take.
SECONDS, GIBIBYTES = 120, 8
MOST = 2**24
# In place of the status of a run that was cut off.
CUT = "no answer"
LIMITED = f'ulimit -t {SECONDS}; ulimit -v {GIBIBYTES * 2**20}; exec "$@"'
TEXT = "text"
# The commands that read a kind of text; the other files are those of FILES.
READERS = {
    "model": [["show", TEXT], ["diagnose", TEXT, "log", "3", "1000"], ["cnf", TEXT, "log", "3", "any"], ["twin", TEXT, "jam", "3", "1", "1000"],
              ["verdicts", TEXT, "log", "3", "1000"]],
    "log": [["diagnose", "model", TEXT, "3", "1000"], ["proof", "model", TEXT, "3", "1000"], ["verdicts", "model", TEXT, "3", "1000"]],
    "script": [["session", "model", TEXT, "3", "1000"]],
    "run": [["trace", "model", TEXT], ["replay", "model", "log", TEXT, "3"]],
    "formula": [["check", TEXT, "proof"]],
    "proof": [["check", "formula", TEXT]],
    "costs": [["cheapest", "model", "log", TEXT, "3", "1000"]],
}
FILES = {"model": "diagnose_valve/model.des", "log": "diagnose_valve/tripped.csv", "formula": "check_proofs/four_clauses.cnf", "proof": "check_proofs/two_steps.lrat"}
# A plant with an event whose name has 64 signs, and another; and one of 64 components, each with an event and a label of its own.
LONG = "des 1\ncomponent p\nstate s init\ntrans s a s\nevent " + "e" * 64 + " : p.a\nevent beat : p.a\n"
LABELLED = "des 1\n" + "".join(f"component u{it}\nstate s init\ntrans s a s\nevent e{it} alarm T{it:063} : u{it}.a\n" for it in range(64))
# The ends of the names of well-formed and other texts of each kind, in the cases.
ENDS = {"model": ".des", "log": ".csv", "script": ".csv", "run": ".run", "formula": ".cnf", "proof": ".lrat", "costs": ".costs"}
SIGNS = {
    "model": b"des component state init trans event alarm fault : . p a 1 # -_",
    "log": b"alarm maybe before ask , | \" T a1 a2",
    "run": b"run 0 1 2 ! # jam trip a1",
    "formula": b"p cnf 0 1 2 - c",
    "proof": b"0 1 2 5 6 d - c",
    "costs": b"costs cost 0 1 7 1000 1001 jam trip #",
}
# The statuses that each command may have beside those for words, files and memory.
STATUSES = {
    "show": [0, 5], "diagnose": [0, 5, 6, 10, 11, 12], "cnf": [0, 5, 6], "proof": [0, 5, 6, 11, 14], "session": [0, 5, 6], "trace": [0, 5, 7, 13],
    "replay": [0, 5, 6, 7, 13], "check": [0, 7, 13], "twin": [0, 5, 11, 16, 17],
    "cheapest": [0, 5, 6, 10, 11, 12, 15], "verdicts": [0, 5, 6, 10, 11, 12],
}
EVERYWHERE = [3, 8, 9]
NAME = r"[A-Za-z0-9_-]{1,64}"
STEP = rf"(?:!|{NAME})(?: {NAME})?"
RUN = rf"run \d+\n(?:{STEP}\n)*"
FIRST = r"EXPLAINED \d+|NONE \d+|MANY 255|UNDECIDED \d+ (?:\d+|-)|REFUSED [1-58]|run \d+"
VERDICT = rf"(?:CERTAIN|EXCLUDED|OPEN) {NAME}\n|POSSIBLE {NAME}\n{RUN}"
# What goes with a status, with 0 for each command, and with 11 for `twin` and `verdicts`.
OUTPUTS = {
    3: r"LOAD [123]\n",
    5: r"MODEL \d+ [1-8]\n",
    6: r"LOG \d+ [1-7]\n",
    7: r"(?:RUN|CNF|LRAT) \d+ [1-8]\n",
    8: r"(?:LONG [123]|LARGE \d+)\n",
    10: r"NONE \d+\n",
    11: rf"UNDECIDED (?:0 -\n|\d+ \d+\n{RUN})",
    12: rf"(?:MANY 255|DEAR 1000)\n{RUN}",
    13: r"REJECTED (?:STUCK \d+|ALARM \d+|MISSING \S+|ORDER \S+ \S+|WIDE \d+|\d+ [1-4])\n",
    14: r"NOTHING\n",
    15: r"COST \d+ [1-8]\n",
    16: r"NOFAULT\n",
    17: rf"AMBIGUOUS \d+\nfaulty\n{RUN}healthy\n{RUN}",
}
UNDECIDED = {"twin": r"UNDECIDED\n", "verdicts": rf"{OUTPUTS[11]}|EXPLAINED \d+\n{RUN}(?:{VERDICT})*"}
ANSWERS = {
    "show": r"des 1\n(?:[^\n]+\n)*",
    "diagnose": rf"EXPLAINED \d+\n{RUN}",
    "cnf": r"p cnf \d+ \d+\n(?:[^\n]*0\n)*",
    "proof": r"c cnf (?:\d+|any)\n(?:[^\n]*0\n)*",
    "session": rf"(?:(?:{FIRST}|{STEP})\n)*",
    "trace": r"RAN \d+\n",
    "replay": r"ACCEPTED \d+\n",
    "check": r"VERIFIED\n",
    "twin": r"CLEAR \d+\n",
    "cheapest": rf"CHEAPEST \d+\n{RUN}",
    "verdicts": rf"EXPLAINED \d+\n{RUN}(?:{VERDICT})*",
}


def put(path, pieces):
    """Writes a text piece by piece in a process of its own, so that this one stays small: a child's peak of memory begins with its parent's."""
    child = os.fork()
    if child == 0:
        with open(path, "wb") as it:
            it.writelines(pieces())
        os._exit(0)
    if os.waitpid(child, 0)[1]:
        sys.exit(f"{path} could not be written")
    return os.path.getsize(path)


def told(program, words, folder):
    """The status of a run, seconds of the processor, MiB at the peak, and whether the status and the output are such as they may be."""
    with open(os.path.join(folder, "out"), "w+b") as out:
        child = subprocess.Popen(["sh", "-c", LIMITED, "", program, *words], cwd=folder, stdin=subprocess.DEVNULL, stdout=out, stderr=subprocess.DEVNULL)
        _, status, usage = os.wait4(child.pid, 0)
        status = os.waitstatus_to_exitcode(status)
        out.seek(0)
        # (of a long output the front is looked at)
        front = out.read(2**16).decode("ascii", errors="replace")
    if len(front) == 2**16:
        front = front[:front.rindex("\n") + 1] if "\n" in front else front
    command = words[0]
    # (out of memory, a session and `verdicts` have put whole replies, and another command nothing)
    pattern = ANSWERS[command] if status == 0 else OUTPUTS.get(status, "")
    if status == 9 and command in ["session", "verdicts"]:
        pattern = rf"(?:{ANSWERS[command]})?"
    if status == 11:
        pattern = UNDECIDED.get(command, pattern)
    is_well = status in STATUSES[command] + EVERYWHERE and re.fullmatch(pattern, front) is not None
    return status, usage.ru_utime + usage.ru_stime, usage.ru_maxrss / 1024, is_well


def pool(program, folder, kind):
    """The well-formed texts of this kind in the cases."""
    found = []
    for text in texts_of_cases(ENDS[kind]):
        if len(text) < 20_000:
            put(os.path.join(folder, TEXT), lambda: [text])
            if told(program, READERS[kind][0], folder)[0] not in [5, 6, 7]:
                found.append(text)
    return found


def texts_of_cases(end):
    """The files of the cases whose names have this end: those in the folders, and those in the transcripts."""
    for folder in sorted(glob.glob(os.path.join(CASES, "*", ""))):
        for path in sorted(glob.glob(f"{folder}*{end}")):
            yield cases.read(path)
        for name, text in cases.written(folder):
            if name.endswith(end):
                yield text


def bytes_drawn(draw, kind):
    return draw.randbytes(draw.choice([0, 1, 2, 10, 100, 1_000, 10_000]))


def signs_drawn(draw, kind):
    words = SIGNS["log" if kind == "script" else kind].split()
    start = {"model": b"des 1\n", "formula": b"p cnf 2 1\n", "run": b"run 2\n"}.get(kind, b"") if draw.random() < 0.7 else b""
    return start + b"".join(draw.choice(words) + draw.choice([b" ", b" ", b"\n", b"", b",", b"\r\n"]) for _ in range(draw.choice([1, 5, 50, 500])))


def spliced(draw, texts):
    """A text after one to three changes: of its bytes, or of whole lines, which may well leave it well-formed."""
    text = draw.choice(texts)
    for _ in range(draw.randint(1, 3)):
        other = draw.choice(texts)
        if draw.random() < 0.5:
            text = lines_changed(draw, text.splitlines(True), other.splitlines(True))
        else:
            text = bytes_changed(draw, bytearray(text), other)
    return text[:100_000]


def bytes_changed(draw, text, other):
    """Cut, spliced with another, a piece taken out or repeated, or a bit turned."""
    at, to = sorted(draw.randint(0, len(text)) for _ in range(2))
    way = draw.randrange(5)
    if way == 0:
        text = text[:at]
    elif way == 1:
        text = text[:at] + other[draw.randint(0, len(other)):]
    elif way == 2:
        del text[at:to]
    elif way == 3:
        text[to:to] = text[at:to] * draw.randint(1, 3)
    elif at < len(text):
        text[at] ^= 1 << draw.randrange(8)
    return bytes(text)


def lines_changed(draw, lines, other):
    """A line taken out, or one of another text put in, or two in the place of each other."""
    at, to = draw.randint(0, len(lines)), draw.randint(0, len(lines))
    way = draw.randrange(3)
    if way == 0:
        del lines[at:at + 1]
    elif way == 1 and other:
        lines.insert(at, draw.choice(other))
    elif max(at, to) < len(lines):
        lines[at], lines[to] = lines[to], lines[at]
    return b"".join(lines)


def filled(front, piece, end=b"", size=MOST):
    """Pieces between a front and an end, so many that the text has at most this size, and that it comes near it."""
    def pieces():
        yield front
        count = max(0, size - len(front) - len(end)) // len(piece)
        many = max(1, 2**20 // len(piece))
        for _ in range(count // many):
            yield piece * many
        yield piece * (count % many)
        yield end
    return pieces


def lines_of(front, line, count):
    """A front, and then so many lines, that of a number each."""
    def pieces():
        yield front
        for start in range(0, count, 10_000):
            yield b"".join(line(number) for number in range(start, min(count, start + 10_000)))
    return pieces


# A component with a state and one transition.
LOOP = b"des 1\ncomponent p\nstate s init\ntrans s a s\n"
DIAGNOSE, SHOW = ["diagnose", TEXT, "log", "1", "1000"], ["show", TEXT]


def transitions():
    """50,000 transitions of one component with 256 states."""
    states = b"".join(b"state s%d%s\n" % (state, b" init" * (state == 0)) for state in range(256))
    return lines_of(b"des 1\ncomponent p\n" + states, lambda it: b"trans s%d a s%d\n" % (it // 256, it % 256), 50_000)


def events(mark, others, count=4_000):
    """So many events that touch one component, 1,800 of them with a mark of their own."""
    return lines_of(LOOP, lambda it: b"event e%d%s : p.a\n" % (it, mark if it < 1_800 else others), count)


def devices(count, seen):
    """Devices of one state, each with events that are seen; the first has a fault."""
    def device(it):
        events = b"".join(b"event e%d-%d alarm A%d : d%d.a\n" % (it, number, number, it) for number in range(seen))
        return b"component d%d\nstate s init\ntrans s a s\n%s" % (it, events + (b"event jam fault : d0.a\n" if it == 0 else b""))
    return lines_of(b"des 1\n", device, count)


def alarms(labels_of, end=b""):
    """2,000 alarms without an order, each with labels by its number."""
    def pieces():
        yield from lines_of(b"", lambda it: b"alarm,a%d,%s\n" % (it, labels_of(it)), 2_000)()
        yield end
    return pieces


def label(it):
    """One of the labels of the plant with 64 of them."""
    return b"T%063d" % (it % 64)


def all_labels(_):
    return b"|".join(map(label, range(64)))


def large():
    """The large texts: what is large about them, the kind of text, the command, and the text."""
    yield "a line of 16 MiB", "model", SHOW, filled(b"des 1\n#", b"x")
    yield "a line of 16 MiB", "model", SHOW, filled(b"des 1\ncomponent ", b"x")
    yield "a line of 16 MiB", "model", SHOW, filled(b"", b"\0")
    yield "a line of 16 MiB", "model", SHOW, filled(b"des 1\n", b" ")
    yield "a line of 16 MiB", "model", SHOW, filled(LOOP + b"event e :", b" p.a")
    yield "a line of 16 MiB", "model", SHOW, filled(LOOP + b"event e : ", b".")
    for kind in ["log", "script"]:
        for front, piece in [(b"", b","), (b'"', b"x"), (b"", b'"'), (b"alarm,a,T", b"|T"), (b"alarm,a,", b"|"), (b"alarm,", b"x"), (b"ask", b",")]:
            yield "a line of 16 MiB", kind, READERS[kind][0], filled(front, piece)
    for words in READERS["run"]:
        for front, piece in [(b"run 1\n", b"x"), (b"run 1\n", b" jam"), (b"run ", b"1"), (b"", b"\t"), (b"run 0\n#", b"x"), (b"run 1\n!", b"!")]:
            yield "a line of 16 MiB", "run", words, filled(front, piece)
    for front, piece, end in [(b"p cnf 2 1\n", b"1 -2 ", b"0\n"), (b"p cnf 2 1\n", b"1", b" 0\n"), (b"p cnf ", b"9", b""), (b"c", b"x", b""), (b"p cnf 2 5000000\n", b"0 ", b"0\n")]:
        yield "a line of 16 MiB", "formula", READERS["formula"][0], filled(front, piece, end)
    for front, piece, end in [(b"5 ", b"2 ", b"0 1 2 0\n"), (b"5 2 0 ", b"1 ", b"0\n"), (b"5 d ", b"1 ", b"0\n"), (b"", b"5", b" 0 1 0\n"), (b"5 2 0 ", b"-1 ", b"0\n")]:
        yield "a line of 16 MiB", "proof", READERS["proof"][0], filled(front, piece, end)
    for kind, readers in READERS.items():
        yield "16 MiB of lines without anything", kind, readers[0], filled(b"", b"\n")
        yield "16 MiB of drawn bytes", kind, readers[0], lambda: [random.Random(7).randbytes(MOST)]
    for words in [SHOW, DIAGNOSE]:
        yield "50,000 transitions", "model", words, transitions()
        yield "4,000 events of one device", "model", words, events(b" alarm Z", b" fault")
        yield "4,000 events of one device", "model", words, events(b" alarm T", b" fault")
    for mark, others in [(b" fault", b" alarm T"), (b" alarm T fault", b""), (b" fault", b"")]:
        yield "3,000 events of one device, 1 step", "model", ["twin", TEXT, "e0", "1", "0", "1000"], events(mark, others, 3_000)
    # (questions of a size below the limit, with 36, 360 and 960 million literals)
    yield "40 devices with 9 events that are seen, 1,000 steps, AFTER 100", "model", ["twin", TEXT, "jam", "1000", "100", "1000"], devices(40, 9)
    yield "40 devices with 9 events that are seen, 1,000 steps, AFTER 1,000", "model", ["twin", TEXT, "jam", "1000", "1000", "1000"], devices(40, 9)
    yield "960 devices with an event that is seen, 1,000 steps, AFTER 1,000", "model", ["twin", TEXT, "jam", "1000", "1000", "1000"], devices(960, 1)
    yield "a word of 100,000 signs", "model", ["twin", TEXT, "x" * 100_000, "3", "1", "1000"], lines_of(LOOP + b"event e fault : p.a\n", None, 0)
    yield "16 MiB of components", "model", SHOW, lines_of(b"des 1\n", lambda it: b"component c%061d\nstate s init\n" % it, 180_000)
    yield "16 MiB of events", "model", SHOW, lines_of(LOOP, lambda it: b"event e%061d : p.a\n" % it, 220_000)
    for kind, end in [("log", b""), ("script", b"ask\n")]:
        command = READERS[kind][0][0]
        for what, model, labels_of, every in [("with one label", "model", lambda _: b"T", ["3", "100", "1000"]), ("that no event tells", "model", lambda _: b"Z", ["1000"]),
                                              ("with one of 64 labels", "labelled", label, ["31", "32"]), ("with 64 labels of 64 signs", "labelled", all_labels, ["1", "2"])]:
            for steps in every:
                yield f"2,000 alarms {what}, without an order, {steps} steps", kind, [command, model, TEXT, steps, "1000"], alarms(labels_of, end)
    yield "4,000,000 events", "run", READERS["run"][0], filled(b"run 4000000\n", b"beat\n", size=12 + 5 * 4_000_000)
    yield "4,000,000 events", "run", READERS["run"][1], filled(b"run 4000000\n", b"beat a1\n", size=12 + 8 * 4_000_000)
    yield "4,000,000 events", "run", READERS["run"][1], filled(b"run 4000000\njam\n", b"jam\n", size=12 + 4 * 4_000_000)
    yield "4,000,000 events with names of 64 signs", "run", ["trace", "long", TEXT], lines_of(b"run 4000000\n", lambda it: b"e" * 64 + b" a%063d\n" % it, 4_000_000)
    yield "100,000,000 variables", "formula", READERS["formula"][0], filled(b"p cnf 100000000 1\n100000000 -99999999 0\n", b"c\n", size=100)
    yield "100,000,000 variables", "formula", READERS["formula"][0], filled(b"p cnf 100000000 100000000\n", b"1 0\n", size=26 + 4 * 100_000_000)
    yield "100,000,000 variables", "formula", READERS["formula"][0], filled(b"p cnf 100000000 50000000\n", b"-99999999 0\n", size=536_870_912)


COMMENT = b"# a comment of 32 signs, no more\n"


def well(kind, size):
    """A well-formed text of this kind and about this size."""
    def unit(it):
        return (b"component u%d\nstate ok init\nstate bad\ntrans ok jam bad\ntrans bad fix ok\nevent jam-%d fault : u%d.jam\nevent fix-%d alarm F-%d : u%d.fix\n" % (it, it, it, it, it, it))
    if kind == "model":
        units = b"des 1\n" + b"".join(unit(it) for it in range(min(900, size // 120)))
        return filled(units, COMMENT, size=size)
    if kind in ["log", "script"]:
        rows = b"".join(b"alarm,a%d,Z\n" % it for it in range(min(2_000, size // 20)))
        return filled(rows, b",,,,,,,\n", size=size)
    if kind == "run":
        count = min(4_000_000, size // 5)
        front = b"run %d\n" % count
        return lambda: itertools.chain(filled(front, b"beat\n", size=len(front) + 5 * count)(), filled(b"", COMMENT, size=size - 5 * count)())
    if kind == "formula":
        count = min(100_000_000, size // 7)
        front = b"p cnf 2 %d\n" % count
        return filled(front, b"1 -2 0\n", size=len(front) + 7 * count)
    if kind == "costs":
        return filled(b"costs 1\ncost jam 7\n", COMMENT, size=size)
    return filled(b"5 2 0 1 2 0\n6 0 5 3 4 0\n", b"1 d 7 8 9 0\n", size=size)


def cut_down(program, words, folder, text, budget=200):
    """The text, cut as long as the program still doesn't end as it may."""
    piece = len(text) // 2
    while piece and budget:
        at = 0
        while at < len(text) and budget:
            shorter, budget = text[:at] + text[at + piece:], budget - 1
            put(os.path.join(folder, TEXT), lambda: [shorter])
            if told(program, words, folder)[3]:
                at += piece
            else:
                text = shorter
        piece //= 2
    return text


class Kind:
    """What was seen of a kind of text."""

    def __init__(self, name, kind):
        self.name, self.kind = name, kind
        self.statuses, self.wrong, self.cut, self.dearest = {}, 0, 0, (-1.0, 0.0, 0, [])

    def saw(self, program, folder, words, size):
        status, seconds, memory, is_well = told(program, words, folder)
        # (the limit counts a little more than what is told of the run)
        if status < 0 and seconds > 0.9 * SECONDS:
            status, is_well, self.cut = CUT, True, self.cut + 1
        self.statuses[status] = self.statuses.get(status, 0) + 1
        if not is_well:
            self.wrong += 1
            print(f"{self.name}, {' '.join(words)}: status {status} after {seconds:.1f} seconds, or an output that doesn't go with it, on {size} bytes")
        self.dearest = max(self.dearest, (seconds, memory, size, words))
        return is_well

    def tell(self, program, folder):
        seconds, memory, size, words = self.dearest
        put(os.path.join(folder, TEXT), well(self.kind, size))
        # (its faults have other names, and as many events as it has may make too large a question)
        status, their_seconds, their_memory, is_well = told(program, words[:2] + ["jam-0"] + words[3:] if words[0] == "twin" else words, folder)
        self.wrong += not is_well
        statuses = ", ".join(f"{it} ({count})" for it, count in sorted(self.statuses.items(), key=lambda it: (it[0] == CUT, str(it[0]).zfill(3))))
        theirs = ["`LARGE`", ""] if status == 8 else [f"{their_seconds:.2f}", f"{their_memory:.0f}"]
        cells = [self.name, self.kind, statuses, f"`{words[0]}`, {size:,}", f"{seconds:.2f}", f"{memory:.0f}", *theirs]
        print("| " + " | ".join(cells) + " |", flush=True)


def small(program, folder, count, draw):
    """The small texts, drawn. Returns how many runs ended otherwise than they may."""
    wrong = 0
    for name in ["drawn bytes", "drawn signs", "cut and spliced"]:
        for kind, readers in READERS.items():
            seen, texts = Kind(name, kind), pool(program, folder, kind) if name == "cut and spliced" else []
            for number in range(count):
                text = {"drawn bytes": bytes_drawn, "drawn signs": signs_drawn}.get(name, lambda draw, kind: spliced(draw, texts))(draw, kind)
                words = readers[number % len(readers)]
                with open(os.path.join(folder, TEXT), "wb") as it:
                    it.write(text)
                if not seen.saw(program, folder, words, len(text)):
                    print(f"the smallest such text: {cut_down(program, words, folder, text)[:300]!r}")
            seen.tell(program, folder)
            wrong += seen.wrong
    return wrong


def main(program, count=200, seed=7):
    begun = time.monotonic()
    with tempfile.TemporaryDirectory(prefix="hostile-") as folder:
        for name, path in FILES.items():
            with open(os.path.join(CASES, path), "rb") as it:
                text = it.read()
            with open(os.path.join(folder, name), "wb") as it:
                it.write(text)
        for name, text in [("long", LONG), ("labelled", LABELLED)]:
            with open(os.path.join(folder, name), "w", encoding="ascii") as it:
                it.write(text)
        print("| Texts | Kind | Statuses (runs) | Dearest: command, bytes | Seconds | MiB | Well-formed: seconds | MiB |")
        print("|---|---|---|---|---|---|---|---|")
        wrong, cut = small(program, folder, count, random.Random(seed)), 0
        for (name, kind, _), texts in itertools.groupby(large(), key=lambda it: (it[0], it[1], it[2][0])):
            seen = Kind(name, kind)
            for _, _, words, pieces in texts:
                seen.saw(program, folder, words, put(os.path.join(folder, TEXT), pieces))
            seen.tell(program, folder)
            wrong, cut = wrong + seen.wrong, cut + seen.cut
    print(f"\n{wrong} runs ended otherwise than they may, and {cut} had no answer within {SECONDS} seconds; {time.monotonic() - begun:.0f} seconds by the clock")
    return 1 if wrong else 0


if __name__ == "__main__":
    sys.exit(main(os.path.abspath(sys.argv[1]), *map(int, sys.argv[2:])))
