"""Asks again when a log has grown, and prints what is new.

    python3 tools/watch.py [--as-written] PROGRAM MODEL LOG N BUDGET KEPT [EVERY]

PROGRAM is the compiled program, crates/diagnose_cli/out/diagnose_cli, and MODEL to BUDGET are what `verdicts` is called with. N may be `+K`: K more than the log has alarms, at most 1,000. A line that isn't finished yet, since
somebody is writing it, is left for the next time.

The answer is kept in the file KEPT, as one JSON object (beside it stands KEPT.lock), and what is printed is how it differs from the one that was kept before: nothing if the log or the answer is the same. So a job that a scheduler calls every minute
says something when something changed. With EVERY, a number of seconds, this script looks again after so many, until it is told to end.

It asks with a part of BUDGET first and then with four times as much, until the question is decided or BUDGET is spent; so it takes at most a third longer than the last call, which may take 600 seconds. On a terminal it says
meanwhile on standard error what it is asking, for how long, and between which numbers the answer lies.

It asks about the model as refine.py writes it, which is answered sooner and with the same answers, where that adds components and isn't too large; with --as-written it asks as written.

If an alarm that was asked about is gone from the log or has other labels, if another call works with the same KEPT, or if KEPT holds something else, that is said on standard error; then nothing is asked, and KEPT stays as it is.
This script is no part of what is proved.

Status: that of the program (0, 10 and so on, as in docs/scripts.md), of the answer that was kept if the log is the same; 124 if it took too long; 1 if nothing was asked, 2 if the words are wrong.
"""
import csv
import datetime
import fcntl
import hashlib
import io
import json
import os
import re
import signal
import sys
import time

sys.path.insert(0, os.path.dirname(os.path.abspath(__file__)))
from program import Late, Program, Refused, Text, plain  # noqa: E402
from progress import Progress  # noqa: E402
from texts import Wrong, as_written_in, called, plural  # noqa: E402

SECONDS, LATE, MOST, FIRST, TIMES = 600, 124, 1000, 1000, 4
# A model that couldn't be read, memory that ran out, a call that was killed: that may be otherwise the next time.
AGAIN = {3, 4, 9, 137}
KINDS = ["certain", "possible", "open", "excluded"]


class Ended(Exception):
    """Somebody told the script to end."""


def end(*_):
    raise Ended


def finished(path):
    """The finished lines of a file."""
    with open(path, "rb") as it:
        text = it.read()
    return text[:text.rfind(b"\n") + 1].decode("utf-8", "surrogateescape")


def alarms_in(text):
    """The alarms of a log, each with its labels as they stand there, up to a place that is no CSV."""
    found = {}
    try:
        for fields in csv.reader(io.StringIO(text.removeprefix("\ufeff"), newline="")):
            if len(fields) > 2 and fields[0] in ("alarm", "maybe"):
                found[fields[1]] = fields[2]
    except csv.Error:
        pass
    return found


def budgets_to(budget):
    """The budgets that are tried, each four times the one before."""
    found = [budget]
    while found[0] // TIMES >= FIRST:
        found.insert(0, found[0] // TIMES)
    return found


def lock_of(path):
    """The open file that keeps others from working with a path as long as it is open."""
    it = open(path, "a", encoding="utf-8")
    try:
        fcntl.flock(it, fcntl.LOCK_EX | fcntl.LOCK_NB)
    except BlockingIOError:
        it.close()
        raise Wrong(f"{path.removesuffix('.lock')}: another call is working with it, so nothing was asked") from None
    return it


class Watch:
    """A log that is watched."""

    def __init__(self, program, model, log, n, budget, kept, as_written=False):
        self.program, self.progress = Program(program, SECONDS, self.wait, as_written), Progress()
        self.model, self.log, self.n, self.budget, self.kept = model, log, n, int(budget), kept
        self.asking, self.began = "", 0.0

    def look(self):
        """Asks if the log is another one, prints what is new, and keeps it; the status."""
        before, text = self.before(), finished(self.log)
        alarms = alarms_in(text)
        gone = next((name for name, labels in before.get("alarms", {}).items() if alarms.get(name) != labels), None)
        if gone is not None:
            how = f"is {alarms[gone]} now and was {before['alarms'][gone]}" if gone in alarms else f"is gone, and was {before['alarms'][gone]}"
            raise Wrong(f"{self.log}: {gone} {how}, so this isn't the log that was asked about. Nothing was asked; remove {self.kept} to begin anew")
        digest = self.digest(text)
        if before.get("digest") == digest and before["status"] not in AGAIN:
            return before["status"]
        after = {"digest": digest, "alarms": alarms} | self.asked(text, len(alarms))
        after["known"] = known_of(after) or before.get("known", {})
        lines = news(before, after)
        if lines:
            heading = f"{after['asked']} {plural(len(alarms), 'alarm')} within {plural(after['n'], 'step')}: {headline(after)}"
            print("\n".join([heading] + ["  " + it for it in lines]), flush=True)
        self.keep(after)
        return after["status"]

    def before(self):
        """What was kept, or nothing if there is no such file."""
        try:
            with open(self.kept, encoding="utf-8") as it:
                found = json.load(it)
            if {"digest", "alarms", "status", "known"} <= found.keys():
                return found
        except FileNotFoundError:
            return {}
        except (ValueError, AttributeError):
            pass
        raise Wrong(f"{self.kept} doesn't hold what this script keeps, so nothing was asked; remove it to begin anew")

    def keep(self, found):
        with open(self.kept + ".new", "w", encoding="utf-8") as it:
            json.dump(found, it)
        os.replace(self.kept + ".new", self.kept)

    def digest(self, text):
        """What the words and the texts of a question are known by."""
        with open(self.model, "rb") as it:
            known = hashlib.sha256(it.read() + b"\0" + text.encode("utf-8", "surrogateescape") + f"\0{self.n} {self.budget}{' as written' * self.program.as_written}".encode())
        return known.hexdigest()

    def asked(self, text, count):
        """What is known now, as it is kept."""
        n = min(MOST, count + int(self.n[1:])) if self.n.startswith("+") else int(self.n)
        found = {"n": n, "asked": datetime.datetime.now().astimezone().isoformat(timespec="seconds")}
        self.began, so_far = time.monotonic(), ""
        try:
            for budget in budgets_to(self.budget):
                self.asking = f"{plural(count, 'alarm')} within {plural(n, 'step')}, budget {budget:,}{so_far}"
                self.wait()
                verdicts = self.program.verdicts(self.model, Text(text), n, budget)
                found |= plain(verdicts)
                if verdicts.status != 11:
                    break
                so_far = f", so far {headline(found)}"
        except Refused as fault:
            found |= {"status": fault.ending, "refused": str(fault)}
        except Late as fault:
            found |= {"status": LATE, "refused": f"{fault}{so_far}"}
        finally:
            self.progress.clear()
        return found

    def wait(self, *_):
        self.progress.say(f"{self.asking}: {time.monotonic() - self.began:.0f} s")


def headline(found):
    """An answer in some words: how many faults, or between which numbers, and how many fault events are open."""
    if "refused" in found:
        return f"no answer: {found['refused']}"
    answer = found["answer"]
    numbers = {"EXPLAINED": [answer.get("least")], "UNDECIDED": [answer.get("least"), answer.get("most", "-")]}.get(answer["kind"], [])
    return " ".join(map(str, [answer["kind"]] + numbers))


def known_of(found):
    """What is known of each fault event, if this is an answer with verdicts."""
    return {} if "refused" in found else {name: kind for kind in KINDS for name in found.get(kind, [])}


def news(before, after):
    """What an answer says that the one before didn't."""
    lines = ["first answer"] if not before else [f"was {headline(before)}"] if headline(before) != headline(after) else []
    was, now = before.get("known", {}), known_of(after)
    for kind in KINDS[:3]:
        lines += [f"{kind}: {name}" + (f", was {was[name]}" if name in was else "") for name, it in now.items() if it == kind and was.get(name) != kind]
    return lines + [f"excluded: {name}, was {it}" for name, it in was.items() if it != "excluded" and now.get(name) == "excluded"]


def again(watch, every):
    """Looks again and again. What is wrong with a text may be mended until the next time."""
    while True:
        try:
            watch.look()
        except Wrong as fault:
            print(fault, file=sys.stderr, flush=True)
        except FileNotFoundError as fault:
            print(f"{fault.filename}: {fault.strerror}", file=sys.stderr, flush=True)
        time.sleep(every)


def main(words):
    words, as_written = as_written_in(words)
    every = words[6] if len(words) == 7 else "1"
    if len(words) not in (6, 7) or not words[3].removeprefix("+").isdecimal() or not words[4].isdecimal() or not re.fullmatch(r"[0-9]+(\.[0-9]+)?", every) or not float(every):
        sys.stderr.write(__doc__)
        return 2
    for name in (signal.SIGINT, signal.SIGTERM):
        signal.signal(name, end)
    watch = Watch(*words[:6], as_written)
    try:
        with lock_of(words[5] + ".lock"):
            return watch.look() if len(words) == 6 else again(watch, float(every))
    except OSError as fault:
        raise Wrong(f"{fault.filename}: {fault.strerror}") from fault
    except Ended:
        return 0


if __name__ == "__main__":
    called(main)
