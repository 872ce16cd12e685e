"""Lists all sets of faults by which the fewest faults explain a log, by asking `diagnose` again and again.

    python3 tools/sets.py [--as-written] PROGRAM MODEL LOG N BUDGET [MORE]

PROGRAM is the compiled program, crates/diagnose_cli/out/diagnose_cli, and MODEL to BUDGET are what `diagnose` is called with. Each line is a set: how many faults, and the fault
events by name, `! ALARM` for a false alarm, each as often as it happens.

The program finds one explanation. Any other set with as few faults lacks some fault of the first one, or has it less often; so for each of its faults the question is asked again
of a model that allows this fault one time less, and so on from each answer: a tree of hitting sets (Reiter 1987). An event that isn't allowed at all is left out of the model, one that is allowed
a few times counts them in a component of its own, and an alarm that isn't to be set aside is no longer doubtful.

Each question is asked of its model as refine.py writes it, with the same answer, where that adds components and isn't too large; with --as-written none is.

With MORE, a number, the sets with up to so many faults more are listed too, as far as no other set is part of them. Sets are those of explanations within N parallel steps, and there may be
very many: the number of questions grows with them, and a terminal shows on standard error how far it is. This script is no part of what is proved; each of its questions is answered by the program.

Status 0: all sets were listed, 2: the call is wrong, and otherwise that of the program's reply, which goes to standard error: 10 (nothing explains the log), 11 (a budget was spent, and
what is printed isn't all), and so on.
"""
import csv
import io
import os
import sys
from collections import Counter, deque

sys.path.insert(0, os.path.dirname(os.path.abspath(__file__)))
from program import Program, Refused, Text  # noqa: E402
from progress import Progress  # noqa: E402
from texts import Event, as_written_in, plural  # noqa: E402

FALSE = "!"
PARTS = 16


class Ended(Exception):
    """A reply that is neither an explanation nor `NONE`."""

    def __init__(self, status, reply):
        super().__init__(reply)
        self.status = status


def rows_of(log):
    """The rows of a log, which is a text or the path of one."""
    if isinstance(log, Text):
        return list(csv.reader(io.StringIO(log, newline="")))
    with open(log, encoding="utf-8-sig", newline="") as it:
        return list(csv.reader(it))


class Question:
    """The question of `diagnose`, asked of the model and the log (paths, or texts) with limits on how often a fault may happen."""

    def __init__(self, program, model, log, steps, budget, as_written=False):
        self.program, self.steps, self.budget = Program(program, as_written=as_written), steps, budget
        try:
            self.model = [line.split() for line in self.program.show(model).split("\n") if line]
        except Refused as fault:
            raise Ended(fault.ending, str(fault)) from fault
        self.log = rows_of(log)
        self.faults = {words[1] for words in self.model if words[0] == "event" and Event(words).is_fault}
        self.counters = self.counter_names()

    def counter_names(self):
        """A name for each fault event that no component has."""
        taken = {words[1] for words in self.model if words[0] == "component"}
        free = (f"counter-{number}" for number in range(len(taken) + len(self.faults)))
        names = (name for name in free if name not in taken)
        return {fault: next(names) for fault in sorted(self.faults)}

    def limited_model(self, limits):
        """The model in which each of these faults may happen so often at most."""
        lines, counters = [], []
        for words in self.model:
            limit = limits.get(words[1]) if words[0] == "event" else None
            if limit != 0:
                lines.append(" ".join(words + ([f"{self.counters[words[1]]}.count"] if limit else [])))
            if limit and len(words[words.index(":") + 1:]) == PARTS:
                raise Ended(2, f"{words[1]} happens more than once and has {PARTS} parts, so that none can be added to count it")
            if limit:
                counters += [f"component {self.counters[words[1]]}"] + [f"state n{number}" + (" init" if number == 0 else "") for number in range(limit + 1)]
                counters += [f"trans n{number} count n{number + 1}" for number in range(limit)]
        return Text("\n".join(lines[:1] + counters + lines[1:]) + "\n")

    def limited_log(self, limits):
        """The log in which the alarms that aren't to be set aside are no longer doubtful."""
        rows = [["alarm"] + fields[1:] if fields[:1] == ["maybe"] and " ".join([FALSE] + fields[1:2]) in limits else fields for fields in self.log]
        return Text("".join(",".join(fields) + "\n" for fields in rows))

    def ask(self, limits):
        """The faults of a best explanation within these limits; None if there is none."""
        try:
            (reply,), status = self.program.asked("diagnose", self.limited_model(limits), self.limited_log(limits), self.steps, self.budget)
        except Refused as fault:
            raise Ended(fault.ending, str(fault)) from fault
        if status == 10:
            return None
        if status != 0:
            raise Ended(status, reply.first())
        return tuple(sorted(step.line() if step.is_false else step.event for step in reply.run if step.is_false or step.event in self.faults))


def is_part(one, other):
    """Whether a set is part of another one, and not the same."""
    return one != other and not Counter(one) - Counter(other)


def sets(question, found, more=0, say=lambda words: None):
    """Puts all sets into `found`: those with the fewest faults, and those with up to so many more. Says meanwhile how far it is."""
    first = question.ask({})
    most = -1 if first is None else len(first) + more
    todo, seen = deque([({}, first)]), set()
    while todo:
        limits, faults = todo.popleft()
        say(f"{plural(len(seen) + 1, 'question')} asked, {plural(len(todo), 'answer')} to follow up, {plural(len(found), 'set')} found")
        if faults is None or len(faults) > most:
            continue
        found.add(faults)
        for fault, times in sorted(Counter(faults).items()):
            fewer = {**limits, fault: times - 1}
            key = tuple(sorted(fewer.items()))
            if key not in seen:
                seen.add(key)
                todo.append((fewer, question.ask(fewer)))
    return first is not None


def main(words):
    words, as_written = as_written_in(words)
    if len(words) not in (5, 6) or not os.access(words[0], os.X_OK) or not all(it.isdigit() for it in words[3:]):
        sys.stderr.write(__doc__)
        return 2
    found, status, progress, why = set(), 0, Progress(), ""
    try:
        if not sets(Question(*words[:5], as_written), found, int(words[5]) if len(words) > 5 else 0, progress.say):
            raise Ended(10, f"NONE {words[3]}")
    except Ended as ended:
        status, why = ended.status, f"{ended}\n"
    except (OSError, UnicodeDecodeError) as fault:
        status, why = 3, f"{words[2]}: {fault}\n"
    progress.clear()
    sys.stderr.write(why)
    least = [faults for faults in found if not any(is_part(other, faults) for other in found)]
    for faults in sorted(least, key=lambda it: (len(it), it)):
        print(len(faults), *faults)
    return status


if __name__ == "__main__":
    sys.exit(main(sys.argv[1:]))
