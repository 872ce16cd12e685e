"""Says of a model, before there is a log, what each alarm takes, which events can't happen, and how soon each fault is known, by asking the program.

    python3 tools/causes.py PROGRAM MODEL N AFTER BUDGET

PROGRAM is the compiled program, crates/diagnose_cli/out/diagnose_cli, N at most 1,000 and AFTER 1 to 250. All that is said is about runs within N parallel steps, from the initial states of the model.

Of each alarm: the least number of faults before it or with it, and all sets of so many, as tools/sets.py lists them. `diagnose` is asked about a log with this alarm alone, of the model in which no other label is seen.
Of each event: whether it can happen at all, asked in the same way. Of each fault: the alarms that point to it, which are those with a set that has it; by which alarm after it, up to AFTER, it is known that a fault happened (no run without a fault looks alike), and
known that it was this one (no run with another single fault does); `-` if not even by the last. `twin` is asked of the model with this fault alone, and of the model with one fault in all. Where so many alarms can't follow
the fault within N steps, nothing is known, and a `?` says so. A terminal shows on standard error which of them is asked about. Its many questions are small, so the models are asked about as they are written. This script is no part of what is proved; each of its questions is answered by the program.

Status 0: all was answered, 11: a budget was spent, and the line says so, and otherwise that of the program on the model.
"""
import os
import sys

sys.path.insert(0, os.path.dirname(os.path.abspath(__file__)))
from program import Program, Refused, Text  # noqa: E402
from progress import Progress  # noqa: E402
from sets import Ended, Question, sets  # noqa: E402
from texts import Event, Wrong, called, plural  # noqa: E402

LABEL, LOG = "seen", Text("alarm,a1,seen\n")
STEPS, PARTS, COUNTED, SHOWN = 1000, 16, 250, 12
UNKNOWN = "UNDECIDED"


class Plant:
    """The lines of a model, and models that differ from it."""

    def __init__(self, text):
        self.lines = [line.split() for line in text.split("\n") if line]
        self.events = {words[1]: Event(words) for words in self.lines if words[0] == "event"}
        self.taken = {words[1] for words in self.lines if words[0] in ("component", "event")}

    def labels(self):
        return list(dict.fromkeys(event.label for event in self.events.values() if event.label))

    def faults(self):
        return [name for name, event in self.events.items() if event.is_fault]

    def free(self, name):
        """A name that no component and no event has."""
        return next(it for it in [name] + [f"{name}-{number}" for number in range(len(self.taken))] if it not in self.taken)

    def changed(self, seen=None, without=(), added=(), copies=lambda event: [[]]):
        """The model in which the events of `seen` alone raise an alarm, if it is given, without some events, and with further components. Of each event there are as many copies as lists of further parts."""
        lines = [self.lines[0], *map(str.split, added)]
        for words in self.lines[1:]:
            if words[0] != "event":
                lines.append(words)
            elif words[1] not in without:
                lines += self.copied(words, seen, copies(self.events[words[1]]))
        return Text("\n".join(map(" ".join, lines)) + "\n")

    def copied(self, words, seen, copies):
        """The lines of an event with further parts. All copies but the first have names of their own."""
        name, parts = words[1], words[words.index(":"):]
        label = self.events[name].label if seen is None else LABEL if name in seen else None
        marks = (["alarm", label] if label else []) + ["fault"] * self.events[name].is_fault
        for place, further in enumerate(copies):
            if len(parts[1:] + further) > PARTS:
                raise Wrong(f"{name} has {plural(len(parts) - 1, 'part')}, so that none can be added to tell when it happens")
            yield ["event", self.free(f"copy-{self.place(name)}") if place else name] + marks + parts + further

    def place(self, event):
        return list(self.events).index(event)

    def seeing(self, events):
        return self.changed(seen=events)

    def alone(self, fault):
        """The model with no other fault."""
        return self.changed(without={it for it in self.faults() if it != fault})

    def one_in_all(self):
        """The model in which one fault may happen, once."""
        once = self.free("once")
        added = [f"component {once}", "state fresh init", "state struck", "trans fresh strike struck"]
        return self.changed(added=added, copies=lambda event: [[f"{once}.strike"] * event.is_fault])

    def followed(self, fault, count):
        """The model in which an alarm is raised when so many alarms came after the fault. They are counted as by `twin`: a step has one alarm at most, and that of the fault's own step came with it."""
        after, turn = self.free("after"), self.free("turn")
        added = [f"component {turn}", "state open init", "trans open take open", f"component {after}", "state before init", *(f"state n{number}" for number in range(count + 1)), "trans before strike n0"]
        added += [f"trans n{number} see n{min(count, number + 1)}" for number in range(count + 1)] + [f"trans n{number} strike n{number}" for number in range(count + 1)] + [f"trans n{count} tell n{count}"]

        def copies(event):
            takes = [f"{turn}.take"] * (event.label is not None)
            return [takes + [f"{after}.strike"] * (event.name == fault)] + [takes + [f"{after}.see"]] * bool(takes)
        return Text(self.changed(seen=(), added=added, copies=copies) + f"event {self.free('tell')} alarm {LABEL} : {after}.tell\n")


class Asked:
    """The questions about a model, and whether one of them was left open."""

    def __init__(self, program, plant, n, after, budget, progress):
        self.program, self.plant, self.n, self.after, self.budget, self.is_open = program, plant, n, after, budget, False
        self.progress = progress

    def each(self, what, names):
        """These names, of which each is shown while it is asked about."""
        for place, name in enumerate(names, 1):
            self.progress.say(f"{what} {place} of {len(names)}: {name}")
            yield name
        self.progress.clear()

    def least(self, model, n=None):
        """How many faults it takes at least until the alarm is raised: a number, None if nothing raises it, or that it is unknown."""
        answer = self.program.diagnose(model, LOG, n or self.n, self.budget)
        if answer.kind == UNKNOWN:
            self.is_open = True
            return UNKNOWN
        return None if answer.kind == "NONE" else answer.least

    def behind(self, label):
        """The least number of faults that an alarm takes, and all sets of so many."""
        model = self.plant.seeing({name for name, event in self.plant.events.items() if event.label == label})
        found = set()
        try:
            if not sets(Question(self.program.path, model, LOG, self.n, self.budget, self.program.as_written), found):
                return None, []
        except Ended as ended:
            if ended.status != 11:
                raise Refused(ended.status, str(ended)) from ended
            self.is_open = True
            return UNKNOWN, sorted(found)
        return len(min(found, key=len)), sorted(found)

    def hidden(self, model, fault, after):
        """Whether a run without the fault looks like one with it and so many alarms after it; None if it is unknown."""
        kind = self.program.twin(model, fault, self.n, after, self.budget).kind
        self.is_open |= kind == UNKNOWN
        return {"AMBIGUOUS": True, "CLEAR": False}.get(kind)

    def known_by(self, model, fault):
        """By which alarm after it a fault is known: a number, `-` if by none, `?` if so many alarms can't follow it."""
        low, high = 1, self.after
        last = self.hidden(model, fault, high)
        if last is not False:
            return "-" if last else UNKNOWN
        # A fault that is known by some alarm is known by each later one.
        while low < high:
            middle = (low + high) // 2
            if self.hidden(model, fault, middle) is False:
                high = middle
            else:
                low = middle + 1
        follow = self.least(Plant(model).followed(fault, high), min(STEPS, self.n + 1))
        return str(high) if isinstance(follow, int) else "?" if follow is None else UNKNOWN


def table(rows):
    """Rows with their columns one below the other."""
    wide = [max(len(row[place]) for row in rows) for place in range(len(rows[0]) - 1)]
    return "\n".join("  ".join([f"{cell:{width}}" for cell, width in zip(row, wide)] + [row[-1]]).rstrip() for row in rows)


def said_of(least):
    return "never" if least is None else str(least)


def named(found):
    """Sets of faults in words."""
    said = [" ".join(it) for it in found if it]
    return " | ".join(said[:SHOWN] + [f"and {len(said) - SHOWN} more"] * (len(said) > SHOWN))


def listed(asked):
    """What is said of alarms, events and faults, part by part."""
    plant = asked.plant
    rows, pointed = [["alarm", "faults", "which"]], {fault: [] for fault in plant.faults()}
    for label in asked.each("alarm", plant.labels()):
        least, found = asked.behind(label)
        rows.append([label, said_of(least), named(found)])
        for fault in {fault for faults in found for fault in faults}:
            pointed[fault].append(label)
    yield table(rows)
    never = [event for event in asked.each("event", plant.events) if asked.least(plant.seeing({event})) is None]
    if never:
        yield f"can't happen within {asked.n} steps: {', '.join(never)}"
    rows = [["fault", "known", "told from the others", "alarms that point to it"]]
    once = plant.one_in_all()
    for fault in asked.each("fault", [it for it in pointed if it not in never]):
        rows.append([fault, asked.known_by(plant.alone(fault), fault), asked.known_by(once, fault), " ".join(pointed[fault]) or "-"])
    if len(rows) > 1:
        yield table(rows)


def main(words):
    if len(words) != 5 or not all(it.isdecimal() for it in words[2:]) or int(words[2]) > STEPS or not 1 <= int(words[3]) <= COUNTED:
        sys.stderr.write(__doc__)
        return 2
    n, after, budget = map(int, words[2:])
    program, progress = Program(words[0], as_written=True), Progress()
    try:
        asked = Asked(program, Plant(program.show(words[1])), n, after, budget, progress)
        for place, part in enumerate(listed(asked)):
            print("\n" * bool(place) + part, flush=True)
    except Refused as fault:
        progress.clear()
        print(fault, file=sys.stderr)
        return fault.ending
    except OSError as fault:
        raise Wrong(f"{fault.filename}: {fault.strerror}") from fault
    return 11 if asked.is_open else 0


if __name__ == "__main__":
    called(main)
