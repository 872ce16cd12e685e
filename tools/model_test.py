"""Looks whether the variables of printed formulas stand for what tools/model.py says.

    python3 tools/model_test.py PROGRAM

PROGRAM is the compiled program. For each of QUESTIONS all clauses are written again, from the names of the variables and from what docs/variables.md says of the clauses, and compared with
those that `cnf` prints, each as a set of literals and as often as it stands there. So a name that is wrong shows as a clause that isn't there.

Status 0: all are alike, 1: some clause differs.
"""
import itertools
import os
import subprocess
import sys
from collections import Counter

from model import PAIRWISE, Variables, moment, sound_log
from texts import sound_model

EXAMPLES = os.path.join(os.path.dirname(os.path.dirname(os.path.abspath(__file__))), "examples")
# plants, logs, steps and bounds: chains over states, over groups and over matches, doubtful alarms, labels in doubt, no step, no bound
QUESTIONS = [("first", "log", 3, "1"), ("first", "log", 0, "0"), ("tutorial", "log", 6, "1"), ("tutorial", "log", 3, "any"), ("tutorial", "needed", 6, "2"), ("tutorial", "labels", 4, "0"), ("heating", "log", 9, "2"),
             ("propulsion", "log", 5, "3"), ("feeder", "doubtful", 5, "1"), ("ring", "doubtful", 4, "2"), ("grid", "ordered", 6, "3"), ("station", "log", 8, "1")]


class Clauses:
    """The clauses of a question, as sorted literals, written by the names of their variables. A name behind a minus is negated."""

    def __init__(self, model, log, steps, bound):
        self.model, self.log, self.last, self.steps = sound_model(model), sound_log(log), steps, range(1, steps + 1)
        variables = Variables(self.model, self.log, steps)
        if bound != "any":
            variables.put_counter(int(bound))
        self.numbers, self.found = {words: number for number, words in enumerate(variables.words)}, Counter()
        self.events = self.model.events
        self.seen = [name for name, event in self.events.items() if event.label]
        self.put_states()
        self.put_moves()
        self.put_exclusions()
        for event in self.seen:
            self.put_chain(event)
        for alarm in self.log.labels:
            self.put_alarm(alarm)
        self.put_pairs()
        self.put_counted(bound)

    def put(self, *names):
        self.found[tuple(sorted({self.literal(name) for name in names}))] += 1

    def literal(self, name):
        return -self.numbers[name[1:]] if name[0] == "-" else self.numbers[name]

    def put_one_at_most(self, names, chain):
        """Each pair of few is excluded; of more, each opens the chain at its place, which goes on and shuts out the next."""
        if len(names) <= PAIRWISE:
            for one, other in itertools.combinations(names, 2):
                self.put("-" + one, "-" + other)
            return
        for at in range(1, len(names)):
            self.put("-" + names[at - 1], chain.format(at))
            self.put("-" + names[at], "-" + chain.format(at))
            if at + 1 < len(names):
                self.put("-" + chain.format(at), chain.format(at + 1))

    def put_states(self):
        for component, states in self.model.states.items():
            for after in [0, *self.steps]:
                names = [f"{component} is {state} {moment(after)}" for state in states]
                self.put(*names)
                self.put_one_at_most(names, f"{component} is in one of its first {{}} states {moment(after)}")
            for state in states:
                if state not in self.model.inits[component]:
                    self.put(f"-{component} is {state} at the start")
                for step in self.steps:
                    self.put(f"-{component} is {state} {moment(step - 1)}", f"{component} is {state} {moment(step)}",
                             *(f"{name} happens in step {step}" for name, event in self.events.items() if component in event.parts))

    def put_moves(self):
        for name, event in self.events.items():
            for (component, action), step in itertools.product(event.parts.items(), self.steps):
                for state in self.model.states[component]:
                    self.put(f"-{name} happens in step {step}", f"-{component} is {state} {moment(step - 1)}",
                             *(f"{component} is {to} {moment(step)}" for start, by, to in self.model.moves[component] if (start, by) == (state, action)))

    def share(self, one, other):
        return self.events[one].parts.keys() & self.events[other].parts.keys()

    def put_exclusions(self):
        groups = []
        for name in self.events:
            group = next((it for it in groups if all(self.share(name, other) for other in it)), None)
            if group is None:
                groups.append([name])
            else:
                group.append(name)
        for step in self.steps:
            for number, group in enumerate(groups, 1):
                self.put_one_at_most([f"{event} happens in step {step}" for event in group], f"one of the first {{}} events of group {number} ({group[0]} ..) happens in step {step}")
            for one, other in itertools.combinations(groups, 2):
                for first, second in itertools.product(one, other):
                    if self.share(first, second):
                        self.put(f"-{first} happens in step {step}", f"-{second} happens in step {step}")

    def put_chain(self, event):
        """What comes to the end of the chain isn't left, where it is closed; an alarm takes what comes to it or leaves it, and never both."""
        alarms = [alarm for alarm, labels in self.log.labels.items() if self.events[event].label in labels]
        ends = [f"no alarm stands for {event}"] + [f"no alarm after {alarm} stands for {event}" for alarm in alarms]
        for step in self.steps:
            left = [f"{event} happens in step {step}"] + [f"{event} in step {step} is left to the alarms after {alarm}" for alarm in alarms]
            for end, rest in zip(ends, left):
                self.put("-" + end, "-" + rest)
            for alarm, before, after in zip(alarms, left, left[1:]):
                taken = f"{alarm} stands for {event} in step {step}"
                for clause in [("-" + taken, before), ("-" + taken, "-" + after), ("-" + after, before), ("-" + before, taken, after), ("-" + taken, f"{alarm} is done {moment(step)}"), ("-" + taken, f"-{alarm} is done {moment(step - 1)}")]:
                    self.put(*clause)
                if alarm in self.log.doubtful:
                    self.put("-" + taken, f"-{alarm} is false")
        self.put(ends[-1])

    def put_alarm(self, alarm):
        false = [f"{alarm} is false"] if alarm in self.log.doubtful else []
        self.put(f"-{alarm} is done at the start", *false)
        self.put("-the log is asked for", f"{alarm} is done {moment(self.last)}")
        for step in self.steps:
            taken = [f"{alarm} stands for {event} in step {step}" for event in self.seen if self.events[event].label in self.log.labels[alarm]]
            self.put(f"-{alarm} is done {moment(step - 1)}", f"{alarm} is done {moment(step)}")
            self.put(f"-{alarm} is done {moment(step)}", f"{alarm} is done {moment(step - 1)}", *false, *taken)
            self.put_one_at_most(taken, f"{alarm} stands for one of its first {{}} events in step {step}")

    def put_pairs(self):
        self.put("the log is asked for")
        for first, second in self.log.pairs:
            for after in [0, *self.steps]:
                self.put("-the log is asked for", f"-{second} is done {moment(after)}", f"{first} is done {moment(after)}")

    def put_counted(self, bound):
        faults = [f"{event} happens in step {step}" for event in self.model.faults() for step in self.steps] + [f"{alarm} is false" for alarm in self.log.labels if alarm in self.log.doubtful]
        if bound == "any" or not faults:
            return
        reached = "{} or more of the first {} counted faults"
        for least in range(1, int(bound) + 2):
            for first in range(1, len(faults)):
                self.put("-" + reached.format(least, first), reached.format(least, first + 1))
            for place, fault in enumerate(faults):
                if least == 1:
                    self.put("-" + fault, reached.format(1, place + 1))
                elif place:
                    self.put("-" + reached.format(least - 1, place), "-" + fault, reached.format(least, place + 1))
        self.put("-" + reached.format(int(bound) + 1, len(faults)))


def printed(program, *words):
    lines = subprocess.run([program, "cnf", *words], stdout=subprocess.PIPE, check=True).stdout.decode().splitlines()
    return Counter(tuple(sorted(set(map(int, line.split()[:-1])))) for line in lines[1:])


def main(program):
    differ = 0
    for plant, log, steps, bound in QUESTIONS:
        model, log = os.path.join(EXAMPLES, plant, "model.des"), os.path.join(EXAMPLES, plant, log + ".csv")
        wanted, found = Clauses(model, log, steps, bound).found, printed(program, model, log, str(steps), bound)
        if wanted != found:
            differ += 1
            print(f"{model} {log} {steps} {bound}: only by name {list((wanted - found).elements())[:3]}, only printed {list((found - wanted).elements())[:3]}")
    print(f"{len(QUESTIONS)} formulas, of which {differ} have other clauses than their names say")
    return 1 if differ else 0


if __name__ == "__main__":
    sys.exit(main(sys.argv[1]) if len(sys.argv) == 2 else __doc__)
