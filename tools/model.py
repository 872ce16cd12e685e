"""Reads what a SAT solver found for a formula of `cnf` back as a run, or lists what each variable of the formula stands for.

    python3 tools/model.py MODEL LOG N VALUES
    python3 tools/model.py MODEL LOG N --names K

MODEL, LOG and N are those of the command `cnf`, whose formula the solver was given, with whatever K. VALUES is what the solver wrote: the lines `v` of the solvers' competitions (CaDiCaL, Kissat,
CryptoMiniSat and others), or the result file of MiniSat; with `-` it is read from standard input. The run is a run text, which `replay` accepts within N steps, with at most K faults. A variable without a value
counts as false. With --names each variable of `cnf MODEL LOG N K` has a line, with its number and in words what it stands for; docs/variables.md explains them. This script is no part of what is proved.

Status 0: the run or the names were printed, 1: the solver found nothing, or a text can't be read.
"""
import os
import re
import sys

sys.path.insert(0, os.path.dirname(os.path.abspath(__file__)))
from texts import Wrong, called, log_of, read, sound_model  # noqa: E402

# An "at most one" of so many is said without variables of its own.
PAIRWISE = 4


def sound_log(path):
    """The log of a text that has no mistake, as far as this tool relies on it."""
    try:
        return log_of(path)
    except OSError as fault:
        raise Wrong(f"{path}: {fault.strerror}") from fault
    except ValueError as fault:
        raise Wrong(f"{path} isn't a log without a mistake; `diagnose` prints its first one") from fault


def moment(step):
    return f"after step {step}" if step else "at the start"


class Variables:
    """What the variables of a formula stand for: the words of each in order, and where those stand that a run is read from."""

    def __init__(self, model, log, steps):
        self.model, self.log, self.steps = model, log, range(1, steps + 1)
        self.words, self.happens, self.matches, self.done, self.false = [None], {}, {}, {}, {}
        self.put_states()
        self.put_groups()
        self.put_events()
        self.put_log()

    def put(self, words):
        self.words.append(words)
        return len(self.words) - 1

    def put_chain(self, count, words):
        """The variables of an "at most one" of so many: none for few, else one for each but the last."""
        for first in range(1, count if count > PAIRWISE else 0):
            self.put(words.format(first))

    def put_states(self):
        for component, names in self.model.states.items():
            for after in range(len(self.steps) + 1):
                for name in names:
                    self.put(f"{component} is {name} {moment(after)}")
                self.put_chain(len(names), f"{component} is in one of its first {{}} states {moment(after)}")

    def put_groups(self):
        groups = []
        for name, event in self.model.events.items():
            for group in groups:
                if all(event.parts.keys() & self.model.events[other].parts.keys() for other in group):
                    group.append(name)
                    break
            else:
                groups.append([name])
        for number, group in enumerate(groups, 1):
            for step in self.steps:
                self.put_chain(len(group), f"one of the first {{}} events of group {number} ({group[0]} ..) happens in step {step}")

    def put_events(self):
        for name in self.model.events:
            for step in self.steps:
                self.happens[name, step] = self.put(f"{name} happens in step {step}")

    def put_log(self):
        self.put("the log is asked for")
        seen = [name for name, event in self.model.events.items() if event.label]
        for name in seen:
            self.put(f"no alarm stands for {name}")
        for alarm, labels in self.log.labels.items():
            own = [name for name in seen if self.model.events[name].label in labels]
            for name in own:
                self.put(f"no alarm after {alarm} stands for {name}")
                for step in self.steps:
                    self.matches[alarm, name, step] = self.put(f"{alarm} stands for {name} in step {step}")
                    self.put(f"{name} in step {step} is left to the alarms after {alarm}")
            for after in range(len(self.steps) + 1):
                self.done[alarm, after] = self.put(f"{alarm} is done {moment(after)}")
            for step in self.steps:
                self.put_chain(len(own), f"{alarm} stands for one of its first {{}} events in step {step}")
            if alarm in self.log.doubtful:
                self.false[alarm] = self.put(f"{alarm} is false")

    def put_counter(self, bound):
        """The counter of faults, if there is a bound, behind all others."""
        counted = self.model.faults()
        inputs = len(counted) * len(self.steps) + len(self.false)
        for column in range(1, bound + 2):
            for first in range(1, inputs + 1):
                self.put(f"{column} or more of the first {first} counted faults")


def values_in(path):
    """What the solver wrote."""
    try:
        return read(path)
    except OSError as fault:
        raise Wrong(f"{path}: {fault.strerror}") from fault


def true_of(text):
    """The variables that the solver found true."""
    lines = text.split("\n")
    if any(line.startswith("v ") for line in lines):
        literals = [word for line in lines if line.startswith("v ") for word in line[2:].split()]
    elif lines[0].strip() == "SAT":
        literals = " ".join(lines[1:]).split()
    else:
        raise Wrong("the solver gives no values: the formula is unsatisfiable, or this isn't what a solver writes")
    if not all(re.fullmatch(r"-?\d+", word) for word in literals):
        raise Wrong("a value isn't a number")
    return {int(word) for word in literals}


def in_order(alarms, pairs):
    """The alarms, each behind those that the pairs put before it."""
    waiting, ordered = list(alarms), []
    while waiting:
        free = [it for it in waiting if not any(later == it and earlier in waiting for earlier, later in pairs)]
        if not free:
            raise Wrong("the pairs of the log have a cycle")
        ordered.append(free[0])
        waiting.remove(free[0])
    return ordered


def run_of(variables, true):
    """The lines of the run: the false alarms that are done at the start, and then step by step the events that raise no alarm and the alarms that are done in the step."""
    model, log, lines = variables.model, variables.log, []
    event_of = {(alarm, step): name for (alarm, name, step), var in variables.matches.items() if var in true}
    for step in [0, *variables.steps]:
        lines += [name for name, event in model.events.items() if step and not event.label and variables.happens[name, step] in true]
        new = [alarm for alarm in log.labels if variables.done[alarm, step] in true and (step == 0 or variables.done[alarm, step - 1] not in true)]
        for alarm in in_order(new, log.pairs):
            lines.append(f"! {alarm}" if variables.false.get(alarm) in true else f"{event_of.get((alarm, step), '?')} {alarm}")
    return lines


def main(words):
    is_named = len(words) == 5 and words[3] == "--names" and re.fullmatch(r"any|\d+", words[4])
    if not is_named and len(words) != 4 or not words[2].isdigit():
        sys.exit(__doc__)
    variables = Variables(sound_model(words[0]), sound_log(words[1]), int(words[2]))
    if is_named:
        if words[4] != "any":
            variables.put_counter(int(words[4]))
        print("\n".join(f"{number} {name}" for number, name in enumerate(variables.words) if number))
        return 0
    run = run_of(variables, true_of(values_in(words[3])))
    print("\n".join([f"run {len(run)}", *run]))
    return 0


if __name__ == "__main__":
    called(main)
