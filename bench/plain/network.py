"""Reads models and logs for the plain searches. Written apart from the program, from docs/formats.md; texts are taken to be without mistakes."""
from functools import cached_property
from itertools import product


class TooLarge(Exception):
    """A search has looked at more than it may."""


class Event:
    """An event: its label or None, whether it is a fault, and for each component that it moves the states to which each state may lead."""

    def __init__(self, name, label, is_fault, parts):
        self.name, self.label, self.is_fault, self.parts = name, label, is_fault, parts
        self.touched = frozenset(component for component, _ in parts)


class Network:
    """The plant of a model text. A state of the plant is a tuple with the state of each component; `starts` has the initial states of each, and `inits` those of the plant."""

    def __init__(self, text):
        inits, moves, rows = {}, {}, []
        for words in map(str.split, text.split("\n")):
            if words[:1] == ["component"]:
                present = words[1]
                inits[present], moves[present] = [], {}
            elif words[:1] == ["state"] and words[2:] == ["init"]:
                inits[present].append(words[1])
            elif words[:1] == ["trans"]:
                moves[present].setdefault(words[2], {}).setdefault(words[1], []).append(words[3])
            elif words[:1] == ["event"]:
                rows.append(words)
        places = {name: place for place, name in enumerate(inits)}
        self.starts = list(inits.values())
        self.events = [self.event_of(words, places, moves) for words in rows]
        self.named = {event.name: event for event in self.events}
        self.faults = [event.name for event in self.events if event.is_fault]

    @cached_property
    def inits(self):
        return list(product(*self.starts))

    @staticmethod
    def event_of(words, places, moves):
        """The event of a line."""
        at = words.index(":")
        marks = words[2:at]
        label = marks[1] if marks[:1] == ["alarm"] else None
        parts = [tuple(word.split(".")) for word in words[at + 1:]]
        return Event(words[1], label, (marks[2:] if label else marks) == ["fault"], [(places[component], moves[component][action]) for component, action in parts])

    def after(self, state, event):
        """The states of the plant after the event; none if it can't happen."""
        targets = [moves.get(state[component], ()) for component, moves in event.parts]
        for chosen in product(*targets):
            changed = list(state)
            for (component, _), target in zip(event.parts, chosen):
                changed[component] = target
            yield tuple(changed)


class Log:
    """A log: for each alarm its name, its labels, whether it is doubtful, and as bits the alarms that come before it."""

    def __init__(self, text):
        self.names, self.labels, self.doubtful, self.needs = [], [], [], []
        places = {}
        for row in text.split("\n"):
            fields = row.split(",")
            if fields[0] in ("alarm", "maybe"):
                places[fields[1]] = len(self.names)
                self.names.append(fields[1])
                self.labels.append(frozenset(fields[2].split("|")))
                self.doubtful.append(fields[0] == "maybe")
                self.needs.append(0)
            elif fields[0] == "before":
                self.needs[places[fields[2]]] |= 1 << places[fields[1]]
        self.whole = (1 << len(self.names)) - 1

    def next_ones(self, done):
        """The alarms that may come next, after those whose bits are in `done`."""
        return [alarm for alarm, needed in enumerate(self.needs) if not done >> alarm & 1 and needed & ~done == 0]
