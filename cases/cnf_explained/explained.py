"""Prints what the truths of a formula say, one line each: which events happen in which step, and which alarms they have.

    cnf MODEL LOG N any | python3 explained.py [--open] MODEL LOG N

With --open it prints how many choices of the events there are where the guards of the log aren't assumed, which are the last clauses of the formula.

A line has for each event, in the order of the model, a word with a character for each step: `.` where the event doesn't happen, `-` where it does
without an alarm, the alarm's number in the log, from 0 on, where it has one, and `!` where it has several. With no step it is `nothing`. All truths of the
formula are tried, so it is meant for small ones. Of the model and the log it reads what the numbers of the variables depend on: states, parts,
labels, and the alarms with their labels. Lines with quotes, empty lines and comments it doesn't know.

The variables stand in this order: for each component, and each moment from the start on, its states; then the chains over more than four events
of one component, step by step; then the events, step by step within each; then whether the log is asked for, and for each event that can be seen whether
it may happen without an alarm; and then alarm by alarm, for each event that it may stand for, whether those before suffice, and step by step whether
it stands for it and whether the event has still no alarm; whether it is done, at each moment; the chains over more than four such events; and whether it is false.
"""
import sys


def chain(inputs):
    """How many variables stand for "at most one" of so many."""
    return inputs - 1 if inputs > 4 else 0


def read_model(path):
    """The number of states of each component, and of each event its components and its label."""
    states, events = {}, []
    with open(path, encoding="utf-8") as it:
        for line in it:
            words = line.split()
            if words[0] == "component":
                name = words[1]
                states[name] = 0
            elif words[0] == "state":
                states[name] += 1
            elif words[0] == "event":
                head, parts = words[: words.index(":")], words[words.index(":") + 1 :]
                label = head[head.index("alarm") + 1] if "alarm" in head else None
                events.append(([part.split(".")[0] for part in parts], label))
    return states, events


def read_log(path):
    """Of each alarm whether it is doubtful, and its labels."""
    with open(path, encoding="utf-8") as it:
        rows = [line.strip().split(",") for line in it]
    return [(row[0] == "maybe", row[2].split("|")) for row in rows if row[0] != "before"]


def laid_out(states, events, alarms, n):
    """The variables of the events by event and step, those of the matches by alarm, event and step, and how many there are."""
    first = sum((n + 1) * (count + chain(count)) for count in states.values())
    first += sum(n * chain(sum(component in parts for parts, _ in events)) for component in states)
    happens = [[first + e * n + t for t in range(n)] for e in range(len(events))]
    next_one = first + len(events) * n + 1 + sum(label is not None for _, label in events)
    matches = {}
    for number, (doubtful, labels) in enumerate(alarms):
        taken = [e for e, (_, label) in enumerate(events) if label in labels]
        for e in taken:
            for t in range(n):
                matches[number, e, t] = next_one + 1 + 2 * t
            next_one += 1 + 2 * n
        next_one += n + 1 + n * chain(len(taken)) + doubtful
    return happens, matches, next_one


def assigned(clauses, truth):
    """The clauses where this literal is true, or None where one is false then."""
    rest = []
    for clause in clauses:
        if truth not in clause:
            rest.append(clause - {-truth})
            if not rest[-1]:
                return None
    return rest


def truths(clauses, variables, known):
    """The truths of these variables, in this order, by which all clauses can be true."""
    if not variables:
        return [known] if possible(clauses) else []
    found = []
    for value in (False, True):
        rest = assigned(clauses, variables[0] if value else -variables[0])
        if rest is not None:
            found += truths(rest, variables[1:], known + [value])
    return found


def possible(clauses):
    if not clauses:
        return True
    literal = next(iter(min(clauses, key=len)))
    return any(rest is not None and possible(rest) for rest in (assigned(clauses, literal), assigned(clauses, -literal)))


def word(e, happen, matched):
    """What an event does, step by step."""
    text = ""
    for t, happens in enumerate(happen[e]):
        alarms = [number for (number, event, step), value in matched.items() if value and (event, step) == (e, t)]
        text += "." if not happens and not alarms else "-" if not alarms else str(alarms[0]) if happens and len(alarms) == 1 else "!"
    return text


def read_formula(text):
    """How many variables a formula has, and its clauses."""
    header, *lines = text.splitlines()
    return int(header.split()[2]), [frozenset(int(literal) for literal in line.split()[:-1]) for line in lines]


def main(words):
    model, log, n = words[-3], words[-2], int(words[-1])
    states, events = read_model(model)
    happens, matches, wanted = laid_out(states, events, read_log(log), n)
    count, clauses = read_formula(sys.stdin.read())
    if count != wanted:
        print(f"{count} variables and not {wanted}")
        return 1
    cells = [variable + 1 for row in happens for variable in row]
    if words[0] == "--open":
        guards = 1 + sum(label is not None for _, label in events)
        print(len(truths(clauses[:-guards], cells, [])))
        return 0
    found = set()
    for values in truths(clauses, cells + [variable + 1 for variable in matches.values()], []):
        happen = [values[e * n : (e + 1) * n] for e in range(len(events))]
        matched = dict(zip(matches, values[len(cells) :]))
        found.add(" ".join(word(e, happen, matched) for e in range(len(events))))
    for line in sorted(found):
        print(line if line.strip() else "nothing")
    return 0


if __name__ == "__main__":
    sys.exit(main(sys.argv[1:]))
