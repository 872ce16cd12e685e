"""Draws runs of a plant by chance, and logs of them.

    python3 bench/plain/walks.py MODEL ALARMS FAULTS SEED FOLDER

writes such a run into FOLDER, simulated.run, and its logs: whole.csv (each alarm before the next), device.csv (alarms keep their order where their events touch a component in common),
blocks.csv (all alarms of a parallel step before all of the next one with alarms, as between two ticks of a clock) and free.csv (no order). It prints how many parallel steps, alarms and faults the run has.
"""
import os
import random
import sys

from network import Network


def walk(network, alarms, faults, draw):
    """The events of a run with about so many alarms and at most so many faults."""
    state, events, seen, struck, quiet = draw.choice(network.inits), [], 0, 0, 0
    while seen < alarms and quiet < 60:
        ways = [(event, after) for event in network.events for after in network.after(state, event) if struck < faults or not event.is_fault]
        right, wrong = ([way for way in ways if way[0].is_fault == kind] for kind in (False, True))
        if not ways:
            break
        chosen = wrong if wrong and (not right or draw.random() < 0.15) else right
        loud = [way for way in chosen if way[0].label]
        event, state = draw.choice(loud if loud and draw.random() < 0.5 else chosen)
        events.append(event)
        seen, struck, quiet = seen + (event.label is not None), struck + event.is_fault, 0 if event.label else quiet + 1
    return events


def with_alarms(events):
    """The events, each with the name of its alarm or None."""
    found, alarms = [], 0
    for event in events:
        alarms += event.label is not None
        found.append((event.name, f"a{alarms}" if event.label else None))
    return found


def steps_of(events):
    """The number of the parallel step of each event."""
    found, touched = [], frozenset()
    for event in events:
        meets = not found or touched & event.touched
        found.append((found[-1] if found else 0) + (1 if meets else 0))
        touched = event.touched if meets else touched | event.touched
    return found


def width(events):
    """How many parallel steps the events take in this order."""
    return steps_of(events)[-1] if events else 0


def log_of(events, order):
    """A log of the run, in an order of those above."""
    seen = [(f"a{place}", event, step) for place, (event, step) in enumerate((it for it in zip(events, steps_of(events)) if it[0].label), 1)]
    rows = [f"alarm,{name},{event.label}" for name, event, _ in seen]
    ticks = sorted({step for _, _, step in seen})
    last_tick = dict(zip(ticks[1:], ticks))
    for place, (name, event, step) in enumerate(seen):
        before = {"whole": seen[max(place - 1, 0):place], "device": [it for it in seen[:place] if it[1].touched & event.touched],
                  "blocks": [it for it in seen[:place] if it[2] == last_tick.get(step)], "free": []}[order]
        rows += [f"before,{earlier},{name}" for earlier, _, _ in before]
    return rows


def disturbed(rows, labels, draw):
    """The log with one thing changed: an alarm doubtful, one with a further label or with another one, one lost, a pair left out; or nothing."""
    alarms = [place for place, row in enumerate(rows) if row.startswith("alarm")]
    if not alarms:
        return rows
    place, change = draw.choice(alarms), draw.choice(["nothing", "nothing", "doubt", "further", "other", "lose", "unpair"])
    word, name, label = rows[place].split(",")
    if change == "lose":
        return [row for row in rows if name not in row.split(",")[1:]]
    if change == "unpair":
        return [row for row in rows if not row.startswith("before") or draw.random() < 0.7]
    changed = {"nothing": rows[place], "doubt": f"maybe,{name},{label}", "further": f"{word},{name},{label}|{draw.choice(labels)}", "other": f"{word},{name},{draw.choice(labels)}"}[change]
    return rows[:place] + [changed] + rows[place + 1:]


def run_text(events):
    """The run as a text that `replay` reads."""
    lines = [name + (f" {alarm}" if alarm else "") for name, alarm in with_alarms(events)]
    return "\n".join([f"run {len(lines)}"] + lines) + "\n"


def main(words):
    with open(words[0], encoding="utf-8") as it:
        network = Network(it.read())
    alarms, faults, seed = map(int, words[1:4])
    events = walk(network, alarms, faults, random.Random(seed))
    os.makedirs(words[4], exist_ok=True)
    texts = {"simulated.run": run_text(events)}
    texts.update((f"{order}.csv", "".join(f"{row}\n" for row in log_of(events, order))) for order in ("whole", "device", "blocks", "free"))
    for name, text in texts.items():
        with open(os.path.join(words[4], name), "w", encoding="ascii") as it:
            it.write(text)
    print(f"{width(events)} steps, {sum(it.label is not None for it in events)} alarms, {sum(it.is_fault for it in events)} faults")


if __name__ == "__main__":
    main(sys.argv[1:])
