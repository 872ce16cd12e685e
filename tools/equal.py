"""Writes a log with more pairs, so that alarms which nothing tells apart stand in an order. The least number of faults stays the same, and a search needn't try the other orders.

    python3 tools/equal.py LOG

LOG is a log text without a mistake. It is printed as it is, and below it a pair for each two neighbours among equal alarms. On standard error it says which alarms these are.

Alarms are equal if they have the same labels, if all of them are doubtful or none is, if no pair orders two of them (nor several pairs, one after another), and if each other alarm comes before all of them, after all of them, or is in no order with
any. In an explanation two of them can be swapped, with what they are matched to, and it explains the log still, with as many faults, since no pair tells them apart. So each explanation gives one in which the equal alarms stand in the
order of the log. The same run is in both, so costs, verdicts and sets of faults stay the same too; only which alarm an event is matched to may differ. In a session the pairs hold for the rows that are there: a later pair for one of the alarms
alone tells it apart, so write them when the log is whole.

Status 0: the log was printed, 1: it can't be read or has a mistake. This script is no part of what is proved.
"""
import os
import sys

sys.path.insert(0, os.path.dirname(os.path.abspath(__file__)))
from texts import NAME, Log, Wrong, called, read, rows_of, shown  # noqa: E402

PAIRS = 20000


def sound_log(path):
    """The text of a log without a mistake, as far as this script relies on it, and the log."""
    try:
        text = read(path)
        rows = [row for row in rows_of(path) if any(row.fields)]
    except OSError as fault:
        raise Wrong(f"{shown(path)}: {fault.strerror}") from fault
    except ValueError as fault:
        raise Wrong(f"{shown(path)} isn't CSV: {fault}") from fault
    known = set()
    for row in rows:
        ids = [row.first] if row.is_alarm else [row.first, row.second]
        if not (row.is_alarm or row.kind == "before") or len(row.fields) < 3 or any(row.fields[3:]) or not all(NAME.fullmatch(it) for it in ids):
            raise Wrong(f"line {row.line} of {shown(path)} is no row of a log: {row.text()}")
        if row.is_alarm and (row.first in known or not all(NAME.fullmatch(it) for it in row.second.split("|"))):
            raise Wrong(f"line {row.line} of {shown(path)} has an id that is taken, or a label that is no name: {row.text()}")
        if not row.is_alarm and not known.issuperset(ids):
            raise Wrong(f"line {row.line} of {shown(path)} names an alarm that isn't above it: {row.text()}")
        known.update(ids)
    return text, Log(rows)


def later_of(log):
    """For each alarm those that come after it, by the pairs and what follows from them, as the bits of a number."""
    place = {name: number for number, name in enumerate(log.labels)}
    after, waits = {name: [] for name in place}, dict.fromkeys(place, 0)
    for first, second in log.pairs:
        after[second].append(first)
        waits[first] += 1
    later, ready = dict.fromkeys(place, 0), [name for name, count in waits.items() if count == 0]
    done = 0
    for name in ready:
        done += 1
        for first in after[name]:
            later[first] |= later[name] | 1 << place[name]
            waits[first] -= 1
            if waits[first] == 0:
                ready.append(first)
    if done < len(place):
        raise Wrong("the pairs of the log close a cycle")
    return later


def turned(log):
    """The same log with each pair the other way round."""
    other = Log([])
    other.labels, other.pairs = log.labels, [(second, first) for first, second in log.pairs]
    return other


def equal_alarms(log):
    """The sets of two alarms or more that nothing tells apart, each in the order of the log."""
    later, earlier, alike = later_of(log), later_of(turned(log)), {}
    for name, labels in log.labels.items():
        alike.setdefault((frozenset(labels), name in log.doubtful, later[name], earlier[name]), []).append(name)
    return [names for names in alike.values() if len(names) > 1]


def ordered(path):
    """The text of a log with its further pairs, and the alarms that they order."""
    text, log = sound_log(path)
    sets = equal_alarms(log)
    pairs = [pair for names in sets for pair in zip(names, names[1:])]
    if len(pairs) + len(log.pairs) > PAIRS:
        raise Wrong(f"the log would have {len(pairs) + len(log.pairs):,} pairs, and may have {PAIRS:,}")
    ends = "" if text == "" or text.endswith("\n") else "\n"
    return shown(text) + ends + "".join(f"before,{first},{second}\n" for first, second in pairs), sets


def main(words):
    if len(words) != 1:
        sys.exit(__doc__)
    text, sets = ordered(words[0])
    sys.stdout.write(text)
    sys.stdout.flush()
    for names in sets:
        print(f"equal, and in this order now: {' '.join(names)}", file=sys.stderr)
    return 0


if __name__ == "__main__":
    called(main)
