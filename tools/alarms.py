"""Makes a log of an alarm list: a CSV export with a header, a time in each row, and texts that aren't labels yet.

    python3 tools/alarms.py RULES EXPORT TIME FORMAT [CLOCK [APART]] > log.csv

RULES is a CSV text that a spreadsheet can write. Its header is `label` and columns of the export, in any number. Each row has a label and what must stand in these columns, where an empty cell stands for anything, and * in
a cell for any characters; the first row that fits counts. In place of a label there may be several with bars between them, `maybe` and a blank before it for alarms that may be false, or `-` for rows that are no alarms.
A row of the export that no rule fits is reported, and then no log is printed, since a log is taken to be complete.

EXPORT may be `-`, its rows may be in any order, and cells may be quoted; in it and in RULES semicolons or tabs may stand in place of commas. The id of an alarm is `a` and its line in the export. A row with more or fewer cells than the
header and a last line without an end are reported: somebody may still be writing them.

TIME is the column of the time, or two with + between them, as Date+Time. FORMAT is its form as in `date` (%d/%m/%Y %H:%M:%S, with %f for parts of a second), `iso` (2026-11-03T02:14:07, with a zone or without), or `unix` for the
seconds since 1970. Times without a zone are compared as they stand, so where clocks are put back a zone must be there; times without a date are taken to be of one day.

The times become pairs. By one clock an earlier alarm comes before a later one, and of two with the same time nothing is known. CLOCK is the column that names the clock, if there are several. Two clocks differ by less than APART seconds: alarms that are
APART seconds or more apart are in the order of their times. Without APART, nothing is known of alarms of different clocks. Pairs that follow from others are left out.

Status 0: a log was printed, 1: the export or the rules can't be used, and what is wrong goes to standard error, 2: the number of words is wrong.
"""
import csv
import datetime
import io
import os
import re
import sys

sys.path.insert(0, os.path.dirname(os.path.abspath(__file__)))
from texts import NAME, Wrong, called, plural, read, shown  # noqa: E402

ONE_CLOCK = datetime.timedelta(0)
EPOCH = datetime.datetime(1970, 1, 1)


class Rule:
    """A row of the rules: what must stand in which column, and the labels; none for rows that are no alarms."""

    def __init__(self, label, wanted):
        self.wanted = {column: re.compile(".*".join(map(re.escape, text.split("*"))), re.DOTALL) for column, text in wanted.items()}
        self.kind, self.labels = ("maybe", label[6:]) if label.startswith("maybe ") else ("alarm", label)
        self.is_alarm = label != "-"

    def fits(self, row):
        return all(form.fullmatch(row[column]) for column, form in self.wanted.items())


class Alarm:
    """A row of the export that is an alarm."""

    def __init__(self, name, rule, time, clock):
        self.name, self.rule, self.time, self.clock = name, rule, time, clock

    def record(self):
        return f"{self.rule.kind},{self.name},{self.rule.labels}"


class Table:
    """A CSV text: its header, its rows as dictionaries, each with the line where it begins, and what is wrong with rows."""

    def __init__(self, path):
        text = read(path).removeprefix("\ufeff")
        self.path, self.rows, self.wrong, self.columns = path, [], [], []
        self.is_finished = text.endswith(("\n", "\r")) or not text
        first = text.split("\n", 1)[0]
        reader = csv.reader(io.StringIO(text, newline=""), delimiter=max(",;\t", key=lambda it: (first.count(it), it == ",")), strict=True)
        self.end = 0
        try:
            for fields in reader:
                cells = [it.strip() for it in fields]
                if self.end == 0:
                    self.columns = cells
                elif any(cells):
                    self.add(self.end + 1, cells)
                self.end = reader.line_num
        except csv.Error as fault:
            raise Wrong(f"{path}, line {self.end + 1}: {fault}") from fault

    def add(self, line, cells):
        """A row. Empty cells behind the last column are nothing."""
        while len(cells) > len(self.columns) and not cells[-1]:
            cells.pop()
        if len(cells) != len(self.columns):
            self.wrong.append((line, f"the row has {plural(len(cells), 'cell')}, and the header {len(self.columns)}"))
        else:
            self.rows.append((line, dict(zip(self.columns, cells))))

    def check(self, columns):
        """Says which of these columns isn't there, or is there twice."""
        for column in columns:
            if self.columns.count(column) > 1:
                raise Wrong(f"{self.path}: the export has {self.columns.count(column)} columns with the name {shown(column)}")
            if column not in self.columns:
                raise Wrong(f"{self.path}: the export has no column {shown(column)}; {'it has ' + shown(', '.join(self.columns)) if self.columns else 'it is empty'}")


def rules_of(path, export):
    table = Table(path)
    if table.columns[:1] != ["label"]:
        raise Wrong(f"{path}: the first column of the rules is `label`, and here it is {shown(repr(table.columns[0])) if table.columns else 'missing'}")
    for line, fault in table.wrong:
        raise Wrong(f"{path}, line {line}: {fault}")
    strange = [it for it in table.columns[1:] if it not in export.columns]
    if strange:
        raise Wrong(f"{path}: the export has no column {shown(strange[0])}; it has {shown(', '.join(export.columns))}")
    export.check(table.columns[1:])
    rules = []
    for line, row in table.rows:
        rule = Rule(row.pop("label"), {column: text for column, text in row.items() if text})
        if rule.is_alarm and not all(NAME.fullmatch(it) for it in rule.labels.split("|")):
            raise Wrong(f"{path}, line {line}: {shown(repr(rule.labels))} is no label; a label is 1 to 64 ASCII letters, digits, _ or -")
        rules.append(rule)
    return rules


def time_of(text, form):
    """A moment, as a time since a fixed one, and whether it has a zone; None if the text has another form."""
    try:
        if form == "unix":
            return datetime.timedelta(seconds=float(text)), True
        time = datetime.datetime.fromisoformat(re.sub("[zZ]$", "+00:00", text)) if form == "iso" else datetime.datetime.strptime(text, form)
    except (ValueError, OverflowError):
        return None
    return time.replace(tzinfo=None) - (time.utcoffset() or ONE_CLOCK) - EPOCH, time.tzinfo is not None


def alarms_of(rules, rows, time_columns, form, clock_column):
    """The alarms of an export in the order of their times, and what is wrong with its rows."""
    found, wrong, zoned = [], [], None
    for line, row in rows:
        rule = next((it for it in rules if it.fits(row)), None)
        text = " ".join(row[it] for it in time_columns)
        time = time_of(text, form)
        if rule is None:
            wrong.append((line, "no rule fits " + shown(", ".join(f"{column} {text}" for column, text in row.items() if text and column not in time_columns))))
        elif rule.is_alarm and time is None:
            wrong.append((line, f"{shown(text)!r} isn't a time of the form {form}"))
        elif rule.is_alarm:
            zoned = zoned if zoned is not None else time[1]
            if time[1] != zoned:
                wrong.append((line, f"{text!r} has {'a' if time[1] else 'no'} zone, and the first alarm has {'none' if time[1] else 'one'}"))
            found.append(Alarm(f"a{line}", rule, time[0], row[clock_column] if clock_column else None))
    return sorted(found, key=lambda it: it.time), wrong


def comes_before(one, other, apart):
    return one.time < other.time and (one.clock == other.clock or apart is not None and other.time - one.time >= apart)


def pairs_of(alarms, apart):
    """The pairs that don't follow from others, of alarms in the order of their times."""
    for place, later in enumerate(alarms):
        last = []
        for earlier in reversed(alarms[:place]):
            if comes_before(earlier, later, apart) and not any(comes_before(earlier, it, apart) for it in last):
                last.append(earlier)
            elif last and apart is not None and last[0].time - earlier.time > apart:
                break
        yield from ((it.name, later.name) for it in reversed(last))


def apart_of(words):
    """By how much clocks may differ: APART, nothing if there is none, and no time at all if there is one clock."""
    if len(words) < 6:
        return None if len(words) == 5 else ONE_CLOCK
    try:
        apart = datetime.timedelta(seconds=float(words[5]))
        if apart >= ONE_CLOCK:
            return apart
    except (ValueError, OverflowError):
        pass
    raise Wrong(f"APART is a number of seconds, and here it is {words[5]}")


def main(words):
    if len(words) not in (4, 5, 6):
        sys.stderr.write(__doc__)
        return 2
    clock, apart = words[4] if len(words) > 4 else None, apart_of(words)
    try:
        export = Table(words[1])
        if not export.is_finished:
            raise Wrong(f"{words[1]}, line {export.end}: the line has no end, so it may be half-written")
        times = [words[2]] if words[2] in export.columns else words[2].split("+")
        export.check(times + [clock] * (clock is not None))
        rules = rules_of(words[0], export)
    except OSError as fault:
        raise Wrong(f"{fault.filename}: {fault.strerror}") from fault
    alarms, wrong = alarms_of(rules, export.rows, times, words[3], clock)
    wrong = sorted(export.wrong + wrong, key=lambda it: it[0])
    if wrong:
        print("\n".join(f"{words[1]}, line {line}: {fault}" for line, fault in wrong), file=sys.stderr)
        return 1
    if not alarms:
        print(f"{words[1]}: no row is an alarm, so the log is empty", file=sys.stderr)
    for line in [it.record() for it in alarms] + [f"before,{one},{other}" for one, other in pairs_of(alarms, apart)]:
        print(line)
    return 0


if __name__ == "__main__":
    called(main)
