"""What is wrong with a text, in words: for each kind of file and each code of docs/formats.md, the word that is meant and what to write in its place.

`why(place, code)` gives the words. The codes stand in one table, MISTAKES, at the end. It is a second reading of the formats, which is no part of what is proved;
tools/explain_test.py has a case of each code.
"""
import difflib
import re

from texts import NAME, NUMBER, counted, counted_in, plural, read, rows_of, shown

EVENT = "`event NAME : COMPONENT.ACTION ..`, with `alarm LABEL`, `fault`, or both in this order before the colon"
LINES = {"component": "`component NAME`", "state": "`state NAME` or `state NAME init`", "trans": "`trans FROM ACTION TO`", "event": EVENT}
ROWS = {"alarm": "alarm,ID,LABEL", "maybe": "maybe,ID,LABEL", "before": "before,ID,ID", "ask": "ask"}
OTHERS = [("a model", r"des\b|component\b"), ("a log", r"(?:alarm|maybe|before),"), ("a cost text", r"costs?\b"), ("a formula", r"p cnf\b"), ("a proof", r"\d+ (?:-?\d+ )*0 (?:-?\d+ )*0\s*$"),
          ("a run or a reply", r"run\b|EXPLAINED|NONE|MANY|UNDECIDED|CHEAPEST|DEAR|POSSIBLE|faulty|healthy")]
OWN = {"MODEL": "a model", "LOG": "a log", "SCRIPT": "a log", "RUN": "a run or a reply", "COST": "a cost text", "CNF": "a formula", "LRAT": "a proof"}
DRAT = ("This looks like a DRAT proof, which has neither numbers nor hints: `drat-trim FORMULA PROOF -L FILE` writes it as LRAT, "
        "and a CaDiCaL from 1.7 on prints LRAT by itself with --lrat --no-binary")


class Place:
    """A line or a row of a file that has a mistake, and what stands above it."""

    def __init__(self, kind, path, number, model=None, refused=()):
        self.kind, self.path, self.number, self.model, self.refused = kind, path, number, model, refused
        self.is_table = kind in ("LOG", "SCRIPT")
        self.text = read(path)
        if self.is_table:
            self.rows = rows_of(path)
            self.row = self.rows[number - 1] if number <= len(self.rows) else None
            return
        self.lines = counted_in(self.text, "c" if kind in ("CNF", "LRAT") else "#")
        self.words = next((words for at, words in self.lines if at == number), [])
        self.above = [(at, words) for at, words in self.lines if at < number]

    def title(self):
        """The file, the line or row, and what it says."""
        if self.is_table:
            line = "" if self.row is None or self.row.line == self.number else f" (line {self.row.line})"
            return f"{self.path}, row {self.number}{line}: {self.row.text()[:200] if self.row else ''}"
        lines = self.text.split("\n")
        return f"{self.path}, line {self.number}: {shown(lines[self.number - 1].strip())[:200] if self.number <= len(lines) else ''}"


def why(place, code):
    """The words for a mistake."""
    said = foreign(place) or MISTAKES["LOG" if place.is_table else place.kind][code]
    return said if isinstance(said, str) else said(place)


def foreign(place):
    """Whether the file is in a form that no text of the program has, or of another kind."""
    start = place.text[:2]
    if start in ("\udcff\udcfe", "\udcfe\udcff"):
        return "the file is in UTF-16; save it as UTF-8"
    if place.kind == "LRAT" and re.search(r"[\x00-\x08\x0e-\x1f]", place.text[:1000]):
        return "the file isn't text: it may be a binary proof. Ask the solver for a text (--no-binary of CaDiCaL), and for LRAT"
    if place.text.startswith("\ufeff") and not place.is_table:
        return "the file begins with a byte order mark, which editors don't show; save it without"
    comment = "c" if place.kind in ("CNF", "LRAT") else "#"
    head = next((line for line in place.text.split("\n") if line.strip() and not line.lstrip().startswith(comment)), "")
    own = OWN[place.kind]
    other = next((name for name, begins in OTHERS if re.match(begins, head.lstrip("\ufeff \t"))), None)
    if other not in (None, own) and (place.number == 1 or not place.is_table and place.words == head.split()):
        return f"this looks like {other}, and here stands {own}: are the files in the order of the command's words?"
    return None


# Names.

def named(words):
    """Names in a row, the first twelve of them."""
    words = [shown(it) for it in dict.fromkeys(words)]
    return (", ".join(words[:12]) + (f" and {len(words) - 12} more" if len(words) > 12 else "")) or "none"


def no_name(word):
    """Why a word isn't a name, or nothing."""
    if NAME.fullmatch(word):
        return None
    if not word:
        return "it is empty"
    odd = [sign for sign in word if not NAME.fullmatch(sign)]
    if not odd:
        return f"it has {len(word)} signs, and a name has 64 at most"
    said = ["a blank" if sign == " " else "a tab" if sign == "\t" else f"the byte {ord(sign) - 0xdc00:02X}" if 0xdc80 <= ord(sign) <= 0xdcff else repr(sign) for sign in odd]
    return f"it has {named(said)}, and a name has ASCII letters, digits, _ and - alone"


def bad_name(words):
    """The first word that isn't a name, and why."""
    bad = next((word for word in words if no_name(word)), None)
    return "a word that must be a name isn't one" if bad is None else f"'{shown(bad)}' must be a name: {no_name(bad)}"


def meant(word, known):
    """A guess at what was meant."""
    close = difflib.get_close_matches(word, list(known), 1) or [it for it in known if it.lower() == word.lower()]
    return f" Is it {close[0]}?" if close else ""


def ordinal(number):
    return f"{number}{'th' if number % 100 in (11, 12, 13) else {1: 'st', 2: 'nd', 3: 'rd'}.get(number % 10, 'th')}"


# Models.

class Above:
    """What lines of a model name, each with the line where it first stands."""

    def __init__(self, lines):
        self.components, self.states, self.moves, self.actions, self.events, self.present = {}, {}, {}, {}, {}, None
        for number, words in lines:
            if words[0] == "component" and len(words) == 2:
                self.present = words[1]
                self.components.setdefault(self.present, number)
            elif words[0] == "state" and len(words) > 1:
                self.states.setdefault((self.present, words[1]), number)
            elif words[0] == "trans" and len(words) == 4:
                self.moves.setdefault((self.present,) + tuple(words[1:]), number)
                self.actions.setdefault((self.present, words[2]), number)
            elif words[0] == "event" and len(words) > 1:
                self.events.setdefault(words[1], number)

    def of(self, table, component):
        return [key[1] for key in table if key[0] == component]


def parts_of(words):
    return [part.split(".") for part in words[words.index(":") + 1:]]


def first_line(wanted):
    """The mistake of a text that doesn't begin as it must."""
    def said(place):
        if not place.lines:
            return f"the file has no line but blanks and comments, and the first must be `{wanted}`"
        return f"the first line that isn't blank or a comment must be `{wanted}`"
    return said


def model_shape(place):
    first, rest = place.words[0], place.words[1:]
    if first not in LINES:
        return f"no line begins with '{shown(first)}': a line is a `component`, a `state`, a `trans` or an `event`.{meant(first, LINES)}"
    if any(word.startswith("#") for word in rest):
        return f"a comment has a line of its own, which begins with #. The line should be {LINES[first]}"
    if first == "event":
        return event_shape(place.words)
    if first == "state" and len(rest) == 2:
        return f"behind the name of a state may stand `init`, and not '{shown(rest[1])}'"
    return f"the line should be {LINES[first]}, and here {'is' if len(rest) == 1 else 'are'} {plural(len(rest), 'word')} behind `{first}`. A name has no blanks"


def event_shape(words):
    if ":" not in words:
        glued = next((word for word in words if ":" in word), None)
        return f"the colon in '{shown(glued)}' must stand between blanks" if glued else f"there is no colon before the parts. The line should be {LINES['event']}"
    at = words.index(":")
    marks, parts = words[2:at], words[at + 1:]
    if at < 2:
        return "behind `event` stands its name"
    if not parts:
        return "behind the colon stands at least one part, COMPONENT.ACTION"
    bad = next((place for place, part in enumerate(parts, 1) if part.count(".") != 1), None)
    if marks[:1] == ["fault"] and "alarm" in marks:
        return "`alarm LABEL` comes before `fault`"
    if marks == ["alarm"]:
        return "behind `alarm` stands the label"
    if marks not in ([], ["fault"]) and (marks[0] != "alarm" or marks[2:] not in ([], ["fault"])):
        return f"between the name and the colon stands nothing, `alarm LABEL`, `fault` or `alarm LABEL fault`, and here `{shown(' '.join(marks))}`; a label is one word"
    if bad is None:
        return f"the line should be {LINES['event']}"
    part, dots = parts[bad - 1], parts[bad - 1].count(".")
    more = "parts stand between blanks, without commas" if "," in part else f"it has {'no dot' if not dots else f'{dots} dots'}"
    return f"the {ordinal(bad)} part, '{shown(part)}', must be COMPONENT.ACTION with one dot: {more}"


def model_name(place):
    words = place.words
    if words[0] != "event":
        return bad_name(words[1:2] if words[0] != "trans" else words[1:])
    at = words.index(":")
    label = words[3:4] if words[2] == "alarm" else []
    return bad_name(words[1:2] + label + [piece for part in words[at + 1:] for piece in part.split(".")])


def model_double(place):
    above, words = Above(place.above), place.words
    here = above.present
    if words[0] == "component":
        return f"there is a component {words[1]} already, in line {above.components[words[1]]}"
    if words[0] == "state":
        return f"{here} has a state {words[1]} already, in line {above.states[here, words[1]]}"
    if words[0] == "trans":
        return f"{here} has this transition already, in line {above.moves[(here,) + tuple(words[1:])]}"
    if words[1] in above.events:
        return f"there is an event {words[1]} already, in line {above.events[words[1]]}"
    parts = parts_of(words)
    owners = [owner for owner, _ in parts]
    twice = next(it for it in owners if owners.count(it) > 1)
    both = " and ".join(".".join(part) for part in parts if part[0] == twice)
    return f"the parts {both} are of one component, and a component takes part once in an event"


def model_unknown(place):
    above, whole, words = Above(place.above), Above(place.lines), place.words
    here = above.present
    if words[0] == "trans":
        bad = next(word for word in (words[1], words[3]) if (here, word) not in above.states)
        return f"{here} has no state {bad} above this line. " + elsewhere(whole.states.get((here, bad)), "states", above.of(above.states, here), bad)
    parts = parts_of(words)
    at, (owner, action) = next((at, part) for at, part in enumerate(parts, 1) if tuple(part) not in above.actions)
    which = f"the {ordinal(at)} of {len(parts)} parts, {owner}.{action}: " if len(parts) > 1 else ""
    if owner not in above.components:
        return f"{which}there is no component {owner} above this line. " + elsewhere(whole.components.get(owner), "components", above.components, owner, "The")
    known = above.of(above.actions, owner)
    return f"{which}no transition of {owner} above this line has the action {action}. " + elsewhere(whole.actions.get((owner, action)), "actions", known, action)


def elsewhere(line, what, known, word, whose="Its"):
    """Where a name that isn't known yet stands below, or which ones are known."""
    return f"It stands below, in line {line}, and must stand above" if line else f"{whose} {what} there: {named(known)}.{meant(word, known)}".rstrip(".")


def model_start(place):
    states = [words[1] for _, words in lines_of_component(place, place.words[1]) if words[0] == "state"]
    return f"none of the states of {place.words[1]} is marked `init`, so it can't begin. Its states: {named(states)}"


def lines_of_component(place, component):
    """The lines of a component."""
    present = None
    for number, words in place.lines:
        present = words[1] if words[0] == "component" else present
        if present == component:
            yield number, words


def model_limit(place):
    first = place.words[0]
    parts = len(parts_of(place.words)) if first == "event" else 0
    if parts > 16:
        return f"an event has at most 16 parts, and this one has {parts}"
    if first == "state":
        return "with this line the component would have more than 256 states"
    return "with this line the model would have more than " + {"component": "1,000 components", "trans": "50,000 transitions", "event": "4,000 events"}[first]


# Logs and scripts.

def log_shape(place):
    row, in_script = place.row, place.kind == "SCRIPT"
    known = [it for it in ROWS if in_script or it != "ask"]
    if row.kind not in known:
        return f"a row begins with {', '.join(f'`{it}`' for it in known[:-1])} or `{known[-1]}`, and not with '{shown(row.kind)}'" + odd_row(row, known, place.number)
    wanted = ROWS[row.kind]
    count = wanted.count(",") + 1
    over = next((field for field in row.fields[count:] if field), None)
    if over is not None:
        return f"a row `{row.kind}` is {wanted}, and '{shown(over)}' is one field too many" + (". Several labels of an alarm stand between bars: LABEL|LABEL" if row.is_alarm else "")
    return f"a row `{row.kind}` is {wanted}, and this one has {plural(len(row.fields), 'field')}"


def odd_row(row, known, number):
    """What was probably meant by a row that begins with another word."""
    if ";" in row.kind or "\t" in row.kind:
        return ". Fields stand between commas"
    if row.kind == "ask":
        return ". Questions stand in the scripts of `session`"
    if row.kind.startswith("#"):
        return ". A log has no comments"
    if row.kind.strip() in known or row.kind.strip().lower() in known:
        return f". Write {row.kind.strip().lower()}, in lower case and without blanks"
    return meant(row.kind, known) and "." + meant(row.kind, known) or (". A log has no header" if number == 1 else "")


def log_name(place):
    row = place.row
    said = bad_name([row.first] + (row.second.split("|") if row.is_alarm else [row.second]))
    blanks = any(it != it.strip() for it in (row.first, row.second))
    return said + (". Nothing is trimmed: write the fields without blanks about them" if blanks else "")


def rows_above(place):
    return [(at, row) for at, row in enumerate(place.rows[:place.number - 1], 1) if at not in place.refused]


def log_double(place):
    first = next(at for at, row in rows_above(place) if row.is_alarm and row.first == place.row.first)
    return f"{place.row.first} is an alarm already, in row {first}"


def log_unknown(place):
    known = [row.first for _, row in rows_above(place) if row.is_alarm]
    bad = next(it for it in (place.row.first, place.row.second) if it not in known)
    later = next((at for at, row in enumerate(place.rows, 1) if at > place.number and row.is_alarm and row.first == bad), None)
    if later:
        return f"there is no alarm {bad} above this row. Row {later} has it, so put this pair behind that row"
    return f"there is no alarm {bad} in this file.{meant(bad, known)}".rstrip(".")


def log_cycle(place):
    first, second = place.row.first, place.row.second
    if first == second:
        return "an alarm can't come before itself"
    chain = way([(row.first, row.second) for _, row in rows_above(place) if row.kind == "before"], second, first)
    return f"the rows above say that {' comes before '.join(chain)}, so {first} can't come before {second}"


def way(pairs, start, goal):
    """A chain of pairs from one alarm to another, or nothing."""
    chains, seen = [[start]], {start}
    for chain in chains:
        if chain[-1] == goal:
            return chain
        for first, second in pairs:
            if first == chain[-1] and second not in seen:
                seen.add(second)
                chains.append(chain + [second])
    return []


def log_limit(place):
    row = place.row
    if not row.is_alarm:
        return "with this row the log would have more than 20,000 different pairs"
    labels = row.second.count("|") + 1
    return f"an alarm has at most 64 labels, and this one has {labels}" if labels > 64 else "with this row the log would have more than 2,000 alarms"


# Runs.

def run_header(place):
    count = place.words[1] if place.words[:1] == ["run"] and len(place.words) == 2 else None
    if count is not None and not NUMBER.fullmatch(count):
        return f"the number behind `run` is in digits alone, without a sign, a comma or a leading zero, and here it is '{shown(count)}'"
    if count is not None:
        return f"a run has at most 4,000,000 lines, and here are {int(count):,}"
    head = place.words[0] if place.words else ""
    if re.fullmatch(r"CHEAPEST|DEAR|POSSIBLE|AMBIGUOUS|faulty|healthy", head):
        return f"a run text may begin with `EXPLAINED`, `MANY` or `UNDECIDED`, and not with `{head}`: take this line away, or take the run that you mean alone"
    if re.fullmatch(r"[A-Z]+", head):
        return f"the reply `{' '.join(place.words)}` has no run"
    return "a run begins with a line `run COUNT`, the number of the lines that follow; one line `EXPLAINED ..`, `MANY ..` or `UNDECIDED ..` may stand before it"


def run_shape(place):
    words = place.words
    if words == ["!"]:
        return "behind the mark ! stands the alarm that is set aside"
    if any(word.startswith("#") for word in words):
        return "a comment has a line of its own, which begins with #"
    return f"a line of a run is EVENT, EVENT ALARM or ! ALARM, and this one has {plural(len(words), 'word')}"


def run_length(place):
    at = next(at for at, (_, words) in enumerate(place.lines) if words[0] == "run")
    said, there = int(place.lines[at][1][1]), len(place.lines) - at - 1
    return f"the header says `run {said}`, and {plural(there, 'line')} {'follows' if there == 1 else 'follow'}"


def run_event(place):
    word, events = place.words[0], place.model.events
    label = [name for name, event in events.items() if event.label == word]
    if label:
        return f"the model has no event {word}: this is the label of {named(label)}. A line begins with the event"
    return f"the model has no event {word}. Its events: {named(events)}.{meant(word, events)}".rstrip(".")


# Costs.

def cost_shape(place):
    return f"the line should be `cost EVENT NUMBER`, and this one has {plural(len(place.words), 'word')}" + (
        ". A comment has a line of its own" if any(word.startswith("#") for word in place.words) else f" and begins with '{shown(place.words[0])}'" if place.words[0] != "cost" else "")


def cost_double(place):
    first = next(number for number, words in place.above if words[:2] == place.words[:2])
    return f"{place.words[1]} has a cost already, in line {first}"


def cost_unknown(place):
    word, faults = place.words[1], place.model.faults()
    what = "an event of the model, but no fault" if word in place.model.events else "no event of the model"
    return f"{word} is {what}. Its faults: {named(faults)}.{meant(word, faults)}".rstrip(".")


def cost_number(place):
    return f"a cost is a number from 1 to 1,000 in digits alone, and this is '{shown(place.words[2])}'"


# Formulas and proofs.

def literals(place):
    """Where the header of a formula stands, its two numbers, and the words behind it, each with its line."""
    header = place.lines[0][1] if place.lines else []
    numbers = [int(it) for it in header[2:4] if NUMBER.fullmatch(it)]
    return numbers, [(number, word) for number, words in place.lines[1:] for word in words]


def cnf_header(place):
    return "the first line that isn't blank or a comment must be `p cnf VARIABLES CLAUSES`" + ("" if place.words else ", and there is none")


def cnf_word(place):
    bad = next(word for word in place.words if not re.fullmatch("-?[1-9][0-9]*|0", word))
    more = ". Old files end with such a line: take it and what follows it away" if bad == "%" else ""
    return f"'{shown(bad)}' isn't a number, or has a leading zero or a sign that doesn't belong there{more}"


def cnf_variable(place):
    (most, _), _ = literals(place)
    bad = next(word for word in place.words if re.fullmatch("-?[0-9]+", word) and abs(int(word)) > most)
    return f"the literal {bad} has a variable greater than {most:,}, the number of variables in the header"


def cnf_count(place):
    (_, clauses), words = literals(place)
    there = sum(word == "0" for _, word in words)
    return f"the header says {plural(clauses, 'clause')}, and here are {'more' if there >= clauses else f'only {there:,}'}"


def cnf_large(place):
    return f"a formula has at most 100,000,000 variables and as many clauses, and the header says {' and '.join(place.words[2:4])}"


def is_drat(place):
    """Whether the lines are clauses without numbers and hints: one 0 each, at the end, or a `d` before them."""
    lines = [words[words[0] == "d":] for _, words in place.lines[:50]]
    return all(words[-1:] == ["0"] and words.count("0") == 1 and (len(words) < 2 or words[1] != "d") for words in lines)


def drat_or(said):
    return lambda place: DRAT if is_drat(place) else said(place)


def lrat_word(place):
    words = place.words
    places = [at for at, word in enumerate(words) if not re.fullmatch("-?[1-9][0-9]*|0", word) and not (at == 1 and word == "d")]
    if places:
        return f"'{shown(words[places[0]])}' isn't a number, or has a leading zero or a sign that doesn't belong there"
    if words[1:2] == ["d"]:
        return "a deletion is `ID d IDS 0`, and its numbers are positive"
    return f"a step begins with a positive number, and this one with {words[0]}" if int(words[0]) < 1 else "a hint is the number of a clause, and isn't 0"


def lrat_variable(place):
    lits = place.words[1:place.words.index("0", 1)] if "0" in place.words[1:] else place.words[1:]
    most = max(lits, key=lambda word: abs(int(word)), default="")
    return f"the literal {most} has a variable that the formula doesn't have. Is it a proof of this formula?"


def lrat_end(place):
    zeros = place.words[1:].count("0")
    wanted = "`ID d IDS 0`" if place.words[1:2] == ["d"] else "`ID LITERALS 0 HINTS 0`"
    return f"a step is {wanted} on one line, and this one {'goes on after its last 0' if zeros > 1 or zeros and place.words[1:2] == ['d'] else 'ends before its last 0'}"


def lrat_order(place):
    before = max((int(words[0]) for _, words in place.above if words[1:2] != ["d"]), default=None)
    than = f"than {before}, that of an earlier step" if before is not None and int(place.words[0]) <= before else "than the number of the formula's clauses; often the proof is of another formula"
    return f"the number of a new clause is greater than all before it, and {place.words[0]} isn't greater {than}"


def lrat_rat(place):
    behind = place.words[place.words.index("0", 1) + 1:]
    bad = next((word for word in behind if word.startswith("-")), "one")
    return f"the hint {bad} is negative: this is a RAT step, and `check` knows unit propagation alone. Ask the solver for a proof without RAT steps (`--plain` of CaDiCaL)"


MISTAKES = {
    "MODEL": {1: first_line("des 1"), 2: model_shape, 3: model_name, 4: model_double, 5: model_unknown, 6: model_start,
              7: "a `state` or a `trans` belongs to the component above it, and there is none above this line", 8: model_limit},
    "LOG": {1: log_double, 2: log_unknown, 3: log_cycle, 4: "the label is empty: write the label that the alarm has, or between bars all that it may have", 5: log_limit, 6: log_shape, 7: log_name,
            8: "with this row the question would be larger than 20,000,000; ask with fewer steps"},
    "RUN": {1: run_header, 2: run_shape, 3: lambda place: bad_name(it for it in place.words if it != "!"), 4: run_length, 5: run_event},
    "COST": {1: first_line("costs 1"), 2: cost_shape, 3: lambda place: bad_name(place.words[1:2]), 4: cost_double, 5: cost_unknown, 6: cost_number},
    "CNF": {1: cnf_header, 2: cnf_word, 3: cnf_variable, 4: cnf_count, 5: "the text ends within a clause: each clause ends with 0", 8: cnf_large},
    "LRAT": {2: drat_or(lrat_word), 3: drat_or(lrat_variable), 5: drat_or(lrat_end), 6: drat_or(lrat_order), 7: lrat_rat,
             8: "a number of a clause is at most 18,446,744,073,709,551,615"},
}


# Steps of a proof that don't follow.

KINDS = {1: "a hint names a clause that isn't there, or no longer", 2: "a hint has two or more open literals, so nothing follows from it", 3: "the hints end before a clause is false",
         4: "no line of the proof has the empty clause"}


def clauses_of(path):
    """The clauses of a formula by their numbers."""
    words = [word for _, words in counted(path, "c")[1:] for word in words]
    found, clause = {}, []
    for word in words:
        if word == "0":
            found[len(found) + 1], clause = clause, []
        else:
            clause.append(int(word))
    return found


def underived(formula, proof, line):
    """Which hint of a step fails, and how: the kind of the reply, and words."""
    known = clauses_of(formula)
    for number, words in counted(proof, "c"):
        if words[1] == "d":
            for word in words[2:-1]:
                known.pop(int(word), None)
            continue
        end = words.index("0", 1)
        clause, hints = [int(it) for it in words[1:end]], [int(it) for it in words[end + 1:-1]]
        if number == line:
            return failing(known, clause, hints)
        known[int(words[0])] = clause
    return None, ""


def failing(known, clause, hints):
    false = set(clause)
    for hint in hints:
        if hint not in known:
            return 1, f"the hint {hint} names a clause that isn't there, or no longer"
        left = sorted(set(known[hint]) - false, key=abs)
        if len(left) > 1:
            return 2, f"the hint {hint} is the clause {' '.join(map(str, known[hint]))}, of which {' and '.join(map(str, left[:4]))} are open, so nothing follows from it"
        false |= {-it for it in left}
    return 3, f"after its {plural(len(hints), 'hint')} no clause is false"
