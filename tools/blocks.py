"""Writes a model from a text in which blocks of lines repeat, with indices in their names.

    python3 tools/blocks.py [--finer] TEXT [NAME=WORD ..]

TEXT is a text of blocks; with `-` it is read from standard input. It has the lines of a model and five more: `blocks 1` at its head, `let NAME WORD`, `for NAME FROM TO`
.. `end`, `block NAME PARAMETER ..` .. `end`, and `use BLOCK WORD ..`. Braces in a word stand for a value: a name, or a sum of names and numbers with + - * / % and parentheses.
NAME=WORD sets the value of a `let` anew. docs/blocks.md explains the language. What is printed is a model in its plain form, as `show` prints it, without a mistake; or else nothing is
printed, and standard error says which line is wrong, why, and with which values. With --finer it is the model as tools/refine.py writes it, which is answered sooner. This script is no part of what is proved.

Status 0: the model was printed, 2: the call is wrong, 5: the text has a mistake.
"""
import ast
import operator
import os
import re
import signal
import sys

sys.path.insert(0, os.path.dirname(os.path.abspath(__file__)))
from refine import refined_text  # noqa: E402

NAME = re.compile(r"[A-Za-z0-9_-]{1,64}")
VALUE = re.compile(r"[A-Za-z_][A-Za-z0-9_]*")
OPERATORS = {ast.Add: operator.add, ast.Sub: operator.sub, ast.Mult: operator.mul, ast.Div: operator.floordiv, ast.Mod: operator.mod}
SHAPES = {"blocks": "`blocks 1`, once, as the first line", "let": "`let NAME WORD`", "for": "`for NAME FROM TO`", "block": "`block NAME PARAMETER ..`", "use": "`use BLOCK WORD ..`", "end": "`end` alone",
          "component": "`component NAME`", "state": "`state NAME` or `state NAME init`", "trans": "`trans FROM ACTION TO`",
          "event": "`event NAME : COMPONENT.ACTION ..`, with `alarm LABEL`, `fault`, or both in this order before the colon"}
LIMITS = {"components": 1000, "states of one component": 256, "transitions": 50000, "events": 4000, "parts of one event": 16}
DEEPEST = 50


class Mistake(Exception):
    """What is wrong, in words."""


class Line:
    """A line of the text: its number, its words, and the lines between it and its `end`."""

    def __init__(self, number, words):
        self.number, self.words, self.body = number, words, []


class Place:
    """Where in the text a line of the model comes from: the line's number, and the values of names there."""

    def __init__(self, number, values):
        self.number, self.values = number, dict(values)

    def __str__(self):
        values = ", ".join(f"{name} = {word}" for name, word in self.values.items())
        return f"line {self.number}" + (f", with {values}" if values else "")


class Wrong(Exception):
    """A mistake with its place."""

    def __init__(self, place, words):
        super().__init__(f"{place}: {words}")


def fits_shape(words):
    """Whether a line has the shape of its first word."""
    count = len(words)
    return {"blocks": count == 2, "let": count == 3, "for": count == 4, "block": count > 1, "use": count > 1, "end": count == 1, "component": count == 2,
            "state": count == 2 or (count == 3 and words[2] == "init"), "trans": count == 4, "event": ":" in words}[words[0]]


def counted(text):
    """The lines of a text that count: neither blank nor a comment."""
    for number, line in enumerate(text.split("\n"), 1):
        words = line.split()
        if words and not words[0].startswith("#"):
            yield Line(number, words)


def nested(text):
    """The lines of the text, those between a `for` or a `block` and its `end` inside it."""
    top, open_lines = [], []
    for line in counted(text):
        first, place = line.words[0], Place(line.number, {})
        if first not in SHAPES:
            raise Wrong(place, f"a line doesn't begin with {first}, but with one of {', '.join(SHAPES)}")
        if not fits_shape(line.words):
            raise Wrong(place, f"the line should have the shape {SHAPES[first]}")
        if first == "blocks" and top:
            raise Wrong(place, "`blocks 1` stands once, as the first line")
        if first in ("let", "block") and open_lines:
            raise Wrong(place, f"`{first}` stands inside no other lines, and this one stands inside line {open_lines[-1].number}")
        if first != "end":
            (open_lines[-1].body if open_lines else top).append(line)
        elif not open_lines:
            raise Wrong(place, "this `end` has no `for` or `block` above it")
        else:
            open_lines.pop()
        if first in ("for", "block"):
            open_lines.append(line)
    if open_lines:
        raise Wrong(Place(open_lines[-1].number, {}), f"this `{open_lines[-1].words[0]}` has no `end`")
    if not top or top[0].words != ["blocks", "1"]:
        raise Wrong(Place(top[0].number if top else 1, {}), "the first line that counts should be `blocks 1`")
    return top[1:]


def number_of(word):
    """The number that a word writes."""
    if not re.fullmatch(r"-?[0-9]+", word):
        raise Mistake(f"{word} isn't a number")
    return int(word)


def counted_out(node, values):
    """The number that an expression stands for."""
    if isinstance(node, ast.Constant) and type(node.value) is int:
        return node.value
    if isinstance(node, ast.Name):
        return number_of(value_of(node.id, values))
    if isinstance(node, ast.UnaryOp) and isinstance(node.op, ast.USub):
        return -counted_out(node.operand, values)
    if isinstance(node, ast.BinOp) and type(node.op) in OPERATORS:
        left, right = counted_out(node.left, values), counted_out(node.right, values)
        if right == 0 and isinstance(node.op, (ast.Div, ast.Mod)):
            raise Mistake("a number is divided by 0")
        return OPERATORS[type(node.op)](left, right)
    raise Mistake("braces have names, whole numbers, + - * / % and parentheses")


def value_of(name, values):
    """The word that a name stands for."""
    if name not in values:
        raise Mistake(f"nothing here has the name {name}; known are: {', '.join(values) or 'none'}")
    return values[name]


def inside_braces(written, values):
    """The word that braces stand for."""
    if VALUE.fullmatch(written):
        return value_of(written, values)
    try:
        expression = ast.parse(written, mode="eval").body
    except (SyntaxError, ValueError):
        raise Mistake(f"{{{written}}} is neither a name nor a sum") from None
    return str(counted_out(expression, values))


def filled(word, values):
    """A word in which the braces are replaced by what they stand for."""
    found = re.sub(r"\{([^{}]*)\}", lambda it: inside_braces(it.group(1), values), word)
    if "{" in found or "}" in found:
        raise Mistake(f"a brace of {word} has no partner in this word (an expression has no blanks)")
    return found


class Component:
    """A component with its place in the text, its states, each with whether it is initial, its transitions, and the actions that they have."""

    def __init__(self, place):
        self.place, self.states, self.moves, self.actions = place, {}, {}, set()


class Event:
    """An event with its place, the words before the colon, and its parts as they are written."""

    def __init__(self, place, head, parts):
        self.place, self.head, self.parts = place, head, parts


class Model:
    """A model as it is written line by line; a line that would be a mistake of its text is refused."""

    def __init__(self):
        self.components, self.events, self.present = {}, {}, None

    def add(self, place, words):
        """Adds a line of a model."""
        if not fits_shape(words):
            raise Mistake(f"the line should have the shape {SHAPES[words[0]]}")
        if words[0] in ("state", "trans") and self.present is None:
            raise Mistake(f"this `{words[0]}` stands before any component")
        getattr(self, f"add_{words[0]}")(place, words)

    def add_component(self, place, words):
        must_be_name(words[1])
        once(words[1], self.components, "the component")
        self.present = self.components[words[1]] = Component(place)
        within("components", self.components)

    def add_state(self, place, words):
        must_be_name(words[1])
        once(words[1], self.present.states, "the state")
        self.present.states[words[1]] = words[2:] == ["init"]
        within("states of one component", self.present.states)

    def add_trans(self, place, words):
        for word in words[1:]:
            must_be_name(word)
        move = tuple(words[1:])
        once(move, self.present.moves, "the transition", " ".join(move))
        for state in (move[0], move[2]):
            if state not in self.present.states:
                raise Mistake(f"the component has no state {state} above this line; it has {', '.join(self.present.states) or 'none'}")
        self.present.moves[move] = place
        self.present.actions.add(move[1])

    def add_event(self, place, words):
        at = words.index(":")
        marks = words[2:at]
        if marks not in ([], ["fault"]) and not (marks[0] == "alarm" and marks[2:] in ([], ["fault"]) and len(marks) > 1) or at < 2 or at + 1 == len(words):
            raise Mistake(f"the line should have the shape {SHAPES['event']}")
        for word in [words[1]] + (marks[1:2] if marks[:1] == ["alarm"] else []):
            must_be_name(word)
        once(words[1], self.events, "the event")
        self.events[words[1]] = Event(place, words[:at], words[at + 1:])
        within("events", self.events)

    def parts_of(self, event):
        """The parts of an event: equal ones once, and without those that are left out where there is no such component."""
        found = {}
        for word in event.parts:
            component, dot, action = word.rstrip("?").partition(".")
            if not dot or "." in action:
                raise Mistake(f"{word} isn't COMPONENT.ACTION")
            must_be_name(component)
            must_be_name(action)
            if component not in self.components:
                if word.endswith("?"):
                    continue
                raise Mistake(f"there is no component {component}")
            if action not in self.components[component].actions:
                raise Mistake(f"{component} has no transition {action}; it has {', '.join(sorted(self.components[component].actions)) or 'none'}")
            if found.setdefault(component, action) != action:
                raise Mistake(f"{component} would take two actions, {found[component]} and {action}")
        if not found:
            raise Mistake("the event has no part left")
        within("parts of one event", found)
        return [f"{component}.{action}" for component, action in found.items()]

    def text(self):
        """The plain form of the model."""
        lines = ["des 1"]
        for name, component in self.components.items():
            if not any(component.states.values()):
                raise Wrong(component.place, f"no state of the component {name} is marked init")
            lines.append(f"component {name}")
            lines += [f"state {state}" + (" init" if is_init else "") for state, is_init in component.states.items()]
            lines += ["trans " + " ".join(move) for move in component.moves]
        for event in self.events.values():
            try:
                lines.append(" ".join(event.head + [":"] + self.parts_of(event)))
            except Mistake as mistake:
                raise Wrong(event.place, mistake) from None
        if sum(len(it.moves) for it in self.components.values()) > LIMITS["transitions"]:
            raise Wrong("at the end", "a model has at most 50,000 transitions")
        return "\n".join(lines) + "\n"


def must_be_name(word):
    """Refuses a word that isn't a name of a model."""
    if not NAME.fullmatch(word):
        raise Mistake(f"{word or 'an empty word'} isn't a name (1 to 64 letters, digits, _ and -)")


def once(key, known, kind, name=None):
    """Refuses what is there already."""
    if key in known:
        raise Mistake(f"{kind} {name or key} is there already")


def within(kind, items):
    """Refuses more than a model may have."""
    if len(items) > LIMITS[kind]:
        raise Mistake(f"a model has at most {LIMITS[kind]:,} {kind}")


class Writer:
    """Writes the lines of a text into a model."""

    def __init__(self, given):
        self.given, self.values, self.blocks, self.model = dict(given), {}, {}, Model()

    def write(self, lines, values, depth=0):
        """Writes lines in which these names have values, beside those that `let` gives."""
        for line in lines:
            place = Place(line.number, values)
            try:
                self.write_line(line, values, place, depth)
            except Mistake as mistake:
                raise Wrong(place, mistake) from None

    def write_line(self, line, values, place, depth):
        """Writes a line, or does what it says."""
        first, known = line.words[0], {**self.values, **values}
        if first == "let":
            must_be_value(line.words[1])
            once(line.words[1], self.values, "the name")
            default = filled(line.words[2], known)
            self.values[line.words[1]] = self.given.pop(line.words[1], default)
        elif first == "block":
            once(line.words[1], self.blocks, "the block")
            for name in line.words[2:]:
                must_be_value(name)
            self.blocks[line.words[1]] = line
        elif first == "for":
            must_be_value(line.words[1])
            begin, end = (number_of(filled(word, known)) for word in line.words[2:])
            for value in range(begin, end + 1):
                self.write(line.body, {**values, line.words[1]: str(value)}, depth + 1)
        elif first == "use":
            self.use(line.words[1], [filled(word, known) for word in line.words[2:]], depth)
        else:
            self.model.add(place, [filled(word, known) for word in line.words])

    def use(self, name, words, depth):
        """Writes the lines of a block, whose parameters stand for these words."""
        if name not in self.blocks:
            raise Mistake(f"no block above has the name {name}; known are: {', '.join(self.blocks) or 'none'}")
        block = self.blocks[name]
        parameters = block.words[2:]
        if len(words) != len(parameters):
            raise Mistake(f"the block {name} on line {block.number} takes {len(parameters)} words ({' '.join(parameters)}), and here are {len(words)}")
        if depth == DEEPEST:
            raise Mistake(f"{DEEPEST} blocks are inside each other; does {name} use itself?")
        self.write(block.body, dict(zip(parameters, words)), depth + 1)


def must_be_value(word):
    """Refuses a word that can't be the name of a value."""
    if not VALUE.fullmatch(word):
        raise Mistake(f"{word} can't be the name of a value: it has letters, digits and _, and begins with no digit")


def model_of(text, given=()):
    """The plain model that a text of blocks writes, where these pairs set a `let` anew."""
    writer = Writer(given)
    writer.write(nested(text), {})
    if writer.given:
        raise Wrong("on the command line", f"no `let` has the name {', '.join(writer.given)}")
    return writer.model.text()


def main(words):
    is_finer, words = words[:1] == ["--finer"], [it for place, it in enumerate(words) if place or it != "--finer"]
    if not words or any("=" not in it for it in words[1:]):
        sys.stderr.write(__doc__)
        return 2
    try:
        with sys.stdin if words[0] == "-" else open(words[0], encoding="utf-8") as it:
            text = it.read()
    except (OSError, UnicodeDecodeError) as fault:
        print(f"{words[0]}: {fault}", file=sys.stderr)
        return 2
    try:
        model = model_of(text, (it.split("=", 1) for it in words[1:]))
    except Wrong as wrong:
        print(f"{words[0]}, {wrong}", file=sys.stderr)
        return 5
    sys.stdout.write(refined_text(model) if is_finer else model)
    return 0


if __name__ == "__main__":
    if hasattr(signal, "SIGPIPE"):
        signal.signal(signal.SIGPIPE, signal.SIG_DFL)
    sys.exit(main(sys.argv[1:]))
