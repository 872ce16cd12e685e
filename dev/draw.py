"""Small wrong changes of code, as a slip of the hand makes them: where in the functions each can be made, and what stands there then. mutants.py plants and judges them.

A change is made in a body in `src/` of a crate: contracts, comments, ghost lines, attributes and tests are left alone, and so are the methods of a trait's impl, since a copy of
one can't stand beside it. Each rule is a kind of slip and says where it can be made: `operators` takes `<` for `<=`, `statements` leaves one out. All are listed in RULES.
"""
import collections
import dataclasses
import glob
import os
import random
import re

TOKEN = re.compile(r"""(?P<space>\s+|//[^\n]*)|(?P<string>b?"(?:\\.|[^"\\])*")|(?P<char>b?'(?:\\.[^']*|[^'\\])')|(?P<label>'\w+)|(?P<number>\d\w*)|(?P<word>[A-Za-z_]\w*)
 |(?P<op>\.\.=|<<=|>>=|\.\.|::|->|=>|<=|>=|==|!=|&&|\|\||[-+*/%&|^]=|<<|>>|[^\s\w])""", re.X | re.S)
BLOCK = re.compile(r"impl\b(.*)\{|(?:pub )?trait (\w+)")
HEAD = re.compile(r"( {4})?(?:pub(?:\(\w+\))? )?(?:const )?fn (\w+)")
CLOSES = {"(": ")", "[": "]", "{": "}"}
CONTROL = {"if", "while", "for", "match", "loop"}
# What a slip takes for an operator.
OPERATORS = {"<": "<=", "<=": "<", ">": ">=", ">=": ">", "==": "!=", "!=": "==", "&&": "||", "||": "&&", "+": "-", "-": "+", "*": "+", "/": "*", "%": "/", "+=": "-=", "-=": "+=",
             "<<": ">>", ">>": "<<", "|": "&", "&": "|", "^": "|", "|=": "&=", "&=": "|="}
# What a slip takes for a method.
METHODS = {"first": "last", "last": "first", "min": "max", "max": "min", "any": "all", "all": "any", "is_some": "is_none", "is_none": "is_some", "is_ok": "is_err", "is_err": "is_ok",
           "saturating_sub": "saturating_add", "pop": "last"}
# What a body may give up with, by what the function returns.
EARLY = [(r"\(\)", ""), (r"Result<\(\).*", "Ok(())"), (r"Option<.*", "None"), (r"bool", "false"), (r"u8|u16|u32|u64|usize", "0"), (r"Result<Option<.*", "Ok(None)"),
         (r"Result<bool, .*", "Ok(false)")]


@dataclasses.dataclass
class Token:
    kind: str
    text: str
    start: int
    end: int


@dataclasses.dataclass
class Function:
    """A function with a body, and where it stands in the text of its file: from the comments above it, from its head, its body, and to its end."""
    crate: str
    file: str
    name: str
    owner: str
    text: str
    top: int
    start: int
    open: int
    end: int

    def head(self):
        return self.text[self.start:self.open]


@dataclasses.dataclass
class Change:
    """A wrong change: what stands there in place of the text from start to end."""
    function: Function
    start: int
    end: int
    new: str
    kind: str


def functions(crate, file, text):
    """The functions of a file, but for the methods of a trait's impl, and tests."""
    lines, at, block, top = text.split("\n"), 0, "", None
    starts = [0]
    for line in lines:
        starts.append(starts[-1] + len(line) + 1)
    while at < len(lines) and not lines[at].startswith("#[cfg(test)]"):
        line, found = lines[at], HEAD.match(lines[at])
        block = BLOCK.match(line)[1] or "trait" if BLOCK.match(line) else "" if line.startswith("}") else block
        if re.match(r" *(//|#\[)", line):
            top = at if top is None else top
        elif not found:
            top = None
        else:
            first = at if top is None else top
            opens = next(it for it in range(at, len(lines)) if lines[it].endswith(("{", "{}", ";")))
            top = None
            if lines[opens].endswith("{"):
                closes = next(it for it in range(opens, len(lines)) if lines[it] == f"{found[1] or ''}}}")
                if not (found[1] and (block == "trait" or " for " in block)):
                    owner = owner_of(block) if found[1] else ""
                    yield Function(crate, file, found[2], owner, text, starts[first], starts[at], starts[opens] + len(lines[opens]) - 1, starts[closes + 1] - 1)
                at = closes
        at += 1


def owner_of(block):
    """The type of an impl, from what stands behind that word: without parameters."""
    rest, depth = block, 0
    if rest.startswith("<"):
        for at, sign in enumerate(rest):
            depth += (sign == "<") - (sign == ">" and rest[at - 1] != "-")
            if not depth:
                rest = rest[at + 1:]
                break
    return re.match(r"\s*(\w+)", rest)[1]


def tokens_of(text, start, end):
    found = []
    while start < end:
        token = TOKEN.match(text, start)
        if token.lastgroup != "space":
            found.append(Token(token.lastgroup, token[0], start, token.end()))
        start = token.end()
    return found


class Body:
    """The tokens of a body, which bracket closes which, and its statements and arms."""

    def __init__(self, function, types, draw):
        self.function, self.types, self.draw = function, types, draw
        self.tokens = tokens_of(function.text, function.open, function.end)
        self.pairs, self.blocks, self.arm_blocks = {}, [], []
        self.find_blocks()
        self.statements = {opens: self.statements_of(opens, closes) for opens, closes in self.blocks}
        self.ghost = {at for these in self.statements.values() for first, last, kind in these if kind == "ghost" for at in range(first, last + 1)}
        signature = re.split(r"\n *(?:requires|ensures|ghost)\b", function.head())[0]
        self.returns = signature.rpartition("->")[2].strip() if "->" in signature else "()"
        self.mates = mates_of(re.findall(r"(\w+): ([^,()]+)", signature.partition("(")[2].rpartition("->")[0] or signature.partition("(")[2]))

    def find_blocks(self):
        """Pairs the brackets, and finds those that hold statements and those that hold arms."""
        stack, pending = [], []
        for at, token in enumerate(self.tokens):
            before = self.tokens[at - 1].text if at else ""
            if token.kind == "word" and token.text in CONTROL:
                pending.append((token.text, len(stack)))
            if token.text in CLOSES:
                kind = token.text
                if token.text == "{" and at and pending and pending[-1][1] == len(stack):
                    kind = "arms" if pending.pop()[0] == "match" else "block"
                elif token.text == "{" and (not at or before in ("=>", "else", "|", "||", ";", "{", "}")):
                    kind = "block"
                stack.append((kind, at))
            elif token.text in CLOSES.values():
                kind, opens = stack.pop()
                self.pairs[opens], self.pairs[at] = at, opens
                if kind in ("block", "arms"):
                    (self.blocks if kind == "block" else self.arm_blocks).append((opens, at))

    def statements_of(self, opens, closes):
        """The statements of a block: first token, last token, and kind: let, ghost, control, expr (with a semicolon), tail and the like."""
        at, found = opens + 1, []
        while at < closes:
            first, head = at, self.tokens[at + 2 if self.tokens[at].kind == "label" else at].text
            kind = None
            while kind is None and at < closes:
                if self.tokens[at].text in CLOSES:
                    at = self.pairs[at]
                    if head in CONTROL | {"{"} and self.tokens[at].text == "}" and self.tokens[at + 1].text not in ("else", ".", "?", ";"):
                        kind = "control" if at + 1 < closes else "tail"
                elif self.tokens[at].text == ";":
                    kind = head if head in ("let", "ghost", "return", "break", "continue", "const") else "expr"
                at += 1
            found.append((first, at - 1, kind or "tail"))
        return found

    def source(self, first, last):
        return self.function.text[self.tokens[first].start:self.tokens[last].end]

    def near(self, at):
        """The texts of the tokens before and behind one."""
        return self.tokens[at - 1].text if at else "", self.tokens[at + 1].text if at + 1 < len(self.tokens) else ""

    def parts(self, opens):
        """What stands between the commas in a bracket: first and last token of each."""
        found, first, at = [], opens + 1, opens + 1
        while at <= self.pairs[opens]:
            if self.tokens[at].text == "," or at == self.pairs[opens]:
                if first < at:
                    found.append((first, at - 1))
                first = at + 1
            at = self.pairs[at] if self.tokens[at].text in CLOSES else at
            at += 1
        return found

    def end_of_head(self, at):
        """The token that opens the block behind `if`, `while`, `for` or a guard of an arm."""
        while self.tokens[at].text not in ("{", "=>"):
            at = self.pairs[at] + 1 if self.tokens[at].text in ("(", "[") else at + 1
        return at

    def put(self, first, last, new, kind):
        """A change of the tokens from first to last."""
        return Change(self.function, self.tokens[first].start, self.tokens[last].end, new, kind)

    def exchange(self, one, other, kind):
        """Two pieces exchanged, if they differ."""
        (a, b), (c, d) = one, other
        if self.source(a, b) != self.source(c, d):
            between = self.function.text[self.tokens[b].end:self.tokens[c].start]
            yield self.put(a, d, self.source(c, d) + between + self.source(a, b), kind)


def mates_of(params):
    """For each parameter the others of its type."""
    return {name: [other for other, of in params if of == kind and other != name] for name, kind in params}


# ---- rules: each gives the changes at a token of a body


def operators(body, at):
    token = body.tokens[at]
    before, behind = body.tokens[max(at - 1, 0)], body.tokens[min(at + 1, len(body.tokens) - 1)]
    if token.text in OPERATORS and before.end < token.start and token.end < behind.start:
        yield body.put(at, at, OPERATORS[token.text], f"{token.text} is {OPERATORS[token.text]}")
        if token.text in ("+", "-") and behind.text == "1":
            yield Change(body.function, before.end, behind.end, "", f"{token.text} 1 left out")
    if token.text == "!" and token.end == behind.start and behind.text != "(" and before.text in ("if", "while", "return", "in", "&&", "||", "(", "=", "{"):
        yield body.put(at, at, "", "! left out")


def numbers(body, at):
    token, before = body.tokens[at], body.near(at)[0]
    if token.kind == "number" and token.text.isdigit() and before != ".":
        yield body.put(at, at, str(int(token.text) + 1), "one more")
        if token.text != "0":
            yield body.put(at, at, str(int(token.text) - 1), "one less")
    elif token.kind == "number" and before == "." and token.text in ("0", "1"):
        yield body.put(at, at, str(1 - int(token.text)), "other field of a pair")
    elif token.kind == "word" and re.fullmatch(r"[A-Z][A-Z0-9_]{2,}", token.text):
        yield body.put(at, at, f"({token.text} - 1)", "one less")
    elif token.text in ("true", "false"):
        yield body.put(at, at, "false" if token.text == "true" else "true", "other truth value")


def ranges(body, at):
    token = body.tokens[at]
    if token.text in ("..", "..="):
        yield body.put(at, at, "..=" if token.text == ".." else "..", "range ends elsewhere")
        if body.tokens[at - 1].kind == "number" and body.tokens[at - 1].text.isdigit():
            yield body.put(at - 1, at - 1, str(int(body.tokens[at - 1].text) + 1), "range begins later")


def texts(body, at):
    token = body.tokens[at]
    if token.kind == "string" and len(token.text.strip('b"')) > 1 and "\\" not in token.text:
        yield body.put(at, at, token.text[:-2] + '"', "text cut")
    if token.kind == "char" and len(token.text.strip("b'")) == 1:
        yield body.put(at, at, token.text[:-2] + chr(ord(token.text[-2]) + 1) + "'", "other sign")


def conditions(body, at):
    if body.tokens[at].text not in ("if", "while") or body.near(at)[1] == "let":
        return
    end = body.end_of_head(at + 1)
    if "let" not in [it.text for it in body.tokens[at:end]]:
        yield body.put(at + 1, end - 1, f"!({body.source(at + 1, end - 1)})", "condition negated")
        if body.tokens[at].text == "while":
            yield body.put(at + 1, end - 1, "false", "loop not entered")


def loops(body, at):
    token = body.tokens[at]
    if token.text == "for":
        over = next(it for it in range(at, len(body.tokens)) if body.tokens[it].text == "in") + 1
        end = body.end_of_head(over)
        listed, counted = body.source(over, end - 1), re.fullmatch(r"(\S+)\.\.([\w.()]+)", body.source(over, end - 1))
        if counted:
            yield body.put(over, end - 1, f"{counted[1]}..{counted[2]}.saturating_sub(1)", "one turn fewer")
        elif re.fullmatch(r"&?[\w.]+", listed):
            yield body.put(over, end - 1, f"&{listed.lstrip('&')}[1..]", "one turn fewer")
    if token.text in ("break", "continue") and body.near(at)[1] == ";":
        yield body.put(at, at, "continue" if token.text == "break" else "break", f"{token.text} is the other")


def names(body, at):
    """Another method, field, variant or parameter in place of one."""
    token, (before, behind) = body.tokens[at], body.near(at)
    if token.kind != "word":
        return
    if before == "." and behind == "(" and token.text in METHODS:
        yield body.put(at, at, METHODS[token.text], "other method")
    alike = body.types.alike.get((body.function.crate, token.text))
    if before == "." and behind != "(" and alike:
        yield body.put(at, at, body.draw.choice(sorted(alike)), "other field")
    if behind == "::" and token.text in body.types.variants and body.tokens[at + 2].kind == "word":
        shape = dict(body.types.variants[token.text]).get(body.tokens[at + 2].text)
        others = [name for name, of in body.types.variants[token.text] if of == shape and name != body.tokens[at + 2].text]
        if others:
            yield body.put(at + 2, at + 2, body.draw.choice(others), "other variant")
    if before != "." and behind != ":" and body.mates.get(token.text):
        yield body.put(at, at, body.draw.choice(body.mates[token.text]), "other parameter")
    if token.text == "Some" and behind == "(" and body.tokens[body.pairs[at + 1] + 1].text not in ("=>", "=", "|", "if"):
        yield body.put(at, body.pairs[at + 1], "None", "nothing in place of something")


def arguments(body, at):
    """Two neighbours in a call, a literal or a list exchanged, or the last of a list left out."""
    token, before = body.tokens[at], body.tokens[max(at - 1, 0)]
    of_call = token.text == "(" and before.kind == "word" and before.text not in CONTROL | {"in", "return", "let", "Some", "Ok", "Err"}
    of_list = token.text == "[" and before.kind != "word" and before.text not in (")", "]", "#")
    if of_call or of_list:
        parts = body.parts(at)
        for one, other in zip(parts, parts[1:]):
            yield from body.exchange(one, other, "neighbours exchanged")
        if of_list and len(parts) > 1:
            yield Change(body.function, body.tokens[parts[-2][1]].end, body.tokens[parts[-1][1]].end, "", "last one left out")
    if token.text == "{" and (at, body.pairs[at]) not in body.blocks + body.arm_blocks:
        fields = [(first + 2, last) for first, last in body.parts(at) if last > first + 1 and body.tokens[first + 1].text == ":"]
        for one, other in zip(fields, fields[1:]):
            yield from body.exchange(one, other, "fields exchanged")


def statements(body, at):
    """A statement left out, a failure passed over, two statements exchanged, or an end that comes too early."""
    if at not in body.statements:
        return
    these = body.statements[at]
    early = next((value for pattern, value in EARLY if re.fullmatch(pattern, body.returns)), None)
    in_closure = at and body.tokens[at - 1].text in ("|", "||")
    for place, (first, last, kind) in enumerate(these):
        if kind == "expr" or kind == "control" and body.tokens[first].text in ("if", "for", "while"):
            yield body.put(first, last, "", "statement left out")
        if kind == "expr" and body.source(first, last).endswith("?;"):
            yield body.put(first, last, f"let _ = {body.source(first, last)[:-2]};", "failure passed over")
        if kind in ("expr", "control") and place + 1 < len(these) and not in_closure:
            if these[place + 1][2] in ("expr", "control"):
                yield from body.exchange((first, last), these[place + 1][:2], "statements exchanged")
            if early is not None:
                yield Change(body.function, body.tokens[last].end, body.tokens[last].end, f" return {early}".rstrip() + ";", "ends too early")
    if at == 0 and these and early is not None and these[0][2] != "tail":
        yield body.put(these[0][0], these[-1][1], early, "nothing done")


def arms(body, at):
    """The results of two arms that follow one another exchanged."""
    if (at, body.pairs.get(at)) not in body.arm_blocks:
        return
    results, place = [], at + 1
    while place < body.pairs[at]:
        first = place = body.end_of_head(place) + 1
        if body.tokens[first - 1].text == "{":
            return  # (a pattern with fields)
        if body.tokens[first].text == "{":
            place = body.pairs[first] + 1
            results.append((first, place - 1))
        else:
            while place < body.pairs[at] and body.tokens[place].text != ",":
                place = body.pairs[place] + 1 if body.tokens[place].text in CLOSES else place + 1
            results.append((first, place - 1))
        place += body.tokens[place].text == ","
    for one, other in zip(results, results[1:]):
        if "unreachable" not in body.source(one[0], other[1]):
            yield from body.exchange(one, other, "results exchanged")


RULES = [operators, numbers, ranges, texts, conditions, loops, names, arguments, statements, arms]


# ---- drawing


class Types:
    """What structs and enums have: for each field of a crate those of the same type beside it, and for each enum of all crates its variants."""

    def __init__(self, root):
        self.alike, self.variants = collections.defaultdict(set), collections.defaultdict(list)
        for path in glob.glob(f"{root}/crates/*/src/**/*.rt", recursive=True):
            with open(path, encoding="utf-8") as it:
                text = re.sub(r"//[^\n]*", "", it.read())
            for struct in re.finditer(r"struct \w+[^{;(]*\{(.*?)^\}", text, re.S | re.M):
                for name, others in mates_of(re.findall(r"^\s*(?:pub(?:\(\w+\))? )?(\w+): ([^\n]+?),?$", struct[1], re.M)).items():
                    self.alike[os.path.relpath(path, f"{root}/crates").split("/")[0], name].update(others)
            for enum in re.finditer(r"enum (\w+)[^{;]*\{(.*?)^\}", text, re.S | re.M):
                self.variants[enum[1]] += re.findall(r"^\s*(\w+)(\([^\n]*\)|\s*\{[^\n]*\})?,?$", enum[2], re.M)


def changes(root, crate, types, draw):
    """All changes of a crate, each text once, in an order that is drawn."""
    found = {}
    for path in sorted(glob.glob(f"{root}/crates/{crate}/src/**/*.rt", recursive=True)):
        with open(path, encoding="utf-8") as it:
            text = it.read()
        for function in functions(crate, os.path.relpath(path, f"{root}/crates/{crate}"), text):
            body = Body(function, types, draw)
            for at in range(len(body.tokens)):
                for it in (it for rule in RULES if at not in body.ghost for it in rule(body, at)):
                    if text[it.start:it.end] != it.new:
                        found.setdefault((it.function.file, it.start, it.end, it.new), it)
    return draw.sample(list(found.values()), len(found))


def every_change(root, crates, seed):
    """For each crate all its changes in an order that the seed gives."""
    types = Types(root)
    return {crate: changes(root, crate, types, random.Random(f"{seed} {crate}")) for crate in crates}
