"""Makes a page of one diagnosis that can be handed to a colleague: what was found, the run as a picture, what is certain of each fault, the log, the plant, and how to check it.

    python3 tools/report.py [--seconds S] PROGRAM MODEL LOG N BUDGET [COSTS] > report.html

PROGRAM is the compiled program, crates/diagnose_cli/out/diagnose_cli, and the other words are those of its `verdicts`, with COSTS also of `cheapest`. It is called for the answer and the
verdicts, for the refutation and its check, and for the replay of each run; no call may take longer than S seconds (60 if nothing is said), and the page says which was stopped.
The page is one HTML file with the pictures in it; it needs no script and nothing from elsewhere, follows the light or dark scheme of the screen, and can be printed. If there is no
answer (a mistake in a file, a spent budget, a log that nothing explains), the page says what to do next. The status is that of the first call (of `cheapest` if
costs are given), and 124 if that was stopped. This script is no part of what is proved.
"""
import datetime
import os
import re
import shlex
import sys
import tempfile
from html import escape

sys.path.insert(0, os.path.dirname(os.path.abspath(__file__)))
import plant  # noqa: E402
import timeline  # noqa: E402
from diagnosis import Diagnosis  # noqa: E402
from report_words import Words, listing, sentence, word  # noqa: E402
from svg import DARK  # noqa: E402
from texts import called, plural, read, rows_of, shown  # noqa: E402

CSS = os.path.join(os.path.dirname(os.path.abspath(__file__)), "report.css")
# How wide a run is drawn for a wide and a narrow screen, how high a picture may be on paper, and how much of what is long is shown.
WIDE, NARROW, TALL, DRAWN, LONG, PRINTED, SHOWN, FOLDED = 760, 350, 520, 12, 600, 20, 300, 12
MARKS = {"certain": "\u25cf", "possible": "\u25d0", "open": "?", "excluded": "\u25cb"}
MEANS = {"certain": "every explanation with the fewest faults has it", "possible": "some explanations with the fewest faults have it and some don't", "open": "the budget or the time was spent before it was known",
         "excluded": "no explanation with the fewest faults has it"}
TOP = """<!doctype html>
<html lang="en">
<head>
<meta charset="utf-8">
<meta name="viewport" content="width=device-width, initial-scale=1">
<meta name="color-scheme" content="light dark">
<meta http-equiv="Content-Security-Policy" content="default-src 'none'; style-src 'unsafe-inline'">"""


# Elements of a page.

def coloured(rules):
    """Rules with a variable for each colour that the dark scheme sets anew."""
    return re.sub("#([0-9a-f]{6}|[0-9a-f]{3})\\b", lambda it: f"var(--c{it[1]})" if it[1] in DARK else it[0], rules)


def style():
    """The rules of the page and of both kinds of pictures, whose names are the same, with the colours of both schemes."""
    rules = [coloured(re.sub(r"(?s)/\*.*?\*/\n?", "", read(CSS)))]
    for kind, its in (("timeline", timeline.STYLE), ("plant", plant.STYLE)):
        for names, inside in re.findall(r"([^{}]+)\{([^{}]*)\}", its):
            rules.append(", ".join(f".{kind} {name.strip()}" for name in names.split(",")) + " {" + coloured(inside) + "}")
    light, dark = (" ".join(f"--c{it}: #{colours[it]};" for it in DARK) for colours in ({it: it for it in DARK}, DARK))
    return (f":root {{ color-scheme: light dark; {light} }}\n@media screen and (prefers-color-scheme: dark) {{ :root {{ {dark} }} }}\n"
            "@media print { :root { color-scheme: light; } }\n" + "\n".join(rules))


def embedded(svg, kind, name, title, says):
    """A picture as a part of the page: without rules of its own, in its colours, and with words for those who can't see it."""
    head, rest = re.sub(r"(?s)<style>.*?</style>", "", svg, count=1).split(">", 1)
    rest = re.sub(r"^\s*<title>.*?</title>", "", rest)
    return f'{head} class="{kind}" aria-labelledby="{name}-title {name}-says"><title id="{name}-title">{escape(title)}</title><desc id="{name}-says">{escape(says)}</desc>{rest}'


def region(inside, label, kind=""):
    """A part that can be scrolled sideways, by keys too."""
    return f'<div class="{("wide " + kind).strip()}" role="region" tabindex="0" aria-label="{escape(label)}">{inside}</div>'


def command(words):
    return " ".join(shlex.quote(it) for it in words)


def pre(words):
    return f"<pre><code>{escape(words)}</code></pre>"


def ticked(words):
    """Words with code between backticks."""
    return re.sub("`([^`]*)`", r"<code>\1</code>", escape(words))


def fold(summary, inside, name="", kind=""):
    """A part that one click opens. On paper it is open, unless it is of the kind `less`, which says again what is said elsewhere; of the kind `long` the pictures are left out there."""
    marks = f' id="{name}"' * bool(name) + f' class="{kind}"' * bool(kind)
    return f"<details{marks}><summary>{escape(summary)}</summary>\n{inside}\n</details>"


def table(caption, heads, rows):
    """A table whose first column, or the one that is marked so, names the row. Cells are HTML already; a row is its class and its cells."""
    first = next((place for place, head in enumerate(heads) if head.startswith("*")), 0)
    top = "".join(f'<th scope="col">{escape(head.lstrip("*"))}</th>' for head in heads)
    body = [f"<tr{f' class={chr(34)}{kind}{chr(34)}' if kind else ''}>"
            + "".join(f'<th scope="row">{cell}</th>' if place == first else f"<td>{cell}</td>" for place, cell in enumerate(cells)) + "</tr>" for kind, cells in rows]
    inside = f"<table><caption>{escape(caption)}</caption><thead><tr>{top}</tr></thead>\n<tbody>\n" + "\n".join(body) + "\n</tbody></table>"
    return region(inside, caption.split(".")[0])


def called_by(reply):
    """A call with what it printed."""
    lines = reply.text.rstrip("\n").split("\n")
    more = [f".. and {len(lines) - SHOWN:,} more lines"] if len(lines) > SHOWN else []
    return pre("\n".join(["$ " + command(reply.words)] + lines[:SHOWN] + more)) + f'\n<p class="small">{escape(reply.ending())}</p>'


def replied(reply):
    return "was stopped" if reply.is_stopped else f"replied <strong>{escape(reply.first())}</strong>"


class Page:
    """The page about a diagnosis, part by part."""

    def __init__(self, found):
        self.found, self.words, self.model = found, Words(found), found.model
        self.is_least = found.drawn is not None and found.drawn is found.cheapest

    def html(self):
        title = escape(self.words.headline().says)
        parts = [f"<section>{it}</section>" for it in (self.top(), self.runs(), self.faults(), self.log(), self.plant(), self.check(), self.about()) if it]
        return "\n".join([TOP, f"<title>{title}</title>\n<style>\n{style()}\n</style>\n</head>\n<body>\n<main>"] + parts + ["</main>\n</body>\n</html>"])

    # What was found.

    def top(self):
        found, headline = self.found, self.words.headline()
        bad = " bad" * (found.main.kind in ("MODEL", "LOG", "COST", "USAGE", "LOAD", "LONG"))
        lines = ['<p class="kind">Diagnosis of an alarm log</p>', f"<h1>{escape(headline.says)}</h1>"]
        lines += [f'<p class="next{bad}"><strong>What to do next.</strong> {ticked(headline.after)}</p>'] * bool(headline.after)
        if found.cheapest and found.verdicts.kind == "EXPLAINED":
            said = self.words.explained(found.verdicts).says
            said = said[:1].lower() + said[1:]
            lines.append(f"<p>{escape('By number alone: ' + said + ' The verdicts and the refutation below are about the number, not the cost.' if self.is_least else 'Without costs: ' + said)}</p>")
        lines += [f"<p>{escape(it)}</p>" for it in [self.words.in_short()] if it]
        lines += [f'<p class="next bad"><strong>Warning.</strong> {escape(it)}</p>' for it in self.words.warnings()]
        if found.main.kind in ("MODEL", "LOG", "COST"):
            lines.append(self.near())
        calls = [called_by(it) for it in (found.cheapest, found.verdicts, found.doubted) if it]
        if found.doubted:
            calls.append('<p class="small">The last call is about a copy of the log with <code>maybe</code> in place of each <code>alarm</code>.</p>')
        return "\n".join(lines + [fold("The exact command and its reply", "\n".join(calls), kind="less")])

    def near(self):
        """The lines around the one that is wrong, or the rows of a log."""
        kind, wrong = self.found.main.kind, self.found.main.numbers[0]
        unit, name, path = {"LOG": ("Row", "log", self.found.log_path), "MODEL": ("Line", "model", self.found.model_path), "COST": ("Line", "costs", self.found.costs_path)}[kind]
        try:
            rows = [row.text() for row in rows_of(path)] if kind == "LOG" else shown(read(path)).split("\n")
        except (OSError, ValueError):
            return ""
        near = [(at, row) for at, row in enumerate(rows, 1) if abs(at - wrong) < 4]
        return table(f"The {unit.lower()}s of the {name} around the mistake.", [unit, "What it says", "Mark"],
                     [("", [str(at), f"<code>{escape(row[:200])}</code>", '<span class="wrong">\u2716 the mistake</span>' * (at == wrong)]) for at, row in near])

    # Runs.

    def runs(self):
        drawn, others = self.found.drawn, self.found.others
        if not drawn:
            return ""
        steps = max([item.step for item in self.found.read_run(drawn.run).items] + [0])
        kind = {"CHEAPEST": " with the least cost", "EXPLAINED": " with the fewest faults"}.get(drawn.kind, "")
        lines = ["<h2>What may have happened</h2>",
                 f"<p>A run of the plant that explains the log{kind}, in {plural(steps, 'parallel step')}. It has {escape(self.words.named(drawn.run))}.</p>",
                 self.pictures(drawn.run, "run", "The run that was found", f'<p class="small">{timeline.KEY} Events that move no common component may share a step. '
                               "Even if a fault is certain, when it happened isn't.</p>\n")]
        if others:
            lines.append("<h3>Other runs with the fewest faults</h3>")
            few = f"{sentence(word(len(others)))[:-1]} {'more runs' if len(others) > 1 else 'more run'} with as few faults{' as possible' * self.is_least}"
            lines.append(f"<p>{few} {'were' if len(others) > 1 else 'was'} found, to show what is possible. There may be others.</p>")
        return "\n".join(lines + [self.other(place, run, events) for place, (run, events) in enumerate(others, 1)])

    def other(self, place, run, events):
        """Another run, behind one click."""
        has = self.found.faults_in(run)
        by = [f"{word_for} {listing(names)}" for word_for, names in (("with", [it for it in events if it in has]), ("without", [it for it in events if it not in has])) if names]
        title = f"Another run {' and '.join(by)}" if events else "The run with the fewest faults, whatever they cost"
        inside = f"<p>It has {escape(self.words.named(run))}.</p>\n"
        inside += self.pictures(run, f"other-{place}", title) if place <= DRAWN else "<p>Not drawn, since there are so many.</p>" + pre("\n".join(step.line() for step in run[:SHOWN]))
        return fold(title, inside, f"other-{place}", "long" * (len(run) > PRINTED))

    def pictures(self, given, name, what, key=""):
        """A run as pictures that each fit on a page, with their key, or as a list if it is very long."""
        run = self.found.read_run(given)
        if not run.items:
            return f"<p>{escape(what)} has no events: the plant need not do anything.</p>"
        steps = [(step, ", ".join(item.text for item in items)) for step, items in run.steps()]
        listed = '<ol class="steps">' + "".join(f"<li>{escape(words)}</li>" for _, words in steps) + "</ol>"
        if len(run.items) > LONG:
            return f"<p>{escape(what)} has {len(run.items):,} lines, too many to draw.</p>" + fold("The run as a list, a line for each step", listed)
        drawn = [region(f"\n{self.parts_of(run, steps, f'{name}-{kind}', what, wide)}\n", f"{what}, as a picture", kind) + "\n" for kind, wide in (("broad", WIDE), ("narrow", NARROW))]
        return "".join(drawn) + key + fold("The run as a list, a line for each step", listed, kind="less")

    def parts_of(self, run, steps, name, what, wide):
        """The pictures of a run that are about so wide. Their bands are as many as fit on a page."""
        drawn, groups, room = timeline.Picture(run, self.model, wide), [], 0
        for band in drawn.bands:
            tall = drawn.height_of(band)
            if not groups or room + tall > TALL:
                groups.append([])
                room = 0
            groups[-1].append(band)
            room += tall
        made = []
        for place, bands in enumerate(groups, 1):
            here = {run.items[at].step for band in bands for step, _, _ in band.columns for at in step}
            says = " ".join(f"Step {step}: {words}." for step, words in steps if step in here)
            part = f", part {place} of {len(groups)}" if len(groups) > 1 else ""
            made.append(embedded(drawn.svg(bands, place == len(groups)), "timeline", f"{name}-{place}", f"{what} in {run.summary()}{part}", says))
        return "\n".join(made)

    # Faults.

    def faults(self):
        known = self.found.known_of()
        if not self.model:
            return ""
        head = "<h2>What is known of each fault</h2>\n"
        if not known:
            return head + self.no_verdicts() if self.found.is_read else ""
        rows = [(kind, self.fault(name, kind)) for kind in MARKS for name in known if known[name] == kind]
        heads = ["Verdict", "*Fault event", "What it moves", "In the run above"] + ["Cost"] * bool(self.found.cheapest)
        if self.is_least:
            heads[0], heads[3] = "By number", "In the run of least cost"
        caption = "Fault events and what is known of them. " + " ".join(f"{kind.capitalize()}: {MEANS[kind]}." for kind in MARKS if kind in known.values())
        if any("<a " in cells[0] for _, cells in rows):
            caption += " A verdict that is a link leads to a run where it is the other way round."
        if self.is_least:
            caption += " This is about the runs with the fewest faults; the run above, which has the least cost, need not be one of these."
        kept, out = [it for it in rows if it[0] != "excluded"], [it for it in rows if it[0] == "excluded"]
        if len(out) <= FOLDED:
            return head + table(caption, heads, rows)
        return head + (table(caption, heads, kept) + "\n") * bool(kept) + fold(f"{len(out):,} fault events that are excluded", table("Fault events that are excluded.", heads, out))

    def no_verdicts(self):
        if not self.model.faults():
            return "<p>No event of the model is a fault.</p>"
        why = {"NONE": "nothing explains the log, so nothing can be said of single faults", "MANY": "there are too many faults for verdicts",
               "UNDECIDED": "the budget was spent before the fewest faults were known, so nothing can be said of single faults"}
        return f"<p>There are no verdicts: {why.get(self.found.verdicts.kind, 'the question has no answer yet')}.</p>"

    def fault(self, name, kind):
        """The cells of a fault event."""
        has = self.found.faults_in(self.found.drawn.run)
        run = "no" if name not in has else "yes" if has[name] == 1 else f"{word(has[name])} times"
        other = next((place for place, (steps, _) in enumerate(self.found.others, 1) if (name in self.found.faults_in(steps)) != (name in has)), 0) if kind == "possible" else 0
        said = f'<a href="#other-{other}" title="a run with{"out" * (name in has)} it">{kind}</a>' if other else kind
        moves = ", ".join(f"{one}.{action}" for one, action in self.model.events[name].parts.items())
        verdict = f'<span class="verdict"><span class="mark" aria-hidden="true">{MARKS[kind]}</span>{said}</span>'
        return [verdict, escape(name), escape(moves), run] + [str(self.found.costs().get(name, 1))] * bool(self.found.cheapest)

    # The log.

    def log(self):
        log, drawn = self.found.log, self.found.drawn
        if not self.found.is_read:
            return ""
        if not log.labels:
            return "<h2>The log</h2><p>It has no alarms.</p>"
        items = {item.alarm: item for item in self.found.read_run(drawn.run).items if item.alarm} if drawn else {}
        before = {name: [first for first, second in log.pairs if second == name] for name in log.labels}
        rows = []
        for name, labels in log.labels.items():
            cells = [escape(name), self.labels(labels) + " (doubtful)" * (name in log.doubtful)]
            cells += self.explaining(items.get(name), labels) if drawn else []
            rows.append(("", cells + [escape(", ".join(before[name])) or "\u2013"]))
        heads = ["Alarm", "Label given"] + (["Step", "Event that explains it"] if drawn else []) + ["Comes after"]
        pairs = f"{plural(len(log.pairs), 'pair')} of which the first is known to come before the second" if log.pairs else "no order is known, so any will do"
        caption = f"{plural(len(log.labels), 'alarm')} in the order of the file" + (f", and {pairs}." if log.pairs or len(log.labels) > 1 else ".")
        return "<h2>The log</h2>\n" + table(caption, heads, rows)

    def labels(self, labels):
        known = self.model.labels()
        return " or ".join(escape(it) + ' <span class="wrong">(no event raises it)</span>' * (it not in known) for it in labels)

    def explaining(self, item, labels):
        """In which step an alarm is explained, and by which event."""
        if item is None:
            return ["", "?"]
        if item.is_false:
            return [str(item.step), "<strong>\u2716 set aside as false</strong>"]
        return [str(item.step), escape(item.name) + (f" ({escape(item.label)})" if len(labels) > 1 else "") + " <strong>fault</strong>" * item.is_fault]

    # The plant.

    def plant(self):
        if not self.model:
            return ""
        automata, says = plant.automata_of(self.model), plant.says(self.model)
        words = " ".join(f"{one.title()}: states {', '.join(one.states)}." for one in automata)[:2000]
        svg = embedded(plant.svg(automata, self.model, WIDE), "plant", "plant", f"The plant, with {says}", words)
        odd = "".join(f"<li>{escape(it)}</li>" for it in plant.remarks(automata, self.model))
        inside = region(svg, "The plant, as a picture") + f'\n<p class="small">{plant.KEY}</p>' + f"<p>Rarely meant:</p><ul>{odd}</ul>" * bool(odd)
        return "<h2>The plant</h2>\n" + fold(f"A plant with {says}", inside + fold("The plant as a list", pre(plant.listed(automata, self.model)), kind="less"))

    # How to check it.

    def check(self):
        parts = [it for it in (self.check_run(), self.check_least()) if it]
        return "\n".join(["<h2>How to check this</h2>"] + parts) if parts else ""

    def check_run(self):
        """That the run explains the log, as `replay` says."""
        found = self.found
        if not found.drawn:
            return ""
        told = found.replayed[0]
        source = ["cheapest"] + found.asked + [found.costs_path] if self.is_least else ["diagnose"] + found.asked
        lines = command([found.program] + source + [found.n, found.budget]) + " | tail -n +2" * self.is_least + " > answer.run"
        again = command([found.program, "replay"] + found.asked + ["answer.run", found.n])
        said = "."
        if told.kind == "ACCEPTED":
            said = (f", so the plant can perform the run, and it raises exactly these alarms, in an order that the log allows, with {plural(told.numbers[0], 'fault')} "
                    f"within {plural(int(found.n), 'step')}.")
        parts = ["<h3>That the run explains the log</h3>", f"<p>The run can be checked apart from the search that found it: <code>replay</code> {replied(told)}{said}</p>"]
        return "\n".join(parts + self.check_others() + [pre(lines + "\n" + again)])

    def check_others(self):
        few, good = len(self.found.others), sum(it.kind == "ACCEPTED" for it in self.found.replayed[1:])
        if not few:
            return []
        if good < few:
            return [f"<p><code>replay</code> accepts {word(good) if good else 'none'} of the {word(few)} other runs above; so ask about them again.</p>"]
        return [f"<p><code>replay</code> also accepts {'the other run' if few == 1 else f'each of the {word(few)} other runs'} above.</p>"]

    def check_least(self):
        """That less won't do, as the refutation and `check` say."""
        found, proof = self.found, self.found.proof
        title = f"<h3>That {'nothing explains the log' if found.verdicts.kind == 'NONE' else 'no fewer faults will do'}</h3>"
        if found.verdicts.first() == "EXPLAINED 0":
            return title + "<p>There is nothing to refute: the run has no fault.</p>"
        if not proof:
            return ""
        if len(proof) < 3:
            return title + f"<p>The refutation wasn't checked: <code>{escape(proof[-1].words[1])}</code> {'was stopped' if proof[-1].is_stopped else 'replied ' + escape(proof[-1].first()[:80])}.</p>"
        made, question, told = proof
        bound, head = made.head[2], question.head
        claim = "with any number of faults" if bound == "any" else "without a fault" if bound == "0" else f"with at most {plural(int(bound), 'fault')}"
        size = f"{int(head[2]):,} variables and {int(head[3]):,} clauses ({question.size:,} bytes)" if head[:2] == ("p", "cnf") else f"{question.size:,} bytes"
        again = [command([found.program, "proof"] + found.asked + [found.n, found.budget]) + " > refutation.lrat",
                 command([found.program, "cnf"] + found.asked + [found.n, bound]) + " > question.cnf", command([found.program, "check", "question.cnf", "refutation.lrat"])]
        return (f"{title}\n<p>The formula says that some run explains the log within {plural(int(found.n), 'step')} {claim} (K is {escape(bound)}). It has {size}, and its refutation has "
                f"{plural(found.steps_of_refutation(), 'step')} ({made.size:,} bytes). <code>check</code> {replied(told)}{', so there is no such run' * (told.first() == 'VERIFIED')}. "
                f"Any other checker of LRAT proofs can be asked, too.</p>\n{pre(chr(10).join(again))}{self.check_cost()}")

    def check_cost(self):
        if not self.found.cheapest or self.found.cheapest.kind != "CHEAPEST":
            return ""
        return (f"<p>By the file of costs the run that is drawn costs {self.found.total():,}. That nothing costs less has no refutation of its own; "
                "it rests on the proof of the program.</p>")

    def about(self):
        found = self.found
        rows = []
        for (kind, path), it in zip(found.files, found.digests):
            known = f'<br><code class="digest">{it[0]}</code>' if it else "<br>not read"
            rows.append(("", [kind, f"<code>{escape(shown(path))}</code>{known}", f"{it[1]:,}" if it else ""]))
        made = datetime.datetime.now(datetime.timezone.utc).strftime("%Y-%m-%d %H:%M UTC")
        return "\n".join(["<h2>What this page is about</h2>", table("The program and the files that it read.", ["What", "File, and its SHA-256", "Bytes"], rows),
                          f'<p class="small">At most {escape(found.n)} parallel steps, a budget of {escape(found.budget)}, {found.seconds:g} seconds for each call. Made by tools/report.py at {made}. '
                          "The program that the gate builds is proved; this page, the pictures and the words on it aren't. Nobody can prove that the model describes the plant.</p>"])


def main(words):
    seconds = 60.0
    if words[:1] == ["--seconds"] and len(words) > 1 and re.fullmatch(r"[0-9]{1,6}(\.[0-9]+)?", words[1]):
        seconds, words = float(words[1]), words[2:]
    if len(words) not in (5, 6):
        sys.exit(__doc__)
    with tempfile.TemporaryDirectory() as folder:
        found = Diagnosis(words[0], words[1:], seconds, folder)
        print(Page(found).html())
    status = found.main.status
    return 124 if status is None else status if status >= 0 else 128 - status


if __name__ == "__main__":
    called(main)
