"""Tests tools/plant.py, timeline.py and crates.py: what they list, that their pictures are whole, and that a text with a mistake gets words and no traceback.

    python3 tools/pictures_test.py

What is expected is written by hand from the models and runs here; no program is needed. The pictures of all examples and that of the crates must be well-formed, with each element inside the frame,
and the frame not wider than a page.

Status 0: all is as expected, 1: something isn't.
"""
import glob
import os
import re
import subprocess
import sys
import tempfile
import xml.etree.ElementTree as ElementTree

TOOLS = os.path.dirname(os.path.abspath(__file__))
EXAMPLES = os.path.join(os.path.dirname(TOOLS), "examples")
HEAD = "des 1\ncomponent p\nstate s init\nstate t\ntrans s a t\ntrans t b s\ntrans s c s\ncomponent q\nstate s init\ntrans s a s\n"
# Models, each with the remarks that the list must end with.
ODD = [
    ("event e : p.a\nevent f : p.b\nevent g : p.c q.a\n", []),
    ("event e : p.a\nevent f : p.b\nevent g : q.a\n", ["p.c is in no event, so its transitions are never taken"]),
    ("event f : p.b\nevent g : p.c\nevent h : q.a\ncomponent r\nstate u init\nstate v\ntrans v w v\nevent i : r.w\nevent e : p.a\n",
     ["r can't come to its state v from an initial one", "r has no state that it can come to and that allows w, so an event with r.w can't happen"]),
    ("event e : p.a\nevent f : p.b\nevent g : p.c\n", ["q.a is in no event, so its transitions are never taken", "no event has a part of q"]),
    ("event e alarm L : p.a\nevent f alarm L : p.b\nevent g : p.c\nevent h : q.a\n",
     ["e and f have the label L and differ by p.a and p.b alone, which no other event has; with one name for both actions one event would do"]),
    ("event e alarm L : p.a\nevent f alarm L fault : p.b\nevent g : p.c\nevent h : q.a\n", []),
    ("event e : p.a\nevent f : p.b\nevent g alarm L : p.c q.a\nevent h alarm L : q.a p.c\n", ["g and h have the label L and ask the same of the same components, so one of them would do"]),
    ("event e alarm Low : p.a\nevent f alarm LOW : p.b\nevent g : p.c q.a\n", ["the labels LOW and Low differ by capitals alone"]),
]
RUNS = HEAD + "event e alarm L : p.a\nevent f fault : p.b\nevent g alarm M : q.a\nevent h : p.c\n"
# Runs, each with the lines that they are listed by.
LISTED = [
    ("run 0\n", "0 parallel steps, 0 faults"),
    ("run 3\ne a1\ng a2\nf\n", "   1  e a1, g a2\n   2  f (fault)\n2 parallel steps, 1 fault"),
    ("EXPLAINED 2\nrun 3\n! a1\ne a2\nf\n", "   1  ! a1 (false alarm), e a2\n   2  f (fault)\n2 parallel steps, 2 faults"),
    ("AMBIGUOUS 2\nfaulty\nrun 2\ne\ng\nhealthy\nrun 1\ng\n", "faulty\n   1  e\n   2  g\n2 parallel steps, 0 faults\nhealthy\n   1  g\n1 parallel step, 0 faults"),
    ("EXPLAINED 0\nrun 1\nh\nCERTAIN f\nPOSSIBLE e\nrun 1\ne\n", "EXPLAINED 0\n   1  h\n1 parallel step, 0 faults\nPOSSIBLE e\n   1  e\n1 parallel step, 0 faults"),
]
# Models and runs that can't be drawn, and a word of what must be said.
BAD = [("des 2\n", "run 0\n", "`show`"), (HEAD + "event e : p.z\n", "run 0\n", "`show`"), (HEAD + "state t\ntrans x y z\n", "run 0\n", "`show`"), ("\udcff\udcfe\x00", "run 0\n", "`show`"), ("", "", "`show`"),
       (RUNS, "NONE 5\n", "no run"), (RUNS, "run 5\ne\n", "more lines than the 1"), (RUNS, "run 1\nz\n", "no event z"), (RUNS, "run 2\ne\ne\n", "p can't"), (RUNS, "run 1\n!\n", "`!` is no line of a run"),
       (RUNS, "run \u00b2\n", "no run")]


def made(tool, folder, *words):
    return subprocess.run([sys.executable, os.path.join(TOOLS, tool)] + list(words), cwd=folder, stdin=subprocess.DEVNULL, capture_output=True, check=False)


def written(folder, name, text):
    with open(os.path.join(folder, name), "w", encoding="utf-8", errors="surrogateescape") as it:
        it.write(text)


def frame_faults(svg):
    """What is wrong with a picture: it isn't well-formed, is too wide, or has a box or a word outside its frame."""
    try:
        root = ElementTree.fromstring(svg)
    except ElementTree.ParseError as fault:
        return [f"it isn't well-formed: {fault}"]
    width, height, found = float(root.get("width")), float(root.get("height")), []
    if width > 1000:
        found.append(f"it is {width:.0f} wide")

    def inside(element, left, top):
        shift = re.match(r"translate\((-?[\d.]+) (-?[\d.]+)\)", element.get("transform", ""))
        left, top = left + float(shift[1]) * bool(shift) if shift else left, top + float(shift[2]) if shift else top
        if element.tag.endswith(("rect", "text")) and element.get("x"):
            x, y = left + float(element.get("x")), top + float(element.get("y"))
            right, bottom = x + float(element.get("width", 0)), y + float(element.get("height", 0))
            if x < 0 or y < 0 or right > width or bottom > height:
                found.append(f"{element.text or element.get('class')} stands outside")
        for child in element:
            inside(child, left, top)

    inside(root, 0, 0)
    return found


def examples(folder):
    """The pictures of the examples."""
    wrong = []
    for model in sorted(glob.glob(os.path.join(EXAMPLES, "*", "*.des"))):
        if "misspelled" in model:
            continue
        calls = [("plant.py", model)] + [("timeline.py", model, run) for run in sorted(glob.glob(os.path.join(os.path.dirname(model), "*.run"))) if model.endswith("model.des")]
        for call in calls:
            drawn = made(call[0], folder, *call[1:], "--svg")
            if drawn.returncode and b"can't take its part" in drawn.stderr:
                continue
            faults = frame_faults(drawn.stdout.decode()) if drawn.returncode == 0 else [drawn.stderr.decode()]
            wrong += [f"{' '.join(os.path.relpath(it, EXAMPLES) if os.sep in it else it for it in call)}: {it}" for it in faults]
    return wrong


def of_crates():
    """The picture of the crates, which has rules for dark pages."""
    drawn = made("crates.py", os.path.dirname(TOOLS), "--svg")
    svg = drawn.stdout.decode()
    if drawn.returncode:
        return [f"crates.py: {drawn.stderr.decode()}"]
    return [f"crates.py: {it}" for it in frame_faults(svg)] + ["crates.py: it has no rules for dark pages, or a colour beside its rules"] * ("prefers-color-scheme: dark" not in svg or re.search(r'(fill|stroke)="#', svg) is not None)


def main():
    wrong = of_crates()
    with tempfile.TemporaryDirectory() as folder:
        for events, wanted in ODD:
            written(folder, "m.des", HEAD + events)
            said = made("plant.py", folder, "m.des")
            odd = said.stdout.decode().partition("\n\n")[2].splitlines()
            wrong += [f"{events!r}: the remarks are {odd} and not {wanted}; {said.stderr.decode()}"] * (odd != wanted)
        written(folder, "m.des", RUNS)
        for run, wanted in LISTED:
            written(folder, "r.run", run)
            said = made("timeline.py", folder, "m.des", "r.run")
            wrong += [f"{run!r}: listed as {said.stdout.decode()!r}; {said.stderr.decode()}"] * (said.stdout.decode() != wanted + "\n")
            wrong += [f"{run!r}: {it}" for it in frame_faults(made("timeline.py", folder, "m.des", "r.run", "--svg").stdout.decode())]
        for model, run, word in BAD:
            written(folder, "m.des", model)
            written(folder, "r.run", run)
            for said in [made("timeline.py", folder, "m.des", "r.run", form) for form in ("--svg", "--html")] + [made("plant.py", folder, "m.des")] * (word == "`show`"):
                wrong += [f"{model!r}, {run!r}: {said.stderr.decode()}"] * (said.returncode != 1 or said.stdout != b"" or word not in said.stderr.decode() or b"Traceback" in said.stderr)
        wrong += examples(folder)
    print("\n".join(wrong + [f"{len(ODD) + len(LISTED) + len(BAD)} cases of plant.py and timeline.py and the pictures of the examples and of the crates, and {len(wrong)} things aren't as expected"]))
    return 1 if wrong else 0


if __name__ == "__main__":
    sys.exit(main())
