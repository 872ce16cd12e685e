"""Draws crates.txt, at the top of the repository.

    python3 tools/crates.py                 each crate by its room and level, with what it has and what it stands on directly
    python3 tools/crates.py --in PAGE       whether the page has that figure: status 1 if not
    python3 tools/crates.py --svg           the same as a picture
    python3 tools/crates.py --chain         the longest chain of crates
    python3 tools/crates.py --unused        crates that a line names and no file of the crate does: status 1 if there are some

Rooms are the blocks of crates.txt. A crate's level is the length of the longest chain below it, with itself. It stands on another one directly if
it doesn't stand on it by a third one as well. What all stand on isn't drawn.
"""
import glob
import os
import re
import sys

sys.path.insert(0, os.path.dirname(os.path.abspath(__file__)))
from svg import box, picture, text  # noqa: E402

ROW, BOX, GAP, HIGH, SIGN = 66, 24, 14, 7.1, 16
STYLE = """text { font: 12px Helvetica, Arial, sans-serif; fill: #222; } .ground { fill: #fff; } .line { fill: none; stroke: #999; stroke-width: 0.9; } .aside { fill: #555; }
.crate { stroke: #666; stroke-width: 0.6; } """
# The colours of the rooms; svg.py has each for dark pages too.
COLOURS = ["#dbe9f6", "#e3f1dc", "#fbeed5", "#f6dfe0", "#e6e0f2", "#eee"]


def read():
    """The rooms with their crates, what each crate stands on, and what it has."""
    rooms, stands, has = [], {}, {}
    with open("crates.txt", encoding="utf-8") as it:
        blocks = [block.split("\n") for block in it.read().strip().split("\n\n")[1:]]
    for head, *lines in blocks:
        rooms.append((head.lstrip("# "), []))
        for line in lines:
            row, _, words = line.partition("#")
            name, _, used = row.partition(":")
            rooms[-1][1].append(name.split()[0])
            stands[name.split()[0]], has[name.split()[0]] = used.split(), words.strip()
    return rooms, {name: [it for it in used if it in stands] for name, used in stands.items()}, has


def below(stands, name):
    """All crates below one."""
    return {it for used in stands[name] for it in {used} | below(stands, used)}


def direct(stands):
    """What each crate stands on directly."""
    under = {name: below(stands, name) for name in stands}
    return {name: [it for it in sorted(used) if not any(it in under[other] for other in used)] for name, used in stands.items()}


def levels(stands):
    """The level of each crate."""
    known = {}

    def level(name):
        if name not in known:
            known[name] = 1 + max([level(it) for it in stands[name]], default=0)
        return known[name]

    return {name: level(name) for name in stands}


def is_test(name):
    return name.startswith("calls_")


# ---- in text


def figure(rooms, stands, has):
    """A line for each crate, by rooms: its level, what it has, and what it stands on directly. Of crates of tests only what they test."""
    near, level, lines = direct(stands), levels(stands), []
    wide, most = max(map(len, stands)), max(len(has[name]) for name in stands)
    for head, crates in rooms:
        lines.append(head)
        for name in sorted(crates, key=lambda it: 0 if is_test(it) else level[it]):
            number = "-" if is_test(name) else level[name]
            on = "" if is_test(name) else " ".join(it for it in near[name] if stands[it])
            lines.append(f"{number:>4} {name:<{wide}}  {has[name]:<{most}}  {on}".rstrip())
    return "".join(f"    {line}\n" for line in lines)


# ---- as a picture


def spread(names, wished, widths):
    """Places for the boxes of a row, near those that are wished, in the order of these and apart."""
    row = sorted(names, key=lambda it: (wished[it], it))
    at, right = {}, 0
    for name in row:
        at[name] = max(wished[name], right + widths[name] / 2)
        right = at[name] + widths[name] / 2 + GAP
    over = sum(at[name] - wished[name] for name in row) / len(row)
    shift = min(over, min(at[name] - widths[name] / 2 for name in row))
    return {name: at[name] - shift for name in row}


def placed(crates, near, level):
    """Where the middle of each box stands: in the row of its level, and near the middle of what it stands on and what stands on it."""
    widths = {name: len(name) * HIGH + SIGN for name in crates}
    beside = {name: [it for it in crates if it in near[name] or name in near[it]] for name in crates}
    at = {name: 400.0 for name in crates}
    for _ in range(60):
        for row in sorted(set(level[name] for name in crates)):
            names = [name for name in crates if level[name] == row]
            wished = {name: sum(at[it] for it in beside[name]) / len(beside[name]) if beside[name] else at[name] for name in names}
            at.update(spread(names, wished, widths))
    left = min(at[name] - widths[name] / 2 for name in crates) - GAP
    return {name: at[name] - left for name in crates}, widths


def svg(rooms, stands):
    """Boxes by level, the lowest at the bottom, coloured by room, and a line to what each stands on directly."""
    level, near = levels(stands), direct(stands)
    crates = [name for _, room in rooms for name in room if not is_test(name)]
    base = [name for name in crates if not stands[name]]
    near = {name: [it for it in near[name] if it not in base] for name in crates}
    at, widths = placed(crates, near, level)
    top, wide = max(level[name] for name in crates), max(at[name] + widths[name] / 2 for name in crates) + GAP
    row = {name: (top - level[name]) * ROW + GAP for name in crates}
    high = top * ROW + len(rooms) * 18
    out = []
    for name in crates:
        for it in near[name]:
            low, x, y, to = row[it], at[name], row[name] + BOX, at[it]
            out.append(f'<path class="line" d="M{x:.0f},{y} C{x:.0f},{y + 30} {to:.0f},{low - 30} {to:.0f},{low}"/>')
    for number, (_, room) in enumerate(rooms):
        for name in room:
            if not is_test(name):
                out.append(box(f"crate room-{number}", at[name] - widths[name] / 2, row[name], widths[name], BOX))
                out.append(text("", at[name], row[name] + 16, name))
    for name in base:
        out.append(text("aside", at[name] + widths[name] / 2 + 10, row[name] + 16, "on which all stand", "start"))
    for number, (head, room) in enumerate(rooms):
        if not all(is_test(name) for name in room):
            y = top * ROW + number * 18
            out.append(box(f"crate room-{number}", GAP, y, 12, 12, round_by=0))
            out.append(text("", GAP + 18, y + 10, head, "start"))
    style = STYLE + " ".join(f".room-{number} {{ fill: {COLOURS[number]}; }}" for number, (_, room) in enumerate(rooms) if not all(map(is_test, room)))
    return picture(wide, high, "Which crate stands on which", style, out) + "\n"


# ---- looked at


def chain(stands):
    """One of the longest chains, from the bottom."""
    level = levels(stands)
    found = [max((name for name in stands if not is_test(name)), key=lambda it: level[it])]
    while stands[found[0]]:
        found.insert(0, max(stands[found[0]], key=lambda it: level[it]))
    return found


def unused(stands):
    """Each crate that a line names and no file of the crate does."""
    found = []
    for name, used in stands.items():
        text = ""
        for path in glob.glob(f"crates/{name}/*/**", recursive=True):
            if path.endswith((".rt", ".antt")) and "/out/" not in path:
                with open(path, encoding="utf-8") as it:
                    text += it.read()
        found += [(name, it) for it in used if not re.search(rf"\bRattle\.{it}\b|\b{it}::", text)]
    return found


def main(words):
    rooms, stands, has = read()
    if words[:1] == ["--svg"]:
        print(svg(rooms, stands), end="")
    elif words[:1] == ["--chain"]:
        print(*chain(stands))
    elif words[:1] == ["--unused"]:
        for name, it in unused(stands):
            print(f"{name} names {it} in crates.txt, and in no file")
        return 1 if unused(stands) else 0
    elif words[:1] == ["--in"]:
        with open(words[1], encoding="utf-8") as it:
            if figure(rooms, stands, has) not in it.read():
                print(f"{words[1]} hasn't the figure of `python3 tools/crates.py`")
                return 1
    else:
        print(figure(rooms, stands, has), end="")
    return 0


if __name__ == "__main__":
    sys.exit(main(sys.argv[1:]))
