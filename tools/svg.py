"""Elements of the pictures that timeline.py, plant.py and crates.py draw. Widths of words are reckoned, since no font is at hand."""
import re
from html import escape

CHAR, SMALL, WIDER = 7, 6, 8
# Each colour of the light scheme with that of the dark one.
DARK = {"fff": "16181c", "222": "e8e9eb", "f4f5f7": "1f2329", "555": "b4b9c0", "e6eef6": "263850", "f5d590": "5a4712", "333": "d5d7da", "b3261e": "ff8f85", "1f5fa8": "8fbcf2", "777": "a9adb3",
        "fafbfc": "1b1e23", "d5d9de": "3d434b", "dfe9f3": "26384e", "6b7f94": "8da2b8", "999": "8b8f95", "666": "a2a6ac", "aaa": "7b8087", "444": "c6c9cd", "888": "9a9ea4",
        "dbe9f6": "22384f", "e3f1dc": "27401f", "fbeed5": "4d3d14", "f6dfe0": "53282c", "e6e0f2": "3a2f58", "eee": "33373d"}


def box(kind, x, y, width, height, title="", round_by=4):
    inside = f"><title>{escape(title)}</title></rect>" if title else "/>"
    return f'<rect class="{kind}" x="{x:.0f}" y="{y:.0f}" width="{width:.0f}" height="{height:.0f}" rx="{round_by}"{inside}'


def text(kind, x, y, words, anchor="middle"):
    kind = f' class="{kind}"' if kind else ""
    return f'<text{kind} x="{x:.0f}" y="{y:.0f}" text-anchor="{anchor}">{escape(words)}</text>'


def bold(words):
    """How wide small bold words are, most of them capitals."""
    return sum(12 if it in "MW" else 9 if it.isupper() else CHAR for it in words)


def shortened(words, width):
    """Words as far as they fit into a width."""
    room = max(int(width / CHAR), 1)
    return words if len(words) <= room else words[:room - 1] + "\u2026"


def dark(style):
    """The rules with a colour once more, for those who have set their screen to dark pages."""
    rules = []
    for names, inside in re.findall(r"([^{}]+)\{([^{}]*)\}", style):
        parts = [re.sub("#([0-9a-f]{6}|[0-9a-f]{3})\\b", lambda it: "#" + DARK[it[1]], part.strip()) for part in inside.split(";") if "#" in part]
        rules += [f"{names.strip()} {{ {'; '.join(parts)}; }}"] * bool(parts)
    return "@media screen and (prefers-color-scheme: dark) { " + " ".join(rules) + " }"


def picture(width, height, title, style, lines):
    """A whole SVG on a ground, white or dark, with a title for those who can't see it."""
    head = f'<svg xmlns="http://www.w3.org/2000/svg" role="img" width="{width:.0f}" height="{height:.0f}" viewBox="0 0 {width:.0f} {height:.0f}">'
    return "\n".join([head, f"<title>{escape(title)}</title>", f"<style>{style}\n{dark(style)}</style>", f'<rect class="ground" width="{width:.0f}" height="{height:.0f}"/>'] + lines + ["</svg>"])


PAGE = ":root { color-scheme: light dark; } body { font: 14px sans-serif; margin: 24px; color: #222; background: #fff; } h1 { font-size: 20px; }"


def page(title, heading, inside):
    """A page that has pictures."""
    return f"""<!doctype html>
<html lang="en">
<meta charset="utf-8">
<meta name="viewport" content="width=device-width, initial-scale=1">
<title>{escape(title)}</title>
<style>
{PAGE}
{dark(PAGE)}
</style>
<body>
<h1>{escape(heading)}</h1>
<div style="overflow-x: auto">
{inside}
</div>
</body>
</html>"""
