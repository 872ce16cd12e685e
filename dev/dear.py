"""Prints which functions were dear to prove, from what the last checks kept.

    python3 dev/dear.py [--least SECONDS] [CRATE..]

A check leaves one file for each part of a proof in out/incremental/ of its crate, as soon as the part is done. The time from one file to the next is taken
as what the later one cost, in seconds by the clock. So nothing is proved again; but the seconds are longer where other work was done beside the check, parts that
were proved at the same time share them, and what an earlier check had left counts for nothing. It is meant for a crate that was just proved from nothing:
after `rt all check --jobs 4` in a fresh clone it has all crates.

For each crate it prints how long its check took from the first file to the last, and each function from SECONDS on (10 if none is given), with the dearest
part of its proof: `Lts` is the walk by the borrow rules, `Proof` the goals, `Tie` and `Kinds` what ties a generic function to its bounds.
"""
import collections
import os
import re
import sys

TOP = os.path.dirname(os.path.dirname(os.path.abspath(__file__)))
PART = re.compile(r"\.([A-Z]\w*)(?:\.decls)?$")


def parts_of(crate):
    """The parts in the order in which they were done: when, and the name."""
    found = []
    for at, _, names in os.walk(f"{TOP}/crates/{crate}/out/incremental"):
        for name in names:
            if name.endswith(".oantt"):
                found.append((os.stat(f"{at}/{name}").st_mtime, name[: -len(".oantt")]))
    return sorted(found)


def dear(crate, least):
    parts = parts_of(crate)
    if not parts:
        return
    whole, by_part = collections.Counter(), {}
    for (before, _), (when, name) in zip(parts, parts[1:]):
        cut = PART.search(name)
        function = PART.sub("", name).removeprefix(f"Rattle-{crate}-proofs.")
        if function == f"Rattle-{crate}":
            function = "(what other crates see)"
        whole[function] += when - before
        by_part.setdefault(function, collections.Counter())[cut[1] if cut else ""] += when - before
    print(f"{crate}: {parts[-1][0] - parts[0][0]:.0f} s")
    for function, seconds in whole.most_common():
        if seconds < least:
            break
        part, most = by_part[function].most_common(1)[0]
        print(f"  {seconds:6.1f}  {function}  {part} {most:.1f}")


def main(words):
    least = 10.0
    if words[:1] == ["--least"]:
        least, words = float(words[1]), words[2:]
    for crate in words or sorted(os.listdir(f"{TOP}/crates")):
        dear(crate, least)


if __name__ == "__main__":
    main(sys.argv[1:])
