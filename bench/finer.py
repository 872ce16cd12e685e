"""Times the program that writes models finer on the largest models, and prints how many times as long as `show` it takes.

    python3 bench/finer.py PROGRAM REFINE

PROGRAM is the program as `rt run` builds it, crates/diagnose_cli/out/diagnose_cli, and REFINE the one that writes models finer, crates/refine_cli/out/refine_cli. The models are those of `show.py`, and nine more, each of which goes to some of the limits of a model: states, components, transitions, events, parts or the length of names; `MORE` has a line for each. Seconds are those of the processor, the least of five runs in turns. It's no part of the gate.

On 2 December 2026, by the proved programs on an idle machine: 0.8 to 1.2 times as long as `show` on the models of `show.py`, 16 MiB each, in at most 0.31 seconds. With names of 56 characters, 12 MiB, it's 2.2 times, in 0.43 seconds (2.6 in another run), and 2.7 with 47,500 states and 56,000 parts, in 0.27. The others are smaller, 1 MiB at most, and take 0.08 seconds at most: the two of 1 MiB 1.0 and 2.3 times as long as `show`, the rest 1.1 to 6.4 times. Of these, what is written for those with 800, 960 and 996 further components, and for the one with 4,000 events, is 1.5 to 4 times as long as what is read.
"""
import os
import sys
import tempfile

from measure import spent, written
from show import CASES


def rings():
    """200 components that go round eight states: of their 1,600 states 800 get a component."""
    lines, events = ["des 1"], []
    for number in range(200):
        lines += [f"component c{number}"] + [f"state s{it}" + " init" * (it == 0) for it in range(8)] + [f"trans s{it} go{it} s{(it + 1) % 8}" for it in range(8)]
        events += [f"event e{number}-{it} : c{number}.go{it}" for it in range(8)]
    return "\n".join(lines + events) + "\n"


def busy():
    """One component of 256 states, and 4,000 events that each take it from a state to the next but one."""
    lines = ["des 1", "component c"] + [f"state s{it}" + " init" * (it == 0) for it in range(256)] + [f"trans s{it} go{it} s{(it + 2) % 256}" for it in range(256)]
    return "\n".join(lines + [f"event e{it} : c.go{it % 256}" for it in range(4000)]) + "\n"


def component(name, states, moves):
    """The lines of a component, of which the first state is initial."""
    return [f"component {name}", f"state {states[0]} init", *(f"state {it}" for it in states[1:]), *("trans " + " ".join(move) for move in moves)]


def long_names():
    """400 components that go round 60 states, and 4,000 events of 14 parts, all under names of 56 characters: 12 MiB, of which 600 states get a component."""
    names, states, actions = ([f"{letter}{it:055d}" for it in range(count)] for letter, count in [("c", 400), ("s", 60), ("a", 60)])
    lines = ["des 1"]
    for name in names:
        lines += component(name, states, [(states[it], actions[it], states[(it + 1) % 60]) for it in range(60)])
    return "\n".join(lines + [f"event e{it:055d} alarm L{it % 9} : " + " ".join(f"{names[(it + 7 * k) % 400]}.{actions[(it // 3 + k) % 60]}" for k in range(14)) for it in range(4000)]) + "\n"


def wide():
    """190 components that go round 250 states, and 4,000 events of 14 parts: of 47,500 states 810 get a component."""
    lines = ["des 1"]
    for number in range(190):
        lines += component(f"c{number}", [f"s{it}" for it in range(250)], [(f"s{it}", f"a{it}", f"s{(it + 1) % 250}") for it in range(250)])
    return "\n".join(lines + [f"event e{it} : " + " ".join(f"c{(it + 7 * k) % 190}.a{(it + k) % 250}" for k in range(14)) for it in range(4000)]) + "\n"


def resets():
    """15 components of 256 states, and 4,000 events that touch all of them: 1,900 take each to its first state, so that nearly all states are wanted, and there is room for one."""
    lines, states = ["des 1"], [f"s{it}" for it in range(256)]
    for number in range(15):
        lines += component(f"c{number}", states, [(it, "reset", "s0") for it in states] + [(it, "stay", it) for it in states])
    return "\n".join(lines + [f"event e{it} : " + " ".join(f"c{k}.{'stay' if it < 2100 else 'reset'}" for k in range(15)) for it in range(4000)]) + "\n"


def staying():
    """One component of 256 states with 190 actions that stay in each of them and 256 that go round: of 49,000 transitions few touch a state."""
    states = [f"s{it}" for it in range(256)]
    moves = [(it, f"b{number}", it) for number in range(190) for it in states] + [(f"s{it}", f"a{it}", f"s{(it + 1) % 256}") for it in range(256)]
    return "\n".join(["des 1", *component("c", states, moves)] + [f"event e{it} : c.{f'a{it % 256}' if it % 2 else f'b{it // 2 % 190}'}" for it in range(4000)]) + "\n"


def dense():
    """4 components that go round 240 states, and 4,000 events that touch them all: 960 states get a component, and what is written is four times as long."""
    lines = ["des 1"]
    for number in range(4):
        lines += component(f"c{number}", [f"s{it}" for it in range(240)], [(f"s{it}", f"a{it}", f"s{(it + 1) % 240}") for it in range(240)])
    return "\n".join(lines + [f"event e{it} : " + " ".join(f"c{k}.a{(it + 60 * k) % 240}" for k in range(4)) for it in range(4000)]) + "\n"


def long_titles():
    """4 components that go round 249 states, under names too long for that of a further component: 996 get one by a number."""
    lines, states = ["des 1"], [f"s{it:055d}" for it in range(249)]
    for number in range(4):
        lines += component(f"component-number-{number}", states, [(states[it], f"a{it}", states[(it + 1) % 249]) for it in range(249)])
    return "\n".join(lines + [f"event e{it} : component-number-{it % 4}.a{it // 4 % 249}" for it in range(1000)]) + "\n"


def branching():
    """One component of 256 states with 50,000 transitions of 100 actions, each of which leads anywhere."""
    lines = ["des 1", "component c"] + [f"state s{it}" + " init" * (it == 0) for it in range(256)]
    lines += [f"trans s{it // 100 % 256} a{it % 100} s{(it // 100 * 7 + it // 25600 * 31 + it % 100) % 256}" for it in range(50000)]
    return "\n".join(lines + [f"event e{it} : c.a{it % 100}" for it in range(4000)]) + "\n"


MORE = [
    ("800 components to be added", rings),
    ("256 states, 4,000 events", busy),
    ("256 states, 50,000 transitions", branching),
    ("names of 56 characters", long_names),
    ("47,500 states, 56,000 parts", wide),
    ("most states wanted, no room", resets),
    ("actions that stay anywhere", staying),
    ("960 components, 56,000 parts", dense),
    ("names that don't fit", long_titles),
]


def main():
    program, refine = map(os.path.abspath, sys.argv[1:3])
    print(f"{'input':40} {'MiB':>6} {'show':>8} {'refine':>8} {'ratio':>6}  status")
    with tempfile.TemporaryDirectory() as folder:
        model = os.path.join(folder, "model.des")
        for name, text_of in CASES + MORE:
            size = written(model, text_of) / 2**20
            runs = [[spent(program, "show", model), spent(refine, model)] for _ in range(5)]
            (shown, *_), (finer, _, status, _) = (min(column) for column in zip(*runs))
            print(f"{name:40} {size:6.1f} {shown:8.2f} {finer:8.2f} {finer / max(shown, 0.001):6.2f}  {status}", flush=True)


if __name__ == "__main__":
    main()
