"""Asks what one would take instead the questions of `diagnose`, and prints the tables of docs/speed.md.

    python3 bench/peers.py PROGRAM [--refine REFINE] [--seed SEED,..] [FAMILY..]
    python3 bench/peers.py PROGRAM [--refine REFINE] [--seed SEED,..] --agree COUNT

PROGRAM is the program as `rt run` builds it, crates/diagnose_cli/out/diagnose_cli, and REFINE the one that writes models finer, crates/refine_cli/out/refine_cli; without it tools/refine.py does it. Five are asked, those of them that are installed:
- the program about the model as it is written, and
- about the refined model, whose seconds have those of REFINE with them (the script's aren't counted);
- CaDiCaL's library on the formulas for `any` and for all bounds up to the answer, one after another (`ascending.cpp`; Debian: libcadical-dev, and a C++ compiler). Its seconds are those of the search alone;
- clingo (Debian: gringo), with an encoding of the question that is its own, `question.lp`, and `#minimize`. Its seconds are those of the whole, of which grounding is a part;
- clasp (Debian: clasp) as a MaxSAT solver: the formula of `cnf` for `any`, and for each fault event in each step, and for each doubtful alarm, a soft clause against it. Its seconds are those of reading and search, without the writing of the formula.

clingo and clasp are asked by each of STRATEGIES, and of each family they have the seconds of the strategy that has the least mean there. Once a strategy has no answer after 2 seconds and three times the seconds of the best one before it on that question, it isn't asked about the rest of the family, nor taken. Seconds are those of the processor; who has no answer after 20 is late, and counts as 20. The plants are drawn with each SEED, 3 if none is given; what doesn't depend on it is asked once. With --agree each, by each strategy, is asked COUNT small questions, some with doubtful alarms, and each must have the same least number of faults, or that nothing explains the log.

Status 0: nobody's answer differs, 1: some does.
"""
import math
import os
import random
import subprocess
import sys
import tempfile
from collections import namedtuple

TOP = os.path.dirname(os.path.dirname(os.path.abspath(__file__)))
sys.path.append(os.path.join(TOP, "tools"))
from diagnose import LIMIT, ascended, faults_of, generated, library, mean, repeats, stations, valves, written  # noqa: E402
from grids import question as grid  # noqa: E402
from measure import spent  # noqa: E402
from meshes import mesh  # noqa: E402
from model import Variables  # noqa: E402
from plants import adder, drawn, protection, telecom, torus  # noqa: E402
from refine import refined  # noqa: E402
from refine_test import question as small  # noqa: E402
from texts import log_of, model_of  # noqa: E402

BUDGET = 1 << 60
# Seconds below this can't be told apart from none, and count as so many.
LEAST = 0.01
# The logs of protections: lines, order, how it is called, and how many times the steps that they need.
PROTECTIONS = [(1, "whole", "in their order", [1, 1.3]), (3, "whole", "in their order", [1, 1.5]), (3, "component", "in that of each component", [1, 1.5])]
# What one of them says: the seconds, and the answer: the least number of faults, NONE, or LATE.
Said = namedtuple("Said", ["seconds", "answer"])
NONE, LATE = "none", "late"
NAMES = ["as written", "refined", "CaDiCaL's library"]
# How clingo and clasp look for the optimum: by cores, relaxed in three ways, or by better and better answers; with their own configuration (of clingo that is tweety, of clasp trendy) or that of the other one.
STRATEGIES = {name: ["usc", "usc,k", "usc,pmres", "bb", f"usc {other}", f"bb {other}"] for name, other in [("clingo", "trendy"), ("clasp", "tweety")]}
# How much slower than the best one before it a strategy may be, and for how many seconds in any case.
SLOWER, PATIENCE = 3, 2
# What is said of a question: by the program in both ways and the library, and by each of the solvers by each strategy that was asked.
Asked = namedtuple("Asked", ["plain", "ways"])


def limited(*words, limit=LIMIT):
    """Seconds of the processor, status and text of a call that is ended at the limit."""
    seconds, _, status, out = spent("sh", "-c", f'ulimit -t {limit}; exec "$@"', "sh", *words)
    return seconds, status, out


def options(strategy):
    """The words for a strategy."""
    how, *configuration = strategy.split()
    return [f"--opt-strategy={how}", "--quiet=1,0", *(f"--configuration={it}" for it in configuration)]


def by_program(program, files, steps):
    seconds, status, out = limited(program, "diagnose", *files, str(steps), str(BUDGET))
    first = out.split("\n")[0]
    return Said(seconds, {0: faults_of(first), 10: NONE}.get(status, LATE))


def by_refined(program, refine, files, steps):
    """The program about the refined model."""
    before = 0
    if refine:
        before, status, text = limited(refine, files[0])
        text += "\n"
    else:
        text = refined(model_of(files[0]))
    finer = os.path.join(os.path.dirname(files[0]), "finer.des")
    with open(finer, "w", encoding="ascii") as it:
        it.write(text)
    said = by_program(program, [finer, files[1]], steps)
    return Said(before + said.seconds, said.answer)


def by_library(program, cadical, files, steps, known):
    """The library goes through all bounds up to the answer that is known."""
    seconds, is_answered = ascended(program, cadical, files, steps, known if known != NONE else 0)
    return Said(seconds, known if is_answered else LATE)


def facts(model, log):
    """The facts of a question for clingo. Names become numbers, and events with a label that no alarm may have are left out."""
    labels = {it: place for place, it in enumerate(dict.fromkeys(label for some in log.labels.values() for label in some))}
    components = {it: place for place, it in enumerate(model.states)}
    states = {name: {it: place for place, it in enumerate(some)} for name, some in model.states.items()}
    actions = {name: {it: place for place, it in enumerate(dict.fromkeys(action for _, action, _ in some))} for name, some in model.moves.items()}
    alarms = {it: place for place, it in enumerate(log.labels)}
    for name, place in components.items():
        yield f"component({place})."
        yield from (f"initial({place},{states[name][it]})." for it in model.inits[name])
        yield from (f"move({place},{states[name][start]},{actions[name][action]},{states[name][to]})." for start, action, to in model.moves[name])
    for place, event in enumerate(model.events.values()):
        if event.label is None or event.label in labels:
            yield f"event({place})."
            yield from (f"part({place},{components[name]},{actions[name][action]})." for name, action in event.parts.items())
            yield from [f"fault({place})."] * event.is_fault
            yield from [f"raises({place},{labels[event.label]})."] if event.label else []
    for name, place in alarms.items():
        yield f"alarm({place})."
        yield from (f"label({place},{labels[it]})." for it in log.labels[name])
        yield from [f"doubtful({place})."] * (name in log.doubtful)
    yield from (f"before({alarms[first]},{alarms[second]})." for first, second in log.pairs)


def clingo(files, steps):
    """What clingo says of a question, by a strategy and within a limit."""
    path = os.path.join(os.path.dirname(files[0]), "facts.lp")
    with open(path, "w", encoding="ascii") as it:
        it.write("\n".join(facts(model_of(files[0]), log_of(files[1]))) + "\n")

    def by(strategy, limit):
        seconds, _, out = limited("clingo", path, os.path.join(TOP, "bench", "question.lp"), "-c", f"n={steps}", *options(strategy), limit=limit)
        lines = out.split("\n")
        if "UNSATISFIABLE" in lines:
            return Said(seconds, NONE)
        if "OPTIMUM FOUND" not in lines:
            return Said(seconds, 0 if "SATISFIABLE" in lines else LATE)
        return Said(seconds, int(next((it.split(":")[1] for it in reversed(lines) if it.startswith("Optimization")), "0")))
    return by


def soft(model, log, steps, formula):
    """The formula as one for MaxSAT, in which no clause but those against faults may be false."""
    variables = Variables(model, log, steps)
    against = [variables.happens[name, step] for name in model.faults() for step in range(1, steps + 1)] + list(variables.false.values())
    top = len(against) + 1
    head, *clauses = formula.rstrip("\n").split("\n")
    _, _, count, _ = head.split()
    yield f"p wcnf {count} {len(clauses) + len(against)} {top}"
    yield from (f"{top} {clause}" for clause in clauses)
    yield from (f"1 -{it} 0" for it in against)


def clasp(program, files, steps):
    """The same of clasp."""
    formula = subprocess.run([program, "cnf", *files, str(steps), "any"], stdout=subprocess.PIPE, text=True, check=True).stdout
    path = os.path.join(os.path.dirname(files[0]), "faults.wcnf")
    with open(path, "w", encoding="ascii") as it:
        it.write("\n".join(soft(model_of(files[0]), log_of(files[1]), steps, formula)) + "\n")

    def by(strategy, limit):
        seconds, _, out = limited("clasp", path, "--outf=1", *options(strategy), limit=limit)
        lines = out.split("\n")
        if "s UNSATISFIABLE" in lines:
            return Said(seconds, NONE)
        if "s OPTIMUM FOUND" not in lines:
            return Said(seconds, 0 if "s SATISFIABLE" in lines else LATE)
        return Said(seconds, int(next((it.split()[1] for it in reversed(lines) if it.startswith("o ")), "0")))
    return by


def tried(by, strategies, dropped):
    """What a solver says by each strategy but those that are dropped. Those that are from now on are put to these."""
    found = {}
    for strategy in [it for it in strategies if it not in dropped]:
        best = min((it.seconds for it in found.values() if it.answer != LATE), default=LIMIT)
        found[strategy] = by(strategy, min(LIMIT, max(PATIENCE, math.ceil(SLOWER * best))))
    if any(it.answer != LATE for it in found.values()):
        dropped |= {strategy for strategy, it in found.items() if it.answer == LATE}
    return found


def has(program):
    return subprocess.run(["which", program], stdout=subprocess.DEVNULL, stderr=subprocess.DEVNULL, check=False).returncode == 0


class Peers:
    """Those who are asked: the programs, and what is installed."""

    def __init__(self, program, refine, folder):
        self.program, self.refine, self.folder, self.cadical = program, refine, folder, library(folder)
        self.solvers = [it for it in ("clingo", "clasp") if has(it)]

    def names(self):
        return NAMES + self.solvers

    def asked(self, steps, model, log, dropped):
        """What each says of a question, and None for who isn't there. `dropped` has of each solver the strategies that are not to be asked. The library is asked last, since it needs to know the answer."""
        files = written(self.folder, model, log)
        said = Asked([by_program(self.program, files, steps), by_refined(self.program, self.refine, files, steps), None], {})
        for name in self.solvers:
            said.ways[name] = tried(clingo(files, steps) if name == "clingo" else clasp(self.program, files, steps), STRATEGIES[name], dropped.setdefault(name, set()))
        known = answers(said)
        if self.cadical and known:
            said.plain[2] = by_library(self.program, self.cadical, files, steps, known[0])
        return said


def answers(said):
    """All answers to a question."""
    every = said.plain + [it for ways in said.ways.values() for it in ways.values()]
    return [it.answer for it in every if it and it.answer != LATE]


def agree(said):
    """Whether all that have an answer have the same."""
    return len(set(answers(said))) <= 1


def counted(said):
    """The seconds that somebody has in a mean."""
    return LIMIT if said.answer == LATE else max(said.seconds, LEAST)


def chosen(rows, name):
    """The strategy by which a solver is late least often on these questions, and of those the one with the least mean."""
    def seen(strategy):
        some = [row.ways[name][strategy] for row in rows]
        return sum(it.answer == LATE for it in some), mean(list(map(counted, some)))
    return min([it for it in STRATEGIES[name] if all(it in row.ways[name] for row in rows)], key=seen)


def questions(program, seed):
    """Each with its family, its name, the steps, model and log."""
    for order, words in [("whole", "in their order"), ("component", "in that of each component"), ("blocks", "in blocks")]:
        for slack in [1, 1.5]:
            yield "torus", f"20 components, 20 alarms {words}, {slack} times the steps", *drawn(torus(4, 5), 20, 2, seed, order, slack)
    for order, words in [("whole", "in their order"), ("component", "in that of each component")]:
        for slack in [1, 1.5]:
            yield "telecom", f"28 components, 30 alarms {words}, {slack} times the steps", *drawn(telecom(4, 5), 30, 6, seed, order, slack)
    for count, order, words, slacks in PROTECTIONS:
        for slack in slacks:
            yield "protection", f"{count} {'line' if count == 1 else 'lines'}, 24 alarms {words}, {slack} times the steps", *drawn(protection(count), 24, 4, seed, order, slack)
    for bits, steps in [(3, 12), (4, 16), (6, 14)]:
        yield "adder", f"{bits} bits", steps, *adder(bits, seed, {f"a1-{bits // 2}": 1, f"x2-{bits - 1}": 1})
    for units in [20, 100]:
        model, log = generated(program, units)
        yield "units", f"{units} units", 1 + sum(it.startswith("alarm,") for it in log), model, log
    yield "valves", "6 valves, 4 alarms", 5, *valves(6, 4)
    yield "valves", "6 valves, 5 alarms", 4, *valves(6, 5)
    draw = random.Random(seed)
    for count, steps in [(6, 8), (8, 7), (10, 6)]:
        yield "stations", f"{count} stations, 6 alarms", steps, *stations(count, [draw.choice(["L0", "L1", "A0", "A1", "A2", "L0|L1"]) for _ in range(6)])
    for nodes, faults, steps in [(20, 6, 10), (20, 6, 15), (30, 8, 12)]:
        yield "meshes", f"mesh of {nodes} nodes", steps, *mesh(nodes, 3, seed, faults, 10)
    for faults in [2, 4, 6]:
        for is_ordered in [True, False]:
            steps, model, log = grid(4, 5, faults, seed, is_ordered)
            yield "grids", f"grid of 20, {faults} faults, {'whole order' if is_ordered else 'order of each component'}", steps, model, log
    for alarms in [5, 6, 7]:
        yield "equal alarms", f"{alarms} alarms of one device", alarms, *repeats(alarms)


def shown(said):
    return "" if said is None else LATE if said.answer == LATE else f"{said.seconds:.2f}"


def answer_of(said):
    return next(map(str, answers(said)), "")


def by_family(peers, seeds, families):
    """The questions of each family, each once."""
    found, seen = {}, set()
    for seed in seeds:
        for family, name, steps, model, log in questions(peers.program, seed):
            key = steps, tuple(model), tuple(log)
            if key not in seen and (not families or family in families):
                seen.add(key)
                found.setdefault(family, []).append((f"{name}, seed {seed}" if len(seeds) > 1 else name, steps, model, log))
    return found


def row(cells):
    return f"| {' | '.join(cells)} |"


def table(peers, seeds, families):
    """Prints a row for each question and the means of the families; answers whether nobody's answer differs."""
    print(row(["Family", "Plant and log", "Steps", *peers.names(), "Faults"]) + "\n" + "|---" * (len(peers.names()) + 4) + "|")
    kept, differs, best = {}, 0, {}
    for family, some in by_family(peers, seeds, families).items():
        dropped = {}
        rows = [peers.asked(steps, model, log, dropped) for _, steps, model, log in some]
        best[family] = {name: chosen(rows, name) for name in peers.solvers}
        kept[family] = [said.plain + [said.ways[name][best[family][name]] for name in peers.solvers] for said in rows]
        for (name, steps, _, _), said, columns in zip(some, rows, kept[family]):
            differs += not agree(said)
            print(row([family, name, str(steps), *map(shown, columns), answer_of(said) if agree(said) else f"DIFFERS: {said}"]), flush=True)
    means_of(peers, kept, best)
    return differs == 0


def means_of(peers, kept, best):
    """Prints the means of the families, and the strategies that were the best."""
    print("\n" + row(["Family", "Questions", *peers.names(), "Late"]) + "\n" + "|---" * (len(peers.names()) + 3) + "|")
    columns = {family: [mean([counted(it) for it in column if it]) for column in zip(*rows)] for family, rows in kept.items()}
    for family, means in columns.items():
        late = ", ".join(str(sum(1 for it in column if it and it.answer == LATE)) for column in zip(*kept[family]))
        print(row([family, str(len(kept[family])), *("" if it is None else f"{it:.3f}" for it in means), late]))
    over = [mean([it for it in column if it is not None]) for column in zip(*columns.values())]
    print(row(["all", str(sum(map(len, kept.values()))), *("" if it is None else f"{it:.3f}" for it in over), ""]))
    if peers.solvers:
        print("\n" + row(["Family", *peers.solvers]) + "\n" + "|---" * (len(peers.solvers) + 1) + "|")
        print("\n".join(row([family, *some.values()]) for family, some in best.items()))


def agreement(peers, seed, count):
    """Asks small questions; answers whether nobody's answer differs."""
    differs, found = [], []
    for number in range(count):
        said = peers.asked(*small(random.Random(f"{seed} {number}")), {})
        found.append(answer_of(said))
        late = [it for it in said.plain + [it for ways in said.ways.values() for it in ways.values()] if it and it.answer == LATE]
        if not agree(said) or late:
            differs.append(f"question {number}: {said}")
    who = [name for name, it in zip(NAMES, said.plain) if it] + [f"{name} by {len(STRATEGIES[name])} strategies" for name in peers.solvers]
    print("\n".join(differs + [f"{count} questions, {len(differs)} with answers that differ; nothing explains {found.count(NONE)} of the logs, and {sum(it not in (NONE, '0') for it in found)} need faults. Asked: {', '.join(who)}."]))
    return not differs


def option(words, name, otherwise):
    """The word behind an option, which is taken out."""
    if name not in words:
        return otherwise
    at = words.index(name)
    value = words[at + 1]
    del words[at:at + 2]
    return value


def main(folder, words):
    refine, seeds, count = option(words, "--refine", None), [int(it) for it in option(words, "--seed", "3").split(",")], option(words, "--agree", None)
    peers = Peers(os.path.abspath(words[0]), refine and os.path.abspath(refine), folder)
    return agreement(peers, seeds[0], int(count)) if count else table(peers, seeds, words[1:])


if __name__ == "__main__":
    with tempfile.TemporaryDirectory() as scratch:
        sys.exit(0 if main(scratch, sys.argv[1:]) else 1)
