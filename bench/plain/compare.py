"""Asks the program what the plain searches answer as well, about runs of small plants that are drawn by chance, and prints each answer that differs.

    python3 bench/plain/compare.py PROGRAM [QUESTIONS [SEED]]

PROGRAM is the compiled program, crates/diagnose_cli/out/diagnose_cli. QUESTIONS are 1,000 if no number is given, drawn with SEED, 1 if none is given. The plants are those of
examples/ and of the texts of blocks there. A question is drawn anew if the plain search would look at too much, or if the program takes more than SECONDS. At the end stands how many were asked of each kind.

On 30 November 2026 the 1,000 questions with seed 1 took a minute of the processor for the scripts and the program together, and none of the answers differed.

Status 0: no answer differs, 1: some does.
"""
import os
import random
import subprocess
import sys
import tempfile
from collections import Counter

HERE = os.path.dirname(os.path.abspath(__file__))
TOP = os.path.dirname(os.path.dirname(HERE))
sys.path[:0] = [HERE, os.path.join(TOP, "tools")]
import sets as listed  # noqa: E402
from alike import most_alarms  # noqa: E402
from blocks import model_of  # noqa: E402
from explain import cheapest, fault_sets, replayed, verdicts  # noqa: E402
from network import Log, Network, TooLarge  # noqa: E402
from walks import disturbed, log_of, walk, width, with_alarms  # noqa: E402

BUDGET = "1000000"
SECONDS = 60
BLOCKS = [("blocks/crossing", {"TRACKS": "1"}), ("blocks/crossing", {"TRACKS": "2"}), ("blocks/telecom", {"STATIONS": "1", "SWITCHES": "2"}), ("blocks/telecom", {"STATIONS": "2", "SWITCHES": "1"}),
          ("blocks/torus", {"ROWS": "2", "COLUMNS": "2"}), ("blocks/torus", {"ROWS": "2", "COLUMNS": "3"}), ("blocks/grid", {"ROWS": "2", "COLUMNS": "2"}), ("circuit/adder", {}),
          ("heating/order", {}), ("heating/order", {"C": "close", "D": "stop"})]
MODELS = ["tutorial/model", "station/model", "heating/model", "heating/pressure", "propulsion/model", "feeder/model", "protection/model", "protection/two"]


class Plant:
    """A plant with its name, the text of its model, and its labels."""

    def __init__(self, name, text):
        self.name, self.text, self.network = name, text, Network(text)
        self.labels = sorted({event.label for event in self.network.events if event.label})


def read(name):
    with open(os.path.join(TOP, "examples", name), encoding="utf-8") as it:
        return it.read()


def plants():
    """The plants that questions are drawn from."""
    found = [Plant(f"{name} {' '.join(values.values())}", model_of(read(f"{name}.blocks"), values.items())) for name, values in BLOCKS]
    return found + [Plant(name, read(f"{name}.des")) for name in MODELS]


class Question:
    """A plant, a run of it and a log, with what is needed to ask the program."""

    def __init__(self, program, plant, draw):
        self.program, self.plant, self.network, self.draw = program, plant, plant.network, draw
        self.events = walk(self.network, draw.randint(1, 8), draw.choice([0, 1, 1, 2, 2, 3]), draw)
        self.rows = disturbed(log_of(self.events, draw.choice(["whole", "whole", "device", "blocks", "free"])), plant.labels, draw)
        self.log = Log("\n".join(self.rows))

    def ask(self, command, *words, **texts):
        """The program's reply and its status. A word that names a text is the path of a file with it."""
        texts = {"MODEL": self.plant.text, "LOG": "".join(f"{row}\n" for row in self.rows), **texts}
        with tempfile.TemporaryDirectory() as room:
            for name, text in texts.items():
                with open(os.path.join(room, name), "w", encoding="utf-8") as it:
                    it.write(text)
            words = [os.path.join(room, it) if it in texts else str(it) for it in words]
            try:
                ran = subprocess.run([self.program, command] + words, stdout=subprocess.PIPE, text=True, timeout=SECONDS)
            except subprocess.TimeoutExpired:
                raise TooLarge from None
        return ran.stdout, ran.returncode

    def run_in(self, reply):
        """The events of a reply's first run, with their alarms."""
        lines = [line.split() for line in reply.split("\n")]
        at = next(place for place, words in enumerate(lines) if words[:1] == ["run"])
        return [(words[0], words[1] if len(words) > 1 else None) for words in lines[at + 1:at + 1 + int(lines[at][1])]]


def diagnose(it):
    """The least number of faults, within so many steps that a best run has room."""
    best = cheapest(it.network, it.log)
    steps = 10 if best is None else len(best[1])
    return least_is(it, best, steps)


def few_steps(it):
    """The least number of faults within the steps that the run takes, or one or two fewer."""
    steps = max(width(it.events) - it.draw.randint(0, 2), 0)
    return least_is(it, cheapest(it.network, it.log, steps=steps), steps)


def least_is(it, best, steps):
    """Whether `diagnose` says what the plain search found, and prints a run that explains the log with as many faults."""
    reply, status = it.ask("diagnose", "MODEL", "LOG", steps, BUDGET)
    if best is None:
        return (reply, status) == (f"NONE {steps}\n", 10), reply, best
    right = status == 0 and reply.startswith(f"EXPLAINED {best[0]}\n") and replayed(it.network, it.log, it.run_in(reply), steps) == best[0]
    return right, reply, best


def says_verdicts(it):
    """What is certain, possible and excluded."""
    said = verdicts(it.network, it.log)
    steps = said[2] if said else 10
    reply, _ = it.ask("verdicts", "MODEL", "LOG", steps, BUDGET)
    lines = [line.split() for line in reply.split("\n") if line]
    if said is None:
        return reply == f"NONE {steps}\n", reply, said
    found = {words[1]: words[0] for words in lines if words[0] in ("CERTAIN", "POSSIBLE", "EXCLUDED", "OPEN")}
    return lines[0] == ["EXPLAINED", str(said[0])] and found == said[1], reply, said


def replays(it):
    """Whether the run explains the log, or one in which a line is left out, or two are exchanged."""
    run = with_alarms(it.events)
    if run and it.draw.random() < 0.7:
        one, other = it.draw.randrange(len(run)), it.draw.randrange(len(run))
        run[one], run[other] = run[other], run[one]
        run = run[:one] + run[one + 1:] if one == other else run
    steps = max(width(it.events) - it.draw.choice([0, 0, 0, 1]), 0)
    faults = replayed(it.network, it.log, run, steps)
    text = f"run {len(run)}\n" + "".join(f"{name}{f' {alarm}' if alarm else ''}\n" for name, alarm in run)
    reply, status = it.ask("replay", "MODEL", "LOG", "RUN", steps, RUN=text)
    return (reply.startswith("REJECTED ") and status == 13) if faults is None else (reply, status) == (f"ACCEPTED {faults}\n", 0), reply, faults


def follows(it):
    """The least number after each alarm as they come."""
    script, bests = [], []
    for row in sorted(it.rows, key=lambda row: (int(row.split(",")[1 if row[0] != "b" else 2][1:]), row[0] == "b")):
        script.append(row)
        if not row.startswith("before"):
            script.append("ask")
    for place, row in enumerate(script):
        if row == "ask":
            bests.append(cheapest(it.network, Log("\n".join(script[:place]))))
    steps = max([4] + [len(best[1]) for best in bests if best])
    wanted = [f"EXPLAINED {best[0]}" if best else f"NONE {steps}" for best in bests]
    reply, _ = it.ask("session", "MODEL", "SCRIPT", steps, BUDGET, SCRIPT="".join(f"{row}\n" for row in script))
    return [line for line in reply.split("\n") if line.split(" ")[0] in ("EXPLAINED", "NONE", "MANY", "UNDECIDED", "REFUSED")] == wanted, reply, wanted


def costs(it):
    """The least total cost."""
    prices = {fault: it.draw.randint(1, 9) for fault in it.network.faults}
    best = cheapest(it.network, it.log, costs=prices)
    steps = 10 if best is None else len(best[1])
    text = "costs 1\n" + "".join(f"cost {fault} {price}\n" for fault, price in prices.items())
    reply, _ = it.ask("cheapest", "MODEL", "LOG", "COSTS", steps, BUDGET, COSTS=text)
    return reply.split("\n")[0] == (f"NONE {steps}" if best is None else f"CHEAPEST {best[0]}"), reply, best


def twins(it):
    """Whether a fault can stay hidden, just as long as it can and for one alarm more."""
    fault, steps = it.draw.choice(it.network.faults), it.draw.randint(1, 5)
    most = most_alarms(it.network, fault, steps)
    after = max(most + it.draw.randint(0, 1), 0)
    reply, _ = it.ask("twin", "MODEL", fault, steps, after, BUDGET)
    return reply.split("\n")[0] == f"{'AMBIGUOUS' if after <= most else 'CLEAR'} {steps}", reply, (fault, steps, after, most)


def all_sets(it):
    """All least sets of faults, by tools/sets.py."""
    best = cheapest(it.network, it.log)
    steps = len(it.events) + 4
    wanted = fault_sets(it.network, it.log, best[0]) if best else set()
    with tempfile.TemporaryDirectory() as room:
        paths = [os.path.join(room, name) for name in ("model", "log")]
        for path, text in zip(paths, [it.plant.text, "".join(f"{row}\n" for row in it.rows)]):
            with open(path, "w", encoding="utf-8") as file:
                file.write(text)
        found = set()
        listed.sets(listed.Question(it.program, *paths, str(steps), BUDGET), found)
    return {tuple(sorted(faults)) for faults in found} == {tuple(sorted(fault.replace("!", "! ") for fault in faults)) for faults in wanted}, sorted(found), sorted(wanted)


KINDS = [diagnose, few_steps, says_verdicts, replays, diagnose, follows, few_steps, costs, twins, all_sets]


def main(words):
    program, count, seed = os.path.abspath(words[0]), int(words[1]) if len(words) > 1 else 1000, words[2] if len(words) > 2 else "1"
    asked, wrong, anew, known = Counter(), 0, 0, plants()
    for number in range(count):
        kind, attempt = KINDS[number % len(KINDS)], 0
        while True:
            draw = random.Random(f"{seed} {number} {attempt}")
            plant = draw.choice(known)
            try:
                question = Question(program, plant, draw)
                is_right, said, wanted = kind(question)
                break
            except TooLarge:
                anew, attempt = anew + 1, attempt + 1
        asked[kind.__name__] += 1
        if not is_right:
            wrong += 1
            print(f"{kind.__name__} {number} on {plant.name}: the program says\n{said}\nand the plain search {wanted}")
    print(f"{sum(asked.values())} questions ({', '.join(f'{number} {name}' for name, number in asked.items())}), {anew} drawn anew, {wrong} answered otherwise")
    return 1 if wrong else 0


if __name__ == "__main__":
    sys.exit(main(sys.argv[1:]))
