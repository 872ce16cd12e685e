"""Asks `twin` about plants as steps and AFTER grow, and prints a table: plant, event, steps, AFTER, size, seconds of the processor, memory, answer.

    python3 bench/twin.py PROGRAM [SECONDS]

PROGRAM is the program as `rt run` builds it, crates/diagnose_cli/out/diagnose_cli. A question that takes longer than SECONDS (200 where none is given) has the answer
"none". It's no part of the gate.

The first plants are chains: a fault, or another event that nobody sees, and then so many alarms, alike in both branches but for the last
one. So there are twins for each AFTER below the number of alarms, and none from there on. The second are the bus and Z units of `generate`,
of which a unit that trips has jammed: a jam looks like nothing until something of its unit is seen, so there are twins wherever other
units may be seen instead. The third are plants of `examples/`. The size is that of docs/formats.md, counted here from the model.

On 29 November 2026, on four shared processors of an Intel Xeon under heavy load, one run each, seconds of the processor for the whole `twin` by the proved program, and MiB at the peak (a child
begins with some 15). SECONDS was 90, by the clock, in which the two questions without an answer got 15 and 11 of a processor. The rows that are left out took at most 1.2 seconds.

| Plant | Event | Steps | AFTER | Size | Seconds | MiB | Answer |
|---|---|---|---|---|---|---|---|
| chain of 10 alarms | `ef` | 11 | 9 | 52,338 | 0.01 | 14 | AMBIGUOUS 11 |
| chain of 10 alarms | `ef` | 11 | 10 | 52,382 | 0.01 | 14 | CLEAR 11 |
| chain of 20 alarms | `ef` | 21 | 19 | 322,518 | 0.03 | 14 | AMBIGUOUS 21 |
| chain of 20 alarms | `ef` | 21 | 20 | 322,602 | 0.04 | 14 | CLEAR 21 |
| chain of 40 alarms | `ef` | 41 | 39 | 2,286,078 | 0.22 | 64 | AMBIGUOUS 41 |
| chain of 40 alarms | `ef` | 41 | 40 | 2,286,242 | 0.32 | 65 | CLEAR 41 |
| chain of 80 alarms | `ef` | 81 | 79 | 17,281,998 | 1.39 | 447 | AMBIGUOUS 81 |
| chain of 80 alarms | `ef` | 81 | 80 | 17,282,322 | 2.29 | 453 | CLEAR 81 |
| 40 units | `jam-1` | 16 | 15 | 438,752 | 0.03 | 14 | AMBIGUOUS 16 |
| 40 units | `jam-1` | 16 | 16 | 438,816 | 0.02 | 14 | CLEAR 16 |
| 200 units | `jam-1` | 16 | 1 | 3,212,896 | 0.25 | 72 | AMBIGUOUS 16 |
| 200 units | `jam-1` | 16 | 15 | 3,213,792 | 0.22 | 74 | AMBIGUOUS 16 |
| 200 units | `jam-1` | 16 | 16 | 3,213,856 | 0.19 | 72 | CLEAR 16 |
| 200 units | `jam-1` | 80 | 1 | 16,064,480 | 1.25 | 351 | AMBIGUOUS 80 |
| 200 units | `jam-1` | 80 | 79 | 16,089,440 | 1.22 | 391 | AMBIGUOUS 80 |
| 200 units | `jam-1` | 80 | 80 | 16,089,760 | 1.03 | 384 | CLEAR 80 |
| `tutorial`, model.des | `loosen` | 80 | 4 | 109,760 | 0.01 | 15 | AMBIGUOUS 80 |
| `heating`, model.des | `fail-off` | 80 | 8 | 300,320 | 0.03 | 15 | AMBIGUOUS 80 |
| `heating`, pressure.des | `fail-off` | 10 | 7 | 37,240 | 0.01 | 15 | CLEAR 10 |
| `heating`, pressure.des | `fail-off` | 20 | 7 | 74,480 | 0.08 | 15 | AMBIGUOUS 20 |
| `heating`, pressure.des | `fail-off` | 40 | 7 | 148,960 | 0.25 | 15 | AMBIGUOUS 40 |
| `heating`, pressure.des | `fail-off` | 80 | 7 | 297,920 | 0.43 | 15 | AMBIGUOUS 80 |
| `heating`, pressure.des | `fail-off` | 10 | 8 | 37,280 | 0.01 | 15 | CLEAR 10 |
| `heating`, pressure.des | `fail-off` | 20 | 8 | 74,560 | 0.59 | 15 | CLEAR 20 |
| `heating`, pressure.des | `fail-off` | 40 | 8 | 149,120 | 9.09 | 41 | CLEAR 40 |
| `heating`, pressure.des | `fail-off` | 80 | 8 | 298,240 | 15.42 | 84 | none |
| `heating`, position.des | `stick-shut` | 10 | 4 | 37,120 | 0.02 | 15 | CLEAR 10 |
| `heating`, position.des | `stick-shut` | 20 | 4 | 74,240 | 0.27 | 15 | CLEAR 20 |
| `heating`, position.des | `stick-shut` | 40 | 4 | 148,480 | 2.05 | 18 | CLEAR 40 |
| `heating`, position.des | `stick-shut` | 80 | 4 | 296,960 | 10.90 | 52 | none |
| `propulsion`, model.des | `leak` | 80 | 4 | 516,640 | 0.21 | 15 | AMBIGUOUS 80 |
| `feeder`, model.des | `jam-breaker` | 80 | 4 | 489,760 | 0.04 | 15 | AMBIGUOUS 80 |
| `ring`, model.des | `cut-12` | 80 | 4 | 496,800 | 0.07 | 15 | AMBIGUOUS 80 |

So a question is dear by its size where there are twins, and where there are none by the steps: a fault of a heating loop that is detected takes 0.6 seconds within 20 steps and 9 within 40. AFTER makes little
difference here. It makes one where many events can be seen, since a clause for each step and each amount up to AFTER has them all: 40 devices with 9 events each that are seen take, within 1,000 steps, 3 seconds and 799 MiB
where AFTER is 25, 4 and 1,238 where it is 100, 8 and 1,822 where it is 200, and where it is 1,000 they ran out of the 8 GiB that bench/hostile.py gives, and had an answer in 10 (16 seconds, 6,425 MiB). On 1 December, with half the memory for each literal,
they take 815 MiB where AFTER is 100 and 3,458 where it is 1,000 (bench/hostile.py).
"""
import os
import sys
import tempfile

from measure import spent

START = 7
BUDGET = 1_000_000
EXAMPLES = os.path.join(os.path.dirname(os.path.abspath(__file__)), "..", "examples")


def chain(alarms):
    """Two branches of so many alarms, of which the last differ."""
    model = ["des 1", "component c", "state s init"]
    model += [f"state {branch}{place}" for branch in "fg" for place in range(alarms + 1)]
    for branch in "fg":
        model += [f"trans s {branch} {branch}0"]
        model += [f"trans {branch}{place} {branch}a{place} {branch}{place + 1}" for place in range(alarms)]
    model += ["event ef fault : c.f", "event eg : c.g"]
    for branch in "fg":
        for place in range(alarms):
            label = f"L{place}" if place + 1 < alarms else f"last-{branch}"
            model += [f"event {branch}-{place} alarm {label} : c.{branch}a{place}"]
    return model


def units(program, count):
    """A bus and units as the program makes them."""
    _, _, status, text = spent(program, "generate", "model", str(count), str(START))
    if status != 0:
        sys.exit(f"generate model {count} {START} ended with status {status}")
    return text.split("\n")


def example(name):
    with open(os.path.join(EXAMPLES, name), encoding="ascii") as it:
        return it.read().split("\n")


def size(model, steps, after):
    """The size of a twin question."""
    lines = [line.split() for line in model if line.strip() and not line.startswith("#")]
    sides, component = {}, None
    for words in lines:
        if words[0] == "component":
            component = words[1]
            sides[component] = 0
        elif words[0] == "state":
            sides[component] += 1
    events = [words for words in lines if words[0] == "event"]
    for words in events:
        for part in words[words.index(":") + 1:]:
            sides[part.split(".")[0]] += 1
    faults = sum("fault" in words[2:words.index(":")] for words in events)
    seen = sum("alarm" in words[2:words.index(":")] for words in events)
    return 2 * steps * (sum(side**2 for side in sides.values()) + 256 * faults) + 8 * steps * seen + 4 * steps * after


def questions(program):
    """Each with its name, the model, the event, steps and AFTER."""
    for alarms in [10, 20, 40, 80]:
        for after in [alarms - 1, alarms]:
            yield f"chain of {alarms} alarms", chain(alarms), "ef", alarms + 1, after
    for count, steps in [(12, 16), (40, 16), (200, 16), (200, 80)]:
        for after in [1, steps // 2, steps - 1, steps]:
            yield f"{count} units", units(program, count), "jam-1", steps, after
    for name, event, after in [("tutorial/model.des", "loosen", 4), ("heating/model.des", "fail-off", 8), ("heating/pressure.des", "fail-off", 7), ("heating/pressure.des", "fail-off", 8),
                               ("heating/position.des", "stick-shut", 4), ("propulsion/model.des", "leak", 4), ("feeder/model.des", "jam-breaker", 4), ("ring/model.des", "cut-12", 4)]:
        for steps in [10, 20, 40, 80]:
            yield f"`{os.path.dirname(name)}`, {os.path.basename(name)}", example(name), event, steps, after


def main(program, folder, seconds_at_most="200"):
    print("| Plant | Event | Steps | AFTER | Size | Seconds | MiB | Answer |")
    print("|---|---|---|---|---|---|---|---|")
    file = os.path.join(folder, "model.des")
    for name, model, event, steps, after in questions(program):
        with open(file, "w", encoding="ascii") as f:
            f.write("\n".join(model) + "\n")
        words = ["twin", file, event, str(steps), str(after), str(BUDGET)]
        seconds, memory, status, out = spent("timeout", seconds_at_most, program, *words)
        answer = out.split("\n")[0] if status != 124 else "none"
        cells = [name, f"`{event}`", str(steps), str(after), str(size(model, steps, after)), f"{seconds:.2f}", f"{memory:.0f}", answer]
        print("| " + " | ".join(cells) + " |", flush=True)


if __name__ == "__main__":
    with tempfile.TemporaryDirectory() as scratch:
        main(sys.argv[1], scratch, *sys.argv[2:3])
