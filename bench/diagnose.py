"""Times `diagnose` on plants that the program or these scripts make, beside an earlier program and CaDiCaL's library, and prints a table of questions and one of means by family.

    python3 bench/diagnose.py PROGRAM [--earlier EARLIER] [--refined] [--seconds] [FAMILY..]

PROGRAM is the program as `rt run` builds it, crates/diagnose_cli/out/diagnose_cli, and EARLIER one of another commit. With families it asks only the questions of these (`torus`, `"equal alarms"`).
Where CaDiCaL's library is installed (Debian: libcadical-dev), and a C++ compiler, it is timed on the formulas for all bounds up to the answer, one after another (`ascending.cpp`), unless more than 30 faults are needed or no run is known.
With --refined the program is asked about the model as tools/refine.py writes it as well (docs/scripts.md, *A finer model*). With --seconds neither clauses nor first runs are counted, which takes a fifth of the time.
Who has no answer after 20 seconds of the processor is late. A call that ends within half a second is made five times, and the least of its seconds counts: what else the machine does then counts for little. It's no part of the gate, and takes some twenty minutes where nothing else is done.

A question's row has the seconds of the processor for the whole `diagnose` (for the library those of the search alone), MiB at the peak (17 or less say nothing), the clauses that are learnt, the faults of the run that is found first, and the answer. How many clauses are learnt
depends neither on the machine nor on what else it does. It is the least budget with which there is an answer, looked for between budgets to one part in 16, where the answer took at most half a second.

The means are geometric, of ratios: of seconds where one of the two took at least 0.03, and who is late counts with the limit; of MiB where one of the two took at least 20. Faults of first runs are sums over the questions whose answer is known. Over all families means are those of the families' means.

The families:
- `empty log`: nothing was seen, of 20 to 100 components, within up to 1,000 steps: with 45 that is nearly as large as a question may be. A run without an event explains it.
- `torus`, `telecom`, `protection`, `adder`: plants in the manner of the literature (`plants.py`). All but the adder have logs of simulated runs, in their whole order, in that of each component, or in blocks, within
  as many steps as the run needs, 1.5 times as many, and twice as many; those of toruses within 14 and 18 steps too, and with 40 alarms and 4 faults within 20. The number of the run's faults is an upper bound of the answer.
- `alignments`: a process and the records of a case, each of which may be wrong, while activities may have no record (`plants.py`): the least number of faults is the cost of an alignment. The process is strict, goes round, goes through a sequence, or may do anything.
- `two devices`: messages on a channel that may lose them, where what was sent and what came are in no order.
- `hidden wires`: the adder with wires that are 0 or 1 from the beginning, each gate of which is looked at once.
- `units`: a bus and Z units, as the program's `generate` makes it. Each unit jams, which is a fault that nobody sees, then trips at the bus, and is fixed. Some units trip, one after the other, and the log has an alarm for each.
  So the least number of faults is the number of units that trip, and one step more than that is enough.
- `valves`: they jam and trip, all under one label, and the alarms have no order.
- `stations`: a line of them, each of which sends to the next; what was sent may be lost, and the sender tells that it is late.
- `meshes` of a telecom network (`meshes.py`).
- `equal alarms`: one device tells the same alarm again and again, each time by a fault.
- `lamps`: a lamp is lit and dimmed in turns, and its alarms come in their order, with as many steps as alarms, and half as many again: such chains are what a device that tells its states leaves in a log.
- `grids` of 20 like components that reboot and tell their neighbours to reboot (`grids.py`), with logs of 1 to 10 simulated faults, in their whole order and in that of each component alone, within the steps of the simulated run.

A single question may vary severalfold where anything changes, so only means over families, or over several growths of activities, tell anything.

(`alignments`, `two devices` and `hidden wires` came later than the first table below.)

On 1 December 2026, in one run of this script (29 minutes) on four processors with other work beside: the proved program (of commit b81c8763, whose learnt clauses still had what the guards of a log imply), a build of commit 9ca9733 without its proof as the earlier program, which decides states before events and settles neither the last steps nor the last devices first, and CaDiCaL's library (1.5.3).

| Family | Questions | Seconds to CaDiCaL's library's | the worst | to the earlier program's | MiB to the earlier program's | the worst | Clauses | earlier | Faults of first runs | earlier | least | Not answered: now, earlier, CaDiCaL's library |
|---|---|---|---|---|---|---|---|---|---|---|---|---|
| empty log | 5 | 0.29 | 0.30 | 0.03 | 1.00 | 1.00 |  |  | 0 | 0 | 0 | 0, 3, 0 |
| torus, whole order | 6 | 0.70 | 0.79 | 0.70 | 0.69 | 0.69 | 306 | 424 | 41 | 102 | 12 | 0, 0, 0 |
| torus, order of each component | 6 | 0.70 | 1.52 | 0.95 |  |  | 362 | 305 | 45 | 79 | 12 | 0, 0, 0 |
| torus, order of blocks | 6 | 0.80 | 2.53 | 0.61 | 0.75 | 0.75 | 284 | 327 | 52 | 80 | 12 | 0, 0, 0 |
| telecom | 12 | 0.84 | 1.79 | 1.00 | 1.14 | 1.94 | 747 | 958 | 148 | 379 | 96 | 0, 0, 0 |
| protection | 14 | 1.11 | 5.33 | 0.93 | 1.29 | 1.66 | 586 | 587 | 92 | 92 | 40 | 1, 1, 0 |
| adder | 5 | 0.73 | 1.24 | 0.88 |  |  | 776 | 758 | 27 | 110 | 5 | 0, 0, 0 |
| units | 13 | 0.43 | 0.54 | 0.78 | 0.98 | 1.00 | 38 | 38 | 210 | 862 | 210 | 0, 0, 0 |
| valves | 3 | 0.15 | 0.23 | 0.22 |  |  | 559 | 1728 | 13 | 18 | 13 | 0, 0, 0 |
| stations | 4 | 0.63 | 1.00 | 0.42 |  |  | 794 | 1218 | 9 | 10 | 9 | 0, 0, 0 |
| meshes | 3 | 0.57 | 1.00 | 0.68 | 1.27 | 1.27 | 250 | 476 | 34 | 207 | 18 | 0, 0, 0 |
| equal alarms | 4 | 0.44 | 0.67 | 0.14 |  |  | 929 | 2817 | 18 | 18 | 18 | 1, 2, 1 |
| lamps | 5 | 0.14 | 0.24 | 0.85 | 1.00 | 1.00 | 270 | 270 | 0 | 0 | 0 | 0, 0, 1 |
| grids | 22 | 1.46 | 5.43 | 1.17 | 1.12 | 1.58 | 395 | 329 | 117 | 319 | 78 | 5, 5, 1 |
| all | 108 | 0.54 |  | 0.50 | 1.01 |  |  |  | 806 | 2276 | 523 | 7, 11, 3 |

So the program takes 0.54 of the library's seconds over all families, 0.5 and 0.7 of them on six and seven equal alarms, and on each family but grids at most 1.11 times as long. Who is late counts with 20 seconds, so the 1.46 of the grids is a lower bound, and so are the 1.11 of the protections, one of which is late, and the 0.54: in the order of each component those with 6 to 9 faults aren't answered then, now or before, and take the library 4, 5, 16 and 12 seconds. With 280 seconds of a processor that others share (one run of each by a build of the same search without its proof) the grids with 6 and 7 faults take 134 and 40, the one with 9 isn't answered, and the one with 8 wasn't asked; the protection takes 250, where the library takes 6. So with these the grids are above 1.8, and the protections at 1.3. Why: `bench/NOTES.md`, *Why the grids in the order of each component are late*.
The worst answered ones are a protection's line (5.3; late within twice the steps, where the library takes 6 seconds) and a torus in blocks (2.5). First runs have 1.5 times the least number of faults in all (4.4 before), and 1.84 times in the geometric mean. Memory is 1.01 of what it was in the mean of the families; it follows the clauses that are learnt, so single questions take up to 1.9 times as much.
An empty log of 45 components within 1,000 steps, nearly as large as a question may be, takes no clause, 1.1 seconds and 375 MiB: by a profile nearly all of this is spent on the writing of the formula, and 2 % on watches.

On 2 December 2026, with --refined and --seconds and every call that ends within half a second made five times, in nine minutes, three processes on a processor each: the proved program (what the guards of a log imply no longer stands in learnt clauses, literals take four bytes, clauses of two aren't read, and where most alarms are doubtful a shortest path gives a run beside the first one), a build of commit 82bece88 without its proof as the earlier program, and the library, which is asked about the model as written:

| Family | Questions | As written, seconds to CaDiCaL's library's | the worst | to the earlier program's | the worst | MiB to the earlier program's | Refined, seconds to the library's | the worst | to as written | the worst | Not answered: as written, earlier, refined, library |
|---|---|---|---|---|---|---|---|---|---|---|---|
| empty log | 5 | 0.15 | 0.16 | 0.51 | 0.55 | 0.68 | 0.17 | 0.18 | 1.15 | 1.27 | 0, 0, 0, 0 |
| torus, whole order | 10 | 0.67 | 1.61 | 0.60 | 1.44 | 0.82 | 0.06 | 0.17 | 0.09 | 0.33 | 1, 1, 0, 1 |
| torus, order of each component | 10 | 0.63 | 1.48 | 0.73 | 1.60 | 0.78 | 0.02 | 0.10 | 0.04 | 0.26 | 1, 1, 0, 1 |
| torus, order of blocks | 10 | 0.77 | 1.86 | 1.01 | 6.85 | 1.24 | 0.06 | 0.34 | 0.04 | 0.22 | 1, 1, 0, 1 |
| telecom | 12 | 0.60 | 1.07 | 0.62 | 1.11 | 0.56 | 0.22 | 0.53 | 0.36 | 0.95 | 0, 1, 0, 0 |
| protection | 14 | 0.83 | 3.24 | 0.79 | 1.02 | 1.11 | 0.80 | 3.36 | 0.97 | 1.17 | 1, 2, 1, 0 |
| adder | 5 | 0.76 | 1.46 | 0.93 | 1.05 |  | 0.25 | 0.38 | 0.32 | 0.49 | 0, 0, 0, 0 |
| alignments | 11 | 0.76 | 3.63 | 0.47 | 1.65 | 0.79 | 0.21 | 1.96 | 0.18 | 1.07 | 0, 0, 0, 0 |
| two devices | 3 | 1.95 | 1.95 | 0.93 | 0.93 |  | 1.96 | 1.96 | 1.00 | 1.00 | 0, 0, 0, 0 |
| hidden wires | 3 | 0.80 | 1.03 | 0.79 | 0.86 |  | 0.78 | 0.91 | 0.97 | 1.02 | 0, 0, 0, 0 |
| units | 13 | 0.29 | 0.41 | 0.66 | 1.05 | 0.83 | 0.27 | 0.33 | 0.99 | 1.19 | 0, 0, 0, 0 |
| valves | 3 | 0.14 | 0.22 | 0.88 | 0.94 |  | 0.14 | 0.23 | 1.03 | 1.05 | 0, 0, 0, 0 |
| stations | 4 | 0.69 | 0.94 | 1.03 | 1.24 |  | 0.23 | 0.40 | 0.33 | 0.44 | 0, 0, 0, 0 |
| meshes | 3 | 0.48 | 0.68 | 0.78 | 0.88 | 0.89 | 0.52 | 0.67 | 1.07 | 1.33 | 0, 0, 0, 0 |
| equal alarms | 4 | 0.44 | 0.69 | 0.92 | 0.94 | 0.94 | 0.41 | 0.55 | 0.86 | 0.92 | 1, 1, 1, 0 |
| lamps | 5 | 0.12 | 0.22 | 0.79 | 0.86 | 0.79 | 0.12 | 0.22 | 0.98 | 1.05 | 0, 0, 0, 1 |
| grids | 22 | 1.01 | 3.27 | 0.60 | 1.05 | 0.80 | 0.17 | 0.85 | 0.17 | 1.06 | 5, 5, 0, 1 |
| all | 137 | 0.52 | | 0.75 | | 0.83 | 0.22 | | 0.40 | | 10, 12, 2, 5 |

Toruses take 0.042 of the library's seconds about refined models, in the mean of their three orders. One question of a protection and one of equal alarms are late about both models; the library isn't timed where no run is known. As written five grids in the order of each component are late, and a torus with 40 alarms in each order; refined none of these: they take 0.2 to 3.2 seconds, where the library takes 6.1 to 18 or is late (four of these eight).
Later the same day books came to keep only the clauses of the axioms with which they begin, and nothing of which clauses are attached. Since then MiB to the same earlier program's are 0.53 on empty logs, 0.80, 0.84 and 1.14 on toruses, 0.51 on telecom networks, 0.99 on protections,
0.78 on alignments, 0.70 on units, 0.84 on meshes, 0.90 on equal alarms, 0.76 on lamps and 0.81 on grids, 0.78 over all families (a build without its proof; where both answer, they answer alike).
Adders were asked once more when all else had ended; with it they had taken 1.12 of the earlier program's seconds, and by turns on an idle machine they take 0.89. Where nothing is seen, the further components are only more to write. By the least of fifteen calls in turns empty logs take 1.18 times as long about the refined model.

What stays dear are more steps than a log needs. With 1.5 times and twice as many steps it takes so many times as many clauses (and twenty more, in geometric means over the questions that were answered): units 2.2 and 2.6, grids 2.8, protection 5.6 and 12, telecom 9.9 and 35, torus 24 and 48 in
the whole order, 7 and 46 in that of each component, 17 and 107 in blocks; meshes 0.9. bench/NOTES.md says what was tried against that.
"""
import math
import os
import shutil
import subprocess
import sys
import tempfile
from collections import namedtuple

from grids import question
from measure import spent, timed
from meshes import mesh
from plants import adder, channel, drawn, flower, looked_at, loop, protection, sequence, strict, telecom, torus

sys.path.append(os.path.join(os.path.dirname(os.path.dirname(os.path.abspath(__file__))), "tools"))
from refine import refined_text  # noqa: E402

UNITS = [12, 20, 40, 64, 100, 200]
LAMPS = [50, 100, 200, 400]
MOST_ASCENDED = 30
START = 7
BUDGET = 1_000_000
# Who is asked is ended after so many seconds of the processor.
LIMIT = 20
# Clauses are counted where the answer took at most so many seconds, since that asks the question some ten times more; and such a call is made so many times more to be timed.
COUNTED, MORE_TIMES = 0.5, 4
# The least budget that is tried, but for none.
FEWEST = 16
# Ratios of seconds are taken where one of the two took at least so many. The library's may be too few to be told from none.
TIMED, LEAST = 0.03, 0.001
# And ratios of memory where one of the two took at least so many MiB: a child's peak begins with that of this script.
TOLD = 20
# What a program says of a question: `mib` at the peak, `first` the faults of the run that it finds first.
Told = namedtuple("Told", ["seconds", "mib", "answer", "clauses", "first"])
# What is said of a question by the program, by the earlier one, by the program about the refined model, and by the library: its seconds, and whether it answered.
Row = namedtuple("Row", ["family", "name", "steps", "now", "earlier", "refined", "library"])
# What is asked besides.
Asked = namedtuple("Asked", ["is_refined", "has_counts"])
# The heads of the means.
MEANS = ["Family", "Questions", "Seconds to CaDiCaL's library's", "the worst", "to the earlier program's", "MiB to the earlier program's", "the worst", "Clauses", "earlier"]
MEANS += ["Faults of first runs", "earlier", "least", "Not answered: now, earlier, CaDiCaL's library"]
NAMES = {"whole": "whole order", "component": "order of each component", "blocks": "order of blocks"}


def generated(program, units):
    """The lines of the model and of the log that the program makes of a bus and units."""
    for kind in ["model", "log"]:
        _, _, status, text = timed(program, "generate", kind, str(units), str(START))
        if status != 0:
            sys.exit(f"generate {kind} {units} {START} ended with status {status}")
        yield text.split("\n") if text else []


def valves(count, alarms):
    """Valves under one label, and so many alarms without an order."""
    model = ["des 1"]
    for v in range(count):
        model += [f"component p{v}", "state ok init", "state bad", "state off"]
        model += ["trans ok jam bad", "trans bad trip off", "trans off fix ok"]
    for v in range(count):
        model += [f"event jam-{v} fault : p{v}.jam", f"event trip-{v} alarm T : p{v}.trip", f"event fix-{v} alarm F : p{v}.fix"]
    return model, [f"alarm,a{a},T" for a in range(alarms)]


def stations(count, labels):
    """A line of stations, and alarms without an order."""
    model = ["des 1"]
    for s in range(count):
        model += [f"component s{s}", "state idle init", "state sent", "state got", "state lost"]
        model += ["trans idle send sent", "trans sent ack idle", "trans idle take got", "trans got reply idle"]
        model += ["trans sent drop lost", "trans lost late idle"]
    for s in range(count - 1):
        model += [f"event send-{s} : s{s}.send s{s + 1}.take", f"event ack-{s} alarm A{s % 3} : s{s}.ack s{s + 1}.reply"]
        model += [f"event drop-{s} fault : s{s}.drop s{s + 1}.reply"]
    model += [f"event late-{s} alarm L{s % 2} : s{s}.late" for s in range(count)]
    return model, [f"alarm,a{a},{label}" for a, label in enumerate(labels)]


def repeats(alarms):
    """One device, and so many alarms of one label, of which the first comes before two others."""
    model = ["des 1", "component z", "state up init", "trans up b up"] + [f"event f{i} alarm A fault : z.b" for i in range(3)]
    return model, [f"alarm,a{a},A" for a in range(alarms)] + ["before,a0,a1", "before,a0,a2"]


def lamp(alarms):
    """A lamp that is lit and dimmed in turns, and so many alarms in their order."""
    model = ["des 1", "component lamp", "state off init", "state on", "trans off light on", "trans on dim off"]
    model += ["event lit alarm ON : lamp.light", "event dimmed alarm OFF : lamp.dim"]
    log = [f"alarm,a{a},{'OFF' if a % 2 else 'ON'}" for a in range(alarms)]
    return model, log + [f"before,a{a},a{a + 1}" for a in range(alarms - 1)]


def slackened(name, model, alarms, faults, orders, slacks):
    """Logs of simulated runs in some orders, within as many steps as the runs need, and more."""
    for order in orders:
        for seed in [1, 2]:
            for slack in slacks:
                yield f"{name}, {NAMES[order]}, log {seed}, {slack} times the steps", *drawn(model, alarms, faults, seed, order, slack)


def simulated():
    """The questions about plants from the literature, by their families."""
    for steps in [20, 50, 100]:
        yield "empty log", "torus of 100", steps, torus(10, 10), []
    for columns in [4, 9]:
        yield "empty log", f"torus of {5 * columns}", 1000, torus(5, columns), []
    for order in ["whole", "component", "blocks"]:
        for it in slackened("torus of 20, 20 alarms", torus(4, 5), 20, 2, [order], [1, 1.5, 2]):
            yield f"torus, {NAMES[order]}", *it
        for alarms, faults, seed, steps in [(20, 2, 1, 14), (20, 2, 1, 18), (20, 2, 2, 14), (20, 2, 2, 18), (40, 4, 1, 20)]:
            needed, model, log = drawn(torus(4, 5), alarms, faults, seed, order)
            if steps not in [int(needed * slack) for slack in [1, 1.5, 2]]:
                yield f"torus, {NAMES[order]}", f"torus of 20, {alarms} alarms, {NAMES[order]}, log {seed}", steps, model, log
    for it in slackened("4 stations, 8 faults", telecom(4, 5), 30, 8, ["whole", "component"], [1, 1.5, 2]):
        yield "telecom", *it
    for it in slackened("1 line, 30 alarms", protection(1), 30, 5, ["whole"], [1, 1.5, 2]):
        yield "protection", *it
    for it in slackened("3 lines, 30 alarms", protection(3), 30, 5, ["whole", "component"], [1, 1.5]):
        yield "protection", *it
    for bits, steps in [(3, 8), (3, 12), (4, 12), (4, 16), (8, 14)]:
        yield "adder", f"{bits} bits", steps, *adder(bits, bits, {f"a1-{bits // 2}": 1, f"x2-{bits - 1}": 1})


def recorded():
    """Questions about processes and their records, of which each may be wrong."""
    for steps in [18, 20, 22]:
        yield "alignments", "strict process, 17 records", steps, *strict()
    for count, seed, steps in [(3, 1, 16), (4, 2, 18), (5, 3, 22)]:
        yield "alignments", f"loop of {count}, 3 rounds", steps, *loop(count, 3, seed, 3)
    for count, seed in [(16, 1), (20, 2), (24, 3)]:
        yield "alignments", f"sequence of {count}", count + 4, *sequence(count, seed, 4)
    for count, records, seed, steps in [(8, 60, 2, 66), (10, 40, 3, 60)]:
        yield "alignments", f"flower of {count}, {records} records", steps, *flower(count, records, seed)


def hidden():
    """Questions about what nobody sees: the order of alarms of two devices, and the wires of a circuit."""
    for sent, received in [(4, 2), (5, 3), (6, 2)]:
        yield "two devices", f"{sent} sent, {received} received", 2 * sent, *channel(sent, received)
    for bits, steps in [(4, 8), (6, 8), (8, 6)]:
        yield "hidden wires", f"{bits} bits", steps, *looked_at(bits, bits, {f"a1-{bits // 2}": 1, f"x2-{bits - 1}": 1})


def questions(program):
    """Each with its family, its name, the steps, model and log."""
    yield from simulated()
    yield from recorded()
    yield from hidden()
    for units in UNITS:
        model, log = generated(program, units)
        trips = sum(line.startswith("alarm,") for line in log)
        for more in [1, 3] + [-1] * (units == 200):
            yield "units", f"{units} units", trips + more, model, log
    for steps in [4, 5]:
        yield "valves", "6 valves, 4 alarms", steps, *valves(6, 4)
    yield "valves", "6 valves, 5 alarms", 4, *valves(6, 5)
    for count, steps in [(6, 4), (6, 6), (6, 8), (10, 6)]:
        yield "stations", f"{count} stations, 6 alarms", steps, *stations(count, ["L0", "L1", "A0", "A1", "A2", "L0|L1"])
    for steps in [10, 15]:
        yield "meshes", "mesh of 20 nodes", steps, *mesh(20, 3, 3, 6, 10)
    yield "meshes", "mesh of 30 nodes", 12, *mesh(30, 4, 4, 8, 10)
    for alarms in [5, 6, 7, 8]:
        yield "equal alarms", f"{alarms} alarms of one device", alarms, *repeats(alarms)
    for alarms in LAMPS:
        yield "lamps", f"lamp, {alarms} alarms in order", alarms, *lamp(alarms)
    yield "lamps", "lamp, 100 alarms in order", 150, *lamp(100)
    for faults in range(1, 11):
        for is_ordered, order in [(True, "whole order"), (False, "order of each component")]:
            steps, model, log = question(4, 5, faults, START, is_ordered)
            for slack in [1, 1.5] if faults == 4 else [1]:
                yield "grids", f"grid of 20, {faults} faults, {order}", int(steps * slack), model, log


def written(folder, model, log):
    """The files of a model and of a log."""
    files = [os.path.join(folder, name) for name in ["model.des", "log.csv"]]
    for file, lines in zip(files, [model, log]):
        with open(file, "w", encoding="ascii") as f:
            f.write("\n".join(lines) + "\n")
    return files


def asked(program, files, steps, budget):
    """Seconds, MiB and the first line of the reply. The line is empty where the program is ended at the limit."""
    words = ["sh", "-c", f'ulimit -t {LIMIT}; exec "$@"', "sh", program, "diagnose", *files, str(steps), str(budget)]
    seconds, memory, status, out = spent(*words)
    return seconds, memory, out.split("\n")[0] if status >= 0 else ""


def replies(program, files, steps):
    """The first line of the reply to a budget. Each budget is asked once."""
    kept = {}

    def reply(budget):
        if budget not in kept:
            kept[budget] = asked(program, files, steps, budget)[2]
        return kept[budget]
    return reply


def is_answer(line):
    return line != "" and not line.startswith("UNDECIDED")


def faults_of(line):
    """The faults of the run that comes with a reply."""
    last = line.split()[-1:]
    return int(last[0]) if last and last[0].isdigit() else None


def first_run(reply):
    """How many faults the run has that is found first: it comes with each `UNDECIDED` from then on."""
    few, enough = 0, FEWEST
    while faults_of(reply(enough)) is None:
        if enough > BUDGET or not reply(enough).startswith("UNDECIDED"):
            return None
        few, enough = enough, 2 * enough
    while is_answer(reply(enough)) and enough - few > 1:
        middle = (few + enough) // 2
        if faults_of(reply(middle)) is None:
            few = middle
        else:
            enough = middle
    return faults_of(reply(enough))


def learnt(reply):
    """How many clauses `diagnose` learns to its answer, to one part in 16: the least budget with which it answers, between those that were tried."""
    if is_answer(reply(0)):
        return 0
    few, enough = 0, FEWEST
    while not is_answer(reply(enough)):
        if enough > BUDGET:
            return None
        few, enough = enough, 2 * enough
    while enough - few > max(1, enough // 16):
        middle = (few + enough) // 2
        if is_answer(reply(middle)):
            enough = middle
        else:
            few = middle
    return enough


def library(folder):
    """The program that asks CaDiCaL's library, where it can be compiled."""
    path = os.path.join(folder, "ascending")
    source = os.path.join(os.path.dirname(os.path.abspath(__file__)), "ascending.cpp")
    command = ["c++", "-O2", "-o", path, source, "-lcadical"]
    if shutil.which("c++") and subprocess.run(command, stderr=subprocess.DEVNULL, check=False).returncode == 0:
        return path
    return None


def ascended(program, path, files, steps, faults):
    """Seconds of the library on the formulas for `any` and for all bounds up to so many faults, and whether it answers."""
    with tempfile.TemporaryDirectory() as room:
        formulas = []
        for bound in ["any"] + [str(bound) for bound in range(faults + 1)]:
            formulas.append(os.path.join(room, bound))
            with open(formulas[-1], "w", encoding="ascii") as f:
                subprocess.run([program, "cnf", *files, str(steps), bound], stdout=f, check=True)
        _, _, status, out = timed(path, str(LIMIT), *formulas)
        seconds = least(float(out.split()[1]), lambda: float(timed(path, str(LIMIT), *formulas)[3].split()[1]))
    return seconds, status == 0


def least(seconds, again):
    """The least seconds of several calls of the processor, where the first one ended soon: what else the machine does then counts for little."""
    return min([seconds] + [again() for _ in range(MORE_TIMES if seconds <= COUNTED else 0)])


def told(program, files, steps, has_counts):
    """What one program says of a question. Where it answers soon its clauses are counted."""
    seconds, memory, line = asked(program, files, steps, BUDGET)
    reply = replies(program, files, steps)
    seconds = least(seconds, lambda: asked(program, files, steps, BUDGET)[0])
    return Told(seconds, memory, line, learnt(reply) if has_counts and seconds <= COUNTED else None, first_run(reply) if has_counts else None)


def finer(folder, files):
    """The files of the question about the refined model."""
    path = os.path.join(folder, "finer.des")
    with open(files[0], encoding="ascii") as model, open(path, "w", encoding="ascii") as it:
        it.write(refined_text(model.read()))
    return [path, files[1]]


def rows(programs, cadical, folder, families, extra):
    """What is said of each question by the program, by the earlier one, if any, about the refined model, and by the library."""
    for family, name, steps, model, log in questions(programs[0]):
        if families and family.split(",")[0] not in families:
            continue
        files = written(folder, model, log)
        each = [told(program, files, steps, extra.has_counts) for program in programs]
        other = told(programs[0], finer(folder, files), steps, False) if extra.is_refined else None
        known = [faults_of(it.answer) if is_answer(it.answer) else it.first for it in [*each, *[other] * extra.is_refined]]
        faults = min([it for it in known if it is not None], default=None)
        third = ascended(programs[0], cadical, files, steps, faults) if cadical and faults is not None and faults <= MOST_ASCENDED else None
        yield Row(family, name, steps, each[0], each[1] if each[1:] else None, other, third)


def shown(value, form="{}"):
    return "" if value is None else form.format(value)


def cells(row):
    """A question's row."""
    both = [it for it in [row.now, row.earlier] if it]
    seconds = [f"{it.seconds:.2f}" if is_answer(it.answer) else "late" for it in both + [row.refined] * bool(row.refined)]
    seconds += [f"{row.library[0]:.2f}" if row.library[1] else "late"] if row.library else [""]
    numbers = [f"{it.mib:.0f}" for it in both] + [shown(it.clauses) for it in both] + [shown(it.first) for it in both]
    return [row.family, row.name, str(row.steps)] + seconds + numbers + [row.now.answer]


def heads(has_earlier, is_refined):
    """The heads of the questions' rows."""
    names = [["Seconds", "earlier"], ["MiB", "earlier"], ["Clauses", "earlier"], ["First run", "earlier"]]
    both = [pair[:1 + has_earlier] for pair in names]
    return ["Family", "Plant", "Steps"] + both[0] + ["refined"] * is_refined + ["CaDiCaL's library"] + sum(both[1:], []) + ["Answer"]


def mean(values):
    """The geometric mean."""
    return math.exp(sum(map(math.log, values)) / len(values)) if values else None


def compared(first, second):
    """The ratio of the seconds of two that were asked: each has its seconds, and whether it answered. Who didn't answer took the limit, or longer."""
    if not (first[1] or second[1]):
        return None
    taken = [seconds if is_answered else LIMIT for seconds, is_answered in [first, second]]
    return taken[0] / max(taken[1], LEAST) if max(taken) >= TIMED else None


def answered(it):
    return it.seconds, is_answer(it.answer)


def ratios(group):
    """The ratios of a family's questions: seconds to the library's, seconds and MiB to the earlier program's."""
    beside = [compared(answered(row.now), row.library) for row in group if row.library]
    before = [compared(answered(row.now), answered(row.earlier)) for row in group if row.earlier]
    both = [(row.now, row.earlier) for row in group if row.earlier and is_answer(row.now.answer) and is_answer(row.earlier.answer)]
    memory = [now.mib / earlier.mib for now, earlier in both if max(now.mib, earlier.mib) >= TOLD]
    return [[it for it in each if it is not None] for each in [beside, before, memory]]


def refinements(all_rows):
    """Prints the means of the refined models by family, and over all families."""
    print("\n| Family | Questions | Refined, seconds to CaDiCaL's library's | the worst | to those of the model as written | the worst | Not answered |\n" + "|---" * 7 + "|")
    groups, columns = {}, []
    for row in all_rows:
        groups.setdefault(row.family, []).append(row)
    for family, group in groups.items():
        pairs = [[compared(answered(row.refined), it) for row, it in zip(group, some) if it] for some in [[row.library for row in group], [answered(row.now) for row in group]]]
        ratio = [[it for it in each if it is not None] for each in pairs]
        columns.append([mean(it) for it in ratio])
        numbers = [number for it in ratio for number in (mean(it), max(it, default=None))]
        print("| " + " | ".join([family, str(len(group))] + [shown(it, "{:.2f}") for it in numbers] + [str(sum(not is_answer(row.refined.answer) for row in group))]) + " |")
    over = [mean([it for it in column if it is not None]) for column in zip(*columns)]
    print(f"| all | {len(all_rows)} | {shown(over[0], '{:.2f}')} | | {shown(over[1], '{:.2f}')} | | {sum(not is_answer(row.refined.answer) for row in all_rows)} |")


def counted(group):
    """The clauses of a family, this and the earlier program's: geometric means over what both counted, of one more than each."""
    pairs = [(row.now.clauses, row.earlier.clauses) for row in group if row.earlier]
    pairs = [it for it in pairs if None not in it]
    return [mean([1 + it[place] for it in pairs]) for place in range(2)]


def firsts(group):
    """For each question whose answer is known: the faults of the first run, of the earlier program's, and the least number."""
    known = [row for row in group if row.now.answer.startswith("EXPLAINED") and row.now.first is not None]
    both = [(row.now.first, row.earlier.first if row.earlier else None, faults_of(row.now.answer)) for row in known]
    return [it for it in both if it[1] is not None or not group[0].earlier]


def summed(triples):
    """The sums of each column."""
    return [None if triples and triples[0][place] is None else sum(it[place] for it in triples) for place in range(3)]


def late(group):
    """How many questions of a family weren't answered: by the program, by the earlier one, by the library."""
    each = [[is_answer(row.now.answer) for row in group], [is_answer(row.earlier.answer) for row in group if row.earlier], [row.library[1] for row in group if row.library]]
    return ", ".join(str(it.count(False)) for it in each)


def summary(all_rows):
    """Prints the means by family, and over all families."""
    print("\n| " + " | ".join(MEANS) + " |\n" + "|---" * len(MEANS) + "|")
    groups = {}
    for row in all_rows:
        groups.setdefault(row.family, []).append(row)
    columns = [ratios(group) for group in groups.values()]
    for (family, group), (beside, before, memory) in zip(groups.items(), columns):
        numbers = [mean(beside), max(beside, default=None), mean(before), mean(memory), max(memory, default=None)]
        line = [family, str(len(group))] + [shown(it, "{:.2f}") for it in numbers] + [shown(it, "{:.0f}") for it in counted(group)]
        print("| " + " | ".join(line + [shown(it) for it in summed(firsts(group))] + [late(group)]) + " |")
    over = [mean([mean(it[place]) for it in columns if it[place]]) for place in range(3)]
    triples = [it for group in groups.values() for it in firsts(group)]
    line = ["all", str(len(all_rows)), shown(over[0], "{:.2f}"), "", shown(over[1], "{:.2f}"), shown(over[2], "{:.2f}"), "", "", ""]
    print("| " + " | ".join(line + [shown(it) for it in summed(triples)] + [late(all_rows)]) + " |")
    of_some = mean([max(first, 1) / least for first, _, least in triples if least > 0])
    if of_some is not None:
        print(f"\nThe first run has {shown(of_some, '{:.2f}')} times the least number of faults, in the geometric mean over the questions that need one.")


def main(folder, program, *words):
    extra = Asked("--refined" in words, "--seconds" not in words)
    words = [it for it in words if it not in ("--refined", "--seconds")]
    earlier = [words[1]] if words[:1] == ["--earlier"] else []
    cadical = library(folder)
    kept, names = [], heads(bool(earlier), extra.is_refined)
    print("| " + " | ".join(names) + " |\n" + "|---" * len(names) + "|")
    for row in rows([program] + earlier, cadical, folder, words[2:] if earlier else words, extra):
        kept.append(row)
        print("| " + " | ".join(cells(row)) + " |", flush=True)
    summary(kept)
    if extra.is_refined:
        refinements(kept)


if __name__ == "__main__":
    with tempfile.TemporaryDirectory() as scratch:
        main(scratch, *sys.argv[1:])
