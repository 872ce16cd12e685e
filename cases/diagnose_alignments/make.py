"""Copies the models of examples/process, writes the log of each trace of traces.txt, and sees to it that answers.txt has the costs of optimal alignments.

An alignment is a way through pairs of a marking of the net and a place in the trace (Adriansyah, van Dongen and van der Aalst 2011): an activity together with its record costs nothing, an activity alone or a record alone costs 1. The nets are written here anew.
"""
import heapq
import os
import re
import shutil

NET = {"REGISTER": ("n", "ec"), "EXAMINE-WELL": ("e", "x"), "EXAMINE-QUICKLY": ("e", "x"), "CHECK": ("c", "k"), "DECIDE": ("xk", "d"), "REOPEN": ("d", "ec"), "PAY": ("d", "z"), "REJECT": ("d", "z")}
STRICT = NET | {"REGISTER": ("n", "e"), "EXAMINE-WELL": ("e", "c"), "EXAMINE-QUICKLY": ("e", "c"), "DECIDE": ("k", "d"), "REOPEN": ("d", "e")}


def cost(net, trace):
    """What an optimal alignment of a trace costs, from a token in `n` to one in `z`."""
    heap, done = [(0, "n", 0)], set()
    while heap:
        paid, marking, at = node = heapq.heappop(heap)
        if node[1:] == ("z", len(trace)):
            return paid
        if node[1:] in done:
            continue
        done.add(node[1:])
        if at < len(trace):
            heapq.heappush(heap, (paid + 1, marking, at + 1))
        for activity, (takes, puts) in net.items():
            if set(takes) <= set(marking):
                after = "".join(sorted((set(marking) - set(takes)) | set(puts)))
                heapq.heappush(heap, (paid + 1, after, at))
                if trace[at:at + 1] == [activity]:
                    heapq.heappush(heap, (paid, after, at + 1))
    raise ValueError("the net has no way to its end")


with open("traces.txt", encoding="ascii") as it:
    TRACES = {words[0]: words[1:] for words in map(str.split, it)}
for name, trace in TRACES.items():
    alarms = [f"maybe,a{place},{activity}" for place, activity in enumerate(trace, 1)] + [f"alarm,a{len(trace) + 1},END"]
    with open(f"{name}.csv", "w", encoding="ascii") as it:
        it.write("".join(f"{row}\n" for row in alarms + [f"before,a{place},a{place + 1}" for place in range(1, len(alarms))]))
for model in ("model", "strict"):
    shutil.copy(os.path.join(os.environ["TOP"], "examples", "process", f"{model}.des"), ".")
with open("answers.txt", encoding="ascii") as it:
    for model, name, faults in re.findall(r"\$ diagnose (\w+)\.des (\S+)\.csv .*\nEXPLAINED (\d+)\n", it.read()):
        if cost({"model": NET, "strict": STRICT}[model], TRACES[name]) != int(faults):
            raise SystemExit(f"an optimal alignment of {name} with {model} costs {cost({'model': NET, 'strict': STRICT}[model], TRACES[name])}")
