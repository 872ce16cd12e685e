# A bus and 80 units that trip over it, a log without alarms, and costs: none, one of an event that is no fault, and texts as long as they may be and a byte longer.
UNITS = 80
LIMIT = 16_777_216
lines = ["des 1", "component bus", "state up init", "trans up note up"]
for unit in range(1, UNITS + 1):
    lines += [f"component u{unit}", "state ok init", "state bad", "state off"]
    lines += ["trans ok jam bad", "trans bad trip off", "trans off fix ok"]
for unit in range(1, UNITS + 1):
    lines += [f"event jam-{unit} fault : u{unit}.jam", f"event trip-{unit} alarm T-{unit} : u{unit}.trip bus.note", f"event fix-{unit} alarm F-{unit} : u{unit}.fix"]
with open("units.des", "w", encoding="ascii") as f:
    f.write("\n".join(lines) + "\n")
open("none.csv", "w").close()
with open("none.costs", "w", encoding="ascii") as f:
    f.write("costs 1\n")
with open("trip.costs", "w", encoding="ascii") as f:
    f.write("costs 1\ncost trip-1 5\n")
for name, length in [("longest.costs", LIMIT), ("too_long.costs", LIMIT + 1)]:
    with open(name, "wb") as f:
        f.write(b"costs 1\n#".ljust(length))
