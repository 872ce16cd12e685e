# A bus and 80 units that trip over it.
UNITS = 80
lines = ["des 1", "component bus", "state up init", "trans up note up"]
for unit in range(1, UNITS + 1):
    lines += [f"component u{unit}", "state ok init", "state bad", "state off"]
    lines += ["trans ok jam bad", "trans bad trip off", "trans off fix ok"]
for unit in range(1, UNITS + 1):
    lines += [f"event jam-{unit} fault : u{unit}.jam", f"event trip-{unit} alarm T-{unit} : u{unit}.trip bus.note", f"event fix-{unit} alarm F-{unit} : u{unit}.fix"]
with open("units.des", "w", encoding="ascii") as f:
    f.write("\n".join(lines) + "\n")
