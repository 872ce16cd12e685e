# Makes models at the limits, and one above each.


def write(name, lines):
    with open(name, "w", encoding="ascii") as it:
        it.write("".join(f"{line}\n" for line in ["des 1", *lines]))


def loops(count):
    return [line for at in range(count) for line in (f"component c{at}", "state s init", "trans s a s")]


def event(name, components):
    return f"event {name} : " + " ".join(f"c{at}.a" for at in components)


for count in (1000, 1001):
    write(f"components_{count}.des", [*loops(count), event("first", [0]), event("last", [count - 1])])
for count in (256, 257):
    states = [f"state s{at} init" for at in range(count)]
    write(f"states_{count}.des", ["component p", *states, f"trans s{count - 1} a s{count - 1}", "event e : p.a"])
for count in (50000, 50001):
    states = ["state s0 init", *[f"state s{at}" for at in range(1, 224)]]
    pairs = [(at, to) for at in range(224) for to in range(224)][:count]
    further = [f"trans s{at} a s{to}" for at, to in pairs]
    write(f"transitions_{count}.des", ["component p", *states, *further, "event e : p.a"])
for count in (4000, 4001):
    write(f"events_{count}.des", [*loops(1), *[event(f"e{at}", [0]) for at in range(count)]])
for count in (16, 17):
    write(f"parts_{count}.des", [*loops(17), event("e", range(count))])
