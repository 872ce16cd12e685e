"""Makes plants in the manner of some that are known from the literature, and logs of runs that are drawn with a seed.

    from plants import torus, drawn
    steps, model, log = drawn(torus(4, 5), alarms=20, faults=2, seed=1, order="whole", slack=1.5)

- `torus`: components that reboot and tell their four neighbours to reboot (Grastien, Anbulagan, Rintanen and Kelareva, "Diagnosis of discrete-event systems using
  satisfiability algorithms", AAAI 2007).
- `telecom`: stations with switches under one centre, which sees what a station passes on through its link (Rozé and Cordier, "Diagnosing discrete-event systems: extending
  the diagnoser approach to deal with telecommunication networks", 2002).
- `protection`: a sensor and a breaker for each line, and a link that carries the sensor's messages (Lamperti and Zanella, "Diagnosis of active systems", 2003).
- `channel`: messages that may be lost on their way, where neither those that are sent nor those that come are in an order.
- `strict`, `loop`, `sequence`, `flower`: processes, each a component with a state for each place, whose recorded activities may be missing and whose records may be wrong; a run is then an alignment (Adriansyah, van Dongen and van der Aalst, "Conformance checking using
  cost-based fitness analysis", 2011).
- `adder`: a circuit of gates that may stick, whose inputs and outputs are seen, after the full adder of Reiter, "A theory of diagnosis from first principles", 1987. `looked_at` is the same circuit written another way: wires have their
  values from the beginning, which nobody sees but those of inputs and outputs, and each gate is looked at once.

All are written anew here, from what is known of them, and none is the original. So many faults as a log is drawn with are an upper bound of what it needs.
"""
import itertools
import random
from collections import namedtuple

Event = namedtuple("Event", ["name", "label", "is_fault", "parts"])

# How probably a fault comes next, where one may, and that otherwise something comes next which is seen.
FAULT, SEEN = 0.15, 0.5
# No run has more events without an alarm than this.
LONGEST = 200


def component(name, initial, transitions):
    """The lines of a component. Its states are those of its transitions."""
    states = list(dict.fromkeys([initial] + [state for before, _, after in transitions for state in (before, after)]))
    lines = [f"component {name}"] + [f"state {state}" + (" init" if state == initial else "") for state in states]
    return lines + [f"trans {before} {action} {after}" for before, action, after in transitions]


def event(name, parts, label="", fault=False):
    """The line of an event."""
    return f"event {name}" + (f" alarm {label}" if label else "") + (" fault" if fault else "") + " : " + " ".join(parts)


def torus(rows, columns):
    """A torus of components that are all alike."""
    told = {"ok": "asked", "failed": "failed", "asked": "asked", "booting": "again", "again": "again"}
    own = [("ok", "fail", "failed"), ("failed", "tell", "asked"), ("asked", "boot", "booting"), ("booting", "back", "ok"), ("again", "back", "asked")]
    places = list(itertools.product(range(rows), range(columns)))
    lines, events = ["des 1"], []
    for row, column in places:
        around = [((row + 1) % rows, column), ((row - 1) % rows, column), (row, (column + 1) % columns), (row, (column - 1) % columns)]
        around = [it for it in dict.fromkeys(around) if it != (row, column)]
        tag = f"{row + 1}-{column + 1}"
        lines += component(f"n{tag}", "ok", own + [(before, "hear", after) for before, after in told.items()])
        events.append(event(f"fail-{tag}", [f"n{tag}.fail"], fault=True))
        events.append(event(f"tell-{tag}", [f"n{tag}.tell"] + [f"n{r + 1}-{c + 1}.hear" for r, c in around]))
        events += [event(f"{kind}-{tag}", [f"n{tag}.{kind}"], f"{kind.upper()}-{tag}") for kind in ["boot", "back"]]
    return lines + events


def telecom(stations, switches):
    """Stations, each with a link to the centre and with switches that block and are reset."""
    messages = [f"{kind}{switch}" for switch in range(1, switches + 1) for kind in "br"]
    station = [move for m in messages for move in [("up", f"take-{m}", f"has-{m}"), (f"has-{m}", f"send-{m}", "up"), (f"has-{m}", "crash", "down")]]
    station += [("up", "crash", "down"), ("down", "start", "up"), ("down", "lose", "down")]
    link = [("whole", "pass", "whole"), ("whole", "cut", "cut"), ("cut", "drop", "cut"), ("cut", "mend", "whole")]
    switch = [("ok", "block", "told-b"), ("told-b", "tell-b", "blocked"), ("blocked", "reset", "told-r"), ("told-r", "tell-r", "ok")]
    lines, events = ["des 1"], []
    for i in range(1, stations + 1):
        lines += component(f"station-{i}", "up", station) + component(f"link-{i}", "whole", link)
        events += [event(f"crash-{i}", [f"station-{i}.crash"], fault=True), event(f"cut-{i}", [f"link-{i}.cut"], fault=True)]
        events += [event(f"start-{i}", [f"station-{i}.start", f"link-{i}.pass"], f"START-{i}"), event(f"unseen-{i}", [f"station-{i}.start", f"link-{i}.drop"])]
        events.append(event(f"mend-{i}", [f"link-{i}.mend"], f"MENDED-{i}"))
        for j in range(1, switches + 1):
            name = f"switch-{i}-{j}"
            lines += component(name, "ok", switch)
            events += [event(f"block-{i}-{j}", [f"{name}.block"], fault=True), event(f"reset-{i}-{j}", [f"{name}.reset"])]
            for kind, word in [("b", "BLOCKED"), ("r", "RESET")]:
                tag, message = f"{kind}-{i}-{j}", f"{kind}{j}"
                events.append(event(f"tell-{tag}", [f"{name}.tell-{kind}", f"station-{i}.take-{message}"]))
                events.append(event(f"lose-{tag}", [f"{name}.tell-{kind}", f"station-{i}.lose"]))
                events.append(event(f"send-{tag}", [f"station-{i}.send-{message}", f"link-{i}.pass"], f"{word}-{i}-{j}"))
                events.append(event(f"drop-{tag}", [f"station-{i}.send-{message}", f"link-{i}.drop"]))
    return lines + events


def protection(count):
    """A sensor, a link and a breaker for each of so many lines. The sensor may send the wrong message, and the breaker may stay as it is."""
    lines, events = ["des 1"], []
    for i in range(1, count + 1):
        sensor, link, breaker = f"sensor-{i}", f"link-{i}", f"breaker-{i}"
        lines += component(sensor, "idle", [("idle", "wake", "awake"), ("awake", "rest", "idle")])
        lines += component(link, "empty", [("empty", f"put-{m}", m) for m in ["op", "cl"]] + [(m, f"get-{m}", "empty") for m in ["op", "cl"]])
        lines += component(breaker, "closed", [("closed", "open", "opened"), ("opened", "close", "closed"), ("closed", "stay-closed", "closed"), ("opened", "stay-open", "opened")])
        for action, label, right, wrong in [("wake", "ACT", "op", "cl"), ("rest", "SBY", "cl", "op")]:
            for message in [right, wrong]:
                events.append(event(f"{action}-{message}-{i}", [f"{sensor}.{action}", f"{link}.put-{message}"], f"{label}-{i}", message == wrong))
        events += [event(f"{action}-{i}", [f"{breaker}.{action}", f"{link}.get-{message}"], f"{label}-{i}") for action, label, message in [("open", "OPN", "op"), ("close", "CLS", "cl")]]
        for action, message, fault in [("stay-closed", "op", True), ("stay-open", "cl", True), ("stay-open", "op", False), ("stay-closed", "cl", False)]:
            events.append(event(f"{action}-{message}-{i}", [f"{breaker}.{action}", f"{link}.get-{message}"], fault=fault))
    return lines + events


VALUES = {"and": min, "or": max, "xor": lambda a, b: a ^ b}


def gates(bits):
    """The gates of a ripple adder: name, kind, the wires that it reads, the wire that it sets. A gate stands behind those that set what it reads."""
    for i in range(bits):
        yield f"x1-{i}", "xor", (f"a{i}", f"b{i}"), f"p{i}"
        yield f"x2-{i}", "xor", (f"p{i}", f"c{i}"), f"s{i}"
        yield f"a1-{i}", "and", (f"a{i}", f"b{i}"), f"g{i}"
        yield f"a2-{i}", "and", (f"p{i}", f"c{i}"), f"h{i}"
        yield f"o1-{i}", "or", (f"g{i}", f"h{i}"), f"c{i + 1}"


def adder(bits, seed, stuck):
    """A ripple adder whose gates may stick, and the log of its inputs and outputs where some gates stick: each with the bit that it gives."""
    inputs = ["c0"] + [f"{word}{i}" for i in range(bits) for word in "ab"]
    outputs = [f"s{i}" for i in range(bits)] + [f"c{bits}"]
    lines, events = ["des 1"], []
    for wire in inputs + [it[3] for it in gates(bits)]:
        lines += component(f"w{wire}", "unset", [("unset", "set0", "w0"), ("unset", "set1", "w1"), ("w0", "is0", "w0"), ("w1", "is1", "w1")])
    for name, kind, reads, sets in gates(bits):
        lines += component(name, "fresh", [("fresh", "work", "fresh"), ("fresh", "stick0", "stuck0"), ("fresh", "stick1", "stuck1"), ("stuck0", "give0", "stuck0"), ("stuck1", "give1", "stuck1")])
        for bit in range(2):
            events += [event(f"{name}-stick{bit}", [f"{name}.stick{bit}"], fault=True), event(f"{name}-gives{bit}", [f"{name}.give{bit}", f"w{sets}.set{bit}"])]
        for values in itertools.product(range(2), repeat=2):
            read = [f"w{wire}.is{bit}" for wire, bit in zip(reads, values)]
            events.append(event(f"{name}-{values[0]}{values[1]}", [f"{name}.work"] + read + [f"w{sets}.set{VALUES[kind](*values)}"]))
    events += [event(f"in-{wire}-{bit}", [f"w{wire}.set{bit}"], f"IN-{wire}-{bit}") for wire in inputs for bit in range(2)]
    events += [event(f"out-{wire}-{bit}", [f"w{wire}.is{bit}"], f"OUT-{wire}-{bit}") for wire in outputs for bit in range(2)]
    draw = random.Random(seed)
    value = {wire: draw.randint(0, 1) for wire in inputs}
    for name, kind, reads, sets in gates(bits):
        value[sets] = stuck.get(name, VALUES[kind](*[value[wire] for wire in reads]))
    labels = [f"IN-{wire}-{value[wire]}" for wire in inputs] + [f"OUT-{wire}-{value[wire]}" for wire in outputs]
    return lines + events, [f"alarm,a{i},{label}" for i, label in enumerate(labels)]


def looked_at(bits, seed, stuck):
    """The ripple adder with wires that are 0 or 1 from the beginning, a check of each gate, and the log of its inputs and outputs where some gates stick."""
    inputs = ["c0"] + [f"{word}{i}" for i in range(bits) for word in "ab"]
    outputs = [f"s{i}" for i in range(bits)] + [f"c{bits}"]
    lines, events = ["des 1"], []
    for wire in inputs + [it[3] for it in gates(bits)]:
        lines += [f"component w{wire}", "state w0 init", "state w1 init", "trans w0 is0 w0", "trans w1 is1 w1"]
    for name, kind, reads, sets in gates(bits):
        events += [event(f"{name}-stuck{bit}", [f"w{sets}.is{bit}"], f"CHECK-{name}", True) for bit in range(2)]
        for values in itertools.product(range(2), repeat=2):
            parts = [f"w{wire}.is{bit}" for wire, bit in zip(reads, values)]
            events.append(event(f"{name}-{values[0]}{values[1]}", parts + [f"w{sets}.is{VALUES[kind](*values)}"], f"CHECK-{name}"))
    for word, wires in [("in", inputs), ("out", outputs)]:
        events += [event(f"{word}-{wire}-{bit}", [f"w{wire}.is{bit}"], f"{word.upper()}-{wire}-{bit}") for wire in wires for bit in range(2)]
    _, seen = adder(bits, seed, stuck)
    checks = [f"alarm,g{i},CHECK-{it[0]}" for i, it in enumerate(gates(bits))]
    return lines + events, seen + checks


def process(activities):
    """A process of one component: each activity is recorded, or done without a record, which is a fault. From the state `closed` it ends."""
    lines = ["des 1"] + component("case", "new", activities + [("closed", "end", "over")])
    names = list(dict.fromkeys(action for _, action, _ in activities))
    lines += [event(name, [f"case.{name}"], name.upper()) for name in names] + [event("end", ["case.end"], "END")]
    return lines + [event(f"skipped-{name}", [f"case.{name}"], fault=True) for name in names]


def recorded(names):
    """The log of records in their order, each of which may be wrong, and of the end of the case."""
    log = [f"maybe,a{i},{name.upper()}" for i, name in enumerate(names)] + [f"alarm,a{len(names)},END"]
    return log + [f"before,a{i},a{i + 1}" for i in range(len(names))]


def disturbed(names, seed, changes):
    """Records of which some are lost, doubled, or stand one too early."""
    draw, names = random.Random(seed), list(names)
    for _ in range(changes):
        kind, i = draw.choice(["lost", "doubled", "early"]), draw.randrange(len(names) - 1)
        names[i:i + 2] = {"lost": names[i + 1:i + 2], "doubled": [names[i]] + names[i:i + 2], "early": names[i:i + 2][::-1]}[kind]
    return names


def strict():
    """A request that is examined, checked and decided, and may be reopened, and a case in which the ticket was mostly checked before the examination."""
    ways = [("new", "register", "to-examine"), ("to-examine", "examine-well", "to-check"), ("to-examine", "examine-quickly", "to-check"), ("to-check", "check", "checked"), ("checked", "decide", "decided")]
    ways += [("decided", "reopen", "to-examine"), ("decided", "pay", "closed"), ("decided", "reject", "closed")]
    case = "register check examine-quickly decide reopen check examine-well decide reopen examine-quickly check decide reopen check examine-well decide pay"
    return process(ways), recorded(case.split())


def loop(count, rounds, seed, changes):
    """Activities that go round, and a case of some rounds that was disturbed."""
    ways = [("new", "start", "p0")] + [(f"p{i}", f"do{i}", f"p{(i + 1) % count}") for i in range(count)] + [("p0", "finish", "closed")]
    names = ["start"] + [f"do{i}" for i in range(count)] * rounds + ["finish"]
    return process(ways), recorded(disturbed(names, seed, changes))


def sequence(count, seed, changes):
    """Activities one after another, and a case that was disturbed."""
    places = ["new"] + [f"p{i}" for i in range(1, count)] + ["closed"]
    ways = [(places[i], f"do{i}", places[i + 1]) for i in range(count)]
    return process(ways), recorded(disturbed([f"do{i}" for i in range(count)], seed, changes))


def flower(count, alarms, seed):
    """Activities in any order, and a case of so many."""
    ways = [("new", "start", "p")] + [("p", f"do{i}", "p") for i in range(count)] + [("p", "finish", "closed")]
    draw = random.Random(seed)
    return process(ways), recorded(["start"] + [f"do{draw.randrange(count)}" for _ in range(alarms - 2)] + ["finish"])


def channel(sent, received):
    """A sender, a receiver, and a channel that holds one message and may lose it, and so many alarms of each without an order."""
    lines = ["des 1"] + component("sender", "s", [("s", "send", "s")]) + component("receiver", "r", [("r", "take", "r")])
    lines += component("channel", "empty", [("empty", "put", "full"), ("full", "get", "empty"), ("full", "lose", "empty")])
    lines += [event("sent", ["sender.send", "channel.put"], "SENT"), event("received", ["channel.get", "receiver.take"], "RECEIVED"), event("lost", ["channel.lose"], fault=True)]
    return lines, [f"alarm,s{i},SENT" for i in range(sent)] + [f"alarm,r{i},RECEIVED" for i in range(received)]


def read(model):
    """The states in which components begin, the moves of each, by action and state, and the events."""
    states, moves, events = {}, {}, []
    for words in map(str.split, model):
        if words[0] == "component":
            name = words[1]
        elif words[0] == "state" and words[-1] == "init":
            states[name] = words[1]
        elif words[0] == "trans":
            moves[name, words[2], words[1]] = words[3]
        elif words[0] == "event":
            colon = words.index(":")
            head = words[2:colon]
            label = head[head.index("alarm") + 1] if "alarm" in head else None
            events.append(Event(words[1], label, head[-1:] == ["fault"], [tuple(part.split(".")) for part in words[colon + 1:]]))
    return states, moves, events


def walk(model, alarms, faults, seed):
    """The events of a run that is drawn with a seed, up to so many alarms, with so many faults at most."""
    states, moves, events = read(model)
    draw, run, seen, struck, quiet = random.Random(seed), [], 0, 0, 0
    while seen < alarms and quiet < LONGEST:
        may = [it for it in events if all((name, action, states[name]) in moves for name, action in it.parts)]
        ill = [it for it in may if it.is_fault and struck < faults]
        well = [it for it in may if not it.is_fault]
        loud = [it for it in well if it.label]
        if ill and (not well or draw.random() < FAULT):
            chosen = draw.choice(ill)
        elif well:
            chosen = draw.choice(loud if loud and draw.random() < SEEN else well)
        else:
            break
        for name, action in chosen.parts:
            states[name] = moves[name, action, states[name]]
        run.append(chosen)
        struck += chosen.is_fault
        seen += chosen.label is not None
        quiet = 0 if chosen.label else quiet + 1
    return run


def scheduled(run, pairs):
    """The step of each event where each comes as early as its components allow, and the pairs of alarms, which may share a step."""
    last, steps, done = {}, [], []
    for it in run:
        names = [name for name, _ in it.parts]
        step = 1 + max(last.get(name, 0) for name in names)
        if it.label:
            step = max([step] + [done[before] for before, after in pairs if after == len(done)])
            done.append(step)
        last.update(dict.fromkeys(names, step))
        steps.append(step)
    return steps


def ordered(run, order):
    """The pairs of alarms, by their numbers: in their whole order, in that of each component, of blocks, or none. The alarms of a block could be done in one step."""
    seen = [it for it in run if it.label]
    if order == "whole":
        return [(i, i + 1) for i in range(len(seen) - 1)]
    if order == "component":
        last, pairs = {}, []
        for i, it in enumerate(seen):
            names = [name for name, _ in it.parts]
            pairs += sorted({(last[name], i) for name in names if name in last})
            last.update(dict.fromkeys(names, i))
        return pairs
    if order == "blocks":
        blocks = {}
        for i, step in enumerate(step for it, step in zip(run, scheduled(run, [])) if it.label):
            blocks.setdefault(step, []).append(i)
        each = [blocks[step] for step in sorted(blocks)]
        return [pair for first, second in zip(each, each[1:]) for pair in itertools.product(first, second)]
    return []


def drawn(model, alarms, faults, seed, order, slack=1):
    """Steps, model and log of a run that is drawn: as many steps as it needs, times the slack. Blocks are in order where the run keeps its steps."""
    run = walk(model, alarms, faults, seed)
    pairs = ordered(run, order)
    labels = [it.label for it in run if it.label]
    log = [f"alarm,a{i},{label}" for i, label in enumerate(labels)] + [f"before,a{first},a{second}" for first, second in pairs]
    steps = scheduled(run, [] if order == "blocks" else pairs)
    return int(max(steps) * slack), model, log
