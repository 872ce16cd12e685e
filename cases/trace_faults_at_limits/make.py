"""Makes models at the limits with a further line that is at fault by another code, or lines that are not."""


def write(name, lines):
    with open(f"{name}.des", "w", encoding="ascii") as it:
        it.write("".join(f"{line}\n" for line in ["des 1", *lines]))


LOOPS = [line for at in range(1000) for line in (f"component c{at}", "state s init", "trans s a s")]
write("component_twice_at_1000", [*LOOPS, "component c999"])

STATES = ["component p", "state s0 init", *[f"state s{at}" for at in range(1, 256)]]
write("state_of_another_component_at_256", [*STATES, "component q", "state more init"])

FEW = ["component p", "state s0 init", *[f"state s{at}" for at in range(1, 224)]]
PAIRS = [(at, to) for at in range(224) for to in range(224)][:50000]
MANY = [*FEW, *[f"trans s{at} a s{to}" for at, to in PAIRS]]
write("transition_twice_at_50000", [*MANY, "trans s0 a s0"])
write("unknown_state_at_50000", [*MANY, "trans s0 b s224"])
NEXT = [*MANY, "component q", "state s init"]
write("transition_of_another_component_at_50000", [*NEXT, "trans s a s"])
write("unknown_state_of_another_component_at_50000", [*NEXT, "trans s a t"])

EVENTS = ["component c", "state s init", "trans s a s", *[f"event e{at} : c.a" for at in range(4000)]]
write("unknown_component_at_4000", [*EVENTS, "event more : d.a"])
write("event_twice_at_4000", [*EVENTS, "event e3999 : d.a"])
