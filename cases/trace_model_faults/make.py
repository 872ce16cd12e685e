# Makes models with a fault, each with the lines that stand here behind the header.

P = ["component p", "state s init", "trans s a s", "trans s b s"]
SIXTEEN = [line for at in range(16) for line in (f"component c{at}", "state s init", "trans s a s")]
SIXTEEN_PARTS = " ".join(f"c{at}.a" for at in range(16))
STATES = ["component p", *[f"state s{at} init" for at in range(256)]]

TEXTS = {
    # the same line is at fault by two codes
    "no_shape_and_no_component": ["state"],
    "no_component_and_no_name": ["state a.b"],
    "no_component_and_no_state": ["trans a.b a s"],
    "no_shape_and_no_name": [*P, "event a.b : p.a p"],
    "no_name_and_double": [*P, "event a.b : p.a p.b"],
    "no_name_and_unknown": [*P, "trans s a.b t"],
    "part_without_component": [*P, "event e : .a"],
    "part_without_action": [*P, "event e : p."],
    "part_without_name_behind_an_unknown_one": [*P, "event e : q.a .a"],
    "double_and_unknown_part": [*P, "event e : p.a", "event e : q.a"],
    "two_parts_of_an_unknown_component": [*P, "event e : p.a q.a q.b"],
    "two_parts_of_one_component_and_an_unknown_one": [*P, "event e : p.a q.a p.b"],
    "unknown_and_too_many_parts": [*SIXTEEN, f"event e : {SIXTEEN_PARTS} c16.a"],
    "double_and_too_many_parts": [*SIXTEEN, f"event e : {SIXTEEN_PARTS} c0.a"],
    "double_and_too_many_states": [*STATES, "state s0"],
    "no_name_and_too_many_states": [*STATES, "state a.b"],
    # two lines are at fault
    "unknown_before_no_shape": [*P, "trans s a t", "state"],
    "no_shape_before_unknown": [*P, "state", "trans s a t"],
    "no_initial_state_before_no_shape": ["component p", "state s", "component q", "state"],
    "two_without_initial_state": ["component p", "state s init", "# a comment", "component q", "", "component r", "state s"],
    "no_initial_state_behind_events": ["component p", "state s init", "trans s a s", "event e : p.a", "component q", "state s", "trans s a s", "event f : q.a"],
}

for name, lines in TEXTS.items():
    with open(f"{name}.des", "w", encoding="ascii") as it:
        it.write("".join(f"{line}\n" for line in ["des 1", *lines]))

# The same fault, with other ends of lines.
LINES = ["# a valve", "", "des 1", "component p", "state s init", "trans s a t"]
for name, end, last in [("feeds", "\n", "\n"), ("returns", "\r\n", "\r\n"), ("no_last_feed", "\n", ""), ("return_last", "\n", "\r")]:
    with open(f"{name}.des", "w", encoding="ascii", newline="") as it:
        it.write(end.join(LINES) + last)
with open("nothing.run", "w", encoding="ascii") as it:
    it.write("run 0\n")
