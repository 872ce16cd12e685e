"""Makes a plant of one component with one state, which 500 events touch: 480 can be seen as A, and 20 as B."""
with open("many_events.des", "w") as model:
    model.write("des 1\ncomponent c\nstate s init\ntrans s a s\n")
    for label, count in [("A", 480), ("B", 20)]:
        for number in range(count):
            model.write(f"event {label}{number} alarm {label} : c.a\n")
