"""A ring of three states, and so many lamps that light with one of its events: with 14 lamps there is room for one part more of it, with 15 for none."""
for name, lamps in ("room.des", 14), ("full.des", 15):
    lines = ["des 1", "component ring", "state a init", "state b", "state c", "trans a go b", "trans b go-on c", "trans c back a"]
    finer = lines[:]
    for lamp in range(lamps):
        some = [f"component l{lamp}", "state s init", "trans s on s"]
        lines, finer = lines + some, finer + some
    on = "".join(f" l{lamp}.on" for lamp in range(lamps))
    events = [f"event go : ring.go{on}", "event go-on : ring.go-on", "event back : ring.back", "event rest : ring.back", "event wait : ring.back"]
    if name == "room.des":
        # `b` is entered by `go` and left by `go-on`, two events of five; `a` and `c` are changed by four.
        finer += ["component ring-is-b", "state no init", "state yes", "trans no enter yes", "trans yes leave no"]
        finer += [f"event go : ring.go{on} ring-is-b.enter", "event go-on : ring.go-on ring-is-b.leave", *events[2:]]
    else:
        finer += events
    for path, text in (name, lines + events), ("finer_" + name, finer):
        with open(path, "w") as it:
            it.write("\n".join(text) + "\n")
