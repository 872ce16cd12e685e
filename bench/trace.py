"""Times `trace` on large models and runs, and prints a table: size, time, ratio to a plain read, memory.

    python3 bench/trace.py PROGRAM

PROGRAM is the program as `rt run` builds it, crates/diagnose_cli/out/diagnose_cli. The inputs are made in a temporary
folder. It's no part of the gate.
"""
import os
import sys

from measure import tabulate

MODEL_LIMIT = 16_777_216


def transitions():
    """1,000 components with 50 transitions each, padded with comments to the limit."""
    lines = ["des 1"]
    for c in range(1000):
        lines.append(f"component c{c}")
        lines += [f"state s{s}" + (" init" if s == 0 else "") for s in range(50)]
        lines += [f"trans s{s} a{s % 7} s{(s + 1) % 50}" for s in range(50)]
    lines += [f"event e{e} alarm L{e % 9} : " + " ".join(f"c{(e + k) % 1000}.a{k % 7}" for k in range(16)) for e in range(4000)]
    return padded(lines)


def one_component():
    """One component with 50,000 transitions over 256 states."""
    lines = ["des 1", "component c"] + [f"state s{s}" + (" init" if s == 0 else "") for s in range(256)]
    made = 0
    for action in range(1000):
        for state in range(256):
            if made < 50_000:
                lines.append(f"trans s{state} a{action} s{(state + action) % 256}")
                made += 1
    return padded(lines + ["event e : c.a0"])


def states():
    """1,000 components with 256 states each, under long names."""
    lines = ["des 1"]
    for c in range(1000):
        lines.append(f"component c{c}")
        lines += [f"state s{s:056d}" + (" init" if s == 0 else "") for s in range(256)]
    return "\n".join(lines)[:MODEL_LIMIT - 1000] + "\n"


def parts():
    """One event line that names the same part over and over."""
    head = "des 1\ncomponent c\nstate s init\ntrans s a s\nevent e :"
    return head + " c.a" * ((MODEL_LIMIT - len(head) - 1) // 4) + "\n"


def padded(lines):
    text = "\n".join(lines) + "\n"
    filler = "# " + "x" * 97 + "\n"
    return text + filler * ((MODEL_LIMIT - len(text)) // len(filler))


def small():
    return "des 1\ncomponent c\nstate s init\nstate t\ntrans s go t\ntrans t back s\nevent go : c.go\nevent back fault : c.back\n"


def long_run():
    return "run 4000000\n" + "go\nback\n" * 2_000_000


def main():
    tabulate(os.path.abspath(sys.argv[1]), "trace", [
        ("50,000 transitions, 1,000 components", transitions, lambda: "run 0\n"),
        ("50,000 transitions, one component", one_component, lambda: "run 1\ne\n"),
        ("states under long names", states, lambda: "run 0\n"),
        ("one line of very many parts", parts, lambda: "run 0\n"),
        ("run of 4,000,000 steps", small, long_run),
    ])


if __name__ == "__main__":
    main()
