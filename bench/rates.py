"""Measures how many clauses a second `diagnose` learns on the plants of examples/, and prints a table.

    python3 bench/rates.py PROGRAM

PROGRAM is the program as `rt run` builds it, crates/diagnose_cli/out/diagnose_cli. Each question has more steps than its log needs, so that the budget is spent;
then as many clauses were learnt as the budget says. The seconds are those of the processor, the least of three runs. docs/tutorial.md quotes the table.
"""
import os
import resource
import subprocess
import sys

EXAMPLES = os.path.join(os.path.dirname(os.path.dirname(os.path.abspath(__file__))), "examples")
QUESTIONS = [("heating", 40, 1_000), ("propulsion", 60, 1_000), ("feeder", 60, 1_000), ("ring", 80, 1_000)]


def asked(*words):
    """Seconds of the processor of a call, and the first line that it prints."""
    before = resource.getrusage(resource.RUSAGE_CHILDREN).ru_utime
    text = subprocess.run(words, stdout=subprocess.PIPE, check=False).stdout.decode()
    return resource.getrusage(resource.RUSAGE_CHILDREN).ru_utime - before, text.split("\n")[0]


def main(program):
    print("| Question | Budget | Answer | Seconds | Clauses a second |\n|---|---|---|---|---|")
    for plant, steps, budget in QUESTIONS:
        files = [os.path.join(EXAMPLES, plant, name) for name in ["model.des", "log.csv"]]
        seconds, answer = min(asked(program, "diagnose", *files, str(steps), str(budget)) for _ in range(3))
        rate = f"{budget / seconds:,.0f}" if answer.startswith("UNDECIDED") else ""
        print(f"| `{plant}`, {steps} steps | {budget:,} | `{answer}` | {seconds:.2f} | {rate} |")


if __name__ == "__main__":
    main(os.path.abspath(sys.argv[1])) if len(sys.argv) == 2 else sys.exit(__doc__)
