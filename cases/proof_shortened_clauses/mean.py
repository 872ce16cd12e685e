"""Says whether the clauses of a proof have at most so many literals, in the mean."""
import sys

lines = [line.split() for line in sys.stdin if line[0].isdigit()]
steps = [words for words in lines if words[1] != "d"]
literals = sum(words.index("0") - 1 for words in steps)
print("at most" if steps and literals <= int(sys.argv[1]) * len(steps) else "more than", sys.argv[1])
