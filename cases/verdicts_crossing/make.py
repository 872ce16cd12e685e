"""Writes the plant of examples/blocks/crossing.blocks."""
import os
import re
import sys

sys.path.append(os.path.join(os.environ["TOP"], "tools"))
from blocks import model_of  # noqa: E402

with open(os.path.join(os.environ["TOP"], "examples", "blocks", "crossing.blocks"), encoding="utf-8") as it:
    text = it.read()
with open("model.des", "w", encoding="ascii") as it:
    it.write(model_of(text))

# With a detector that sees a train enter over barriers that are down.
with open("watched.des", "w", encoding="ascii") as it:
    it.write(re.sub(r"event enter-([0-9]+) :", r"event enter-\1 alarm IN-\1 :", model_of(text)))
