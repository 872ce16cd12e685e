"""Writes the plant of examples/blocks/torus.blocks."""
import os
import sys

sys.path.append(os.path.join(os.environ["TOP"], "tools"))
from blocks import model_of  # noqa: E402

with open(os.path.join(os.environ["TOP"], "examples", "blocks", "torus.blocks"), encoding="utf-8") as it:
    text = it.read()
with open("model.des", "w", encoding="ascii") as it:
    it.write(model_of(text))
