"""Copies the models and the logs of examples/protection."""
import glob
import os
import shutil

for path in glob.glob(os.path.join(os.environ["TOP"], "examples", "protection", "*.*")):
    shutil.copy(path, ".")
