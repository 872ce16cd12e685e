"""Copies the models and the logs of examples/protocol."""
import glob
import os
import shutil

for path in glob.glob(os.path.join(os.environ["TOP"], "examples", "protocol", "*.*")):
    shutil.copy(path, ".")
