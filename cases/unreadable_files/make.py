"""Makes a folder where a file is expected: it can be opened, and not be read."""
import os

os.mkdir("a_folder")
