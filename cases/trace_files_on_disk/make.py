# Models as long as a model may be, and longer, and one that takes several reads; and a folder, which can't be read.
import os

LIMIT = 16_777_216
VALVE = """component p
state ok init
trans ok beat ok
event beat alarm B : p.beat
"""
for name, size in [("longest.des", LIMIT), ("one_more.des", LIMIT + 1), ("four_more.des", LIMIT + 4), ("twice.des", 2 * LIMIT)]:
    with open(name, "w") as it:
        it.write("des 1\n#".ljust(size))
with open("of_three_reads.des", "w") as it:
    it.write("# " + 10_000 * "-" + "\ndes 1\n" + VALVE)
os.mkdir("folder")
