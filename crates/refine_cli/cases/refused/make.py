"""Two texts at the limit of 16,777,216 bytes."""
for name, size in ("long.des", 16777217), ("full.des", 16777216):
    with open(name, "w") as it:
        it.write("x" * size)
