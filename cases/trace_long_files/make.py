"""Makes files as long as they may be, and a byte longer."""
MODEL_OR_LOG = 16_777_216
OTHERS = 536_870_912


def write(name, start, length):
    """A file that begins so and goes on with blanks."""
    with open(name, "wb") as it:
        it.write(start.ljust(length))


def write_zeros(name, length):
    """A file of zero bytes, which takes no room on the disk."""
    with open(name, "wb") as it:
        it.truncate(length)


write("longest.des", b"des 1\n#", MODEL_OR_LOG)
write("too_long.des", b"des 1\n#", MODEL_OR_LOG + 1)
write("too_long.csv", b"", MODEL_OR_LOG + 1)
write_zeros("too_long.run", OTHERS + 1)
write_zeros("too_long.cnf", OTHERS + 1)
