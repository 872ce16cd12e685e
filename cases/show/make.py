# Makes a model of a state too many, and a text of a byte too many.
with open("states_257.des", "w", encoding="ascii") as it:
    it.write("des 1\ncomponent p\n" + "".join(f"state s{at}\n" for at in range(257)))
with open("too_long.des", "wb") as it:
    it.write(b"des 1\n" + b"#" * (16_777_216 - 5))
