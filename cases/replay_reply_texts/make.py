# 256 units, each with a fault that is seen, and a log of all these faults.
with open("units.des", "w") as it:
    it.write("des 1\n")
    for i in range(1, 257):
        it.write(f"component u{i}\nstate s init\ntrans s a s\nevent e{i} alarm L{i} fault : u{i}.a\n")
with open("units.csv", "w") as it:
    for i in range(1, 257):
        it.write(f"alarm,x{i},L{i}\n")
