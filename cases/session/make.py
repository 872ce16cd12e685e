# An alarm with 65 labels and one with 64, and two alarms with the labels T-1 to T-40 and F-1 to F-24.
many = "|".join(f"L{i}" for i in range(1, 66))
few = "|".join(f"L{i}" for i in range(1, 65))
with open("labels.csv", "w", encoding="ascii") as f:
    f.write(f"alarm,a,{many}\nalarm,a,{few}\nalarm,a,T\n")
units = "|".join([f"T-{i}" for i in range(1, 41)] + [f"F-{i}" for i in range(1, 25)])
with open("two_large.csv", "w", encoding="ascii") as f:
    f.write(f"alarm,a,{units}\nalarm,b,{units}\n")
with open("long.csv", "wb") as f:
    f.write(b"\n" * 16777217)
