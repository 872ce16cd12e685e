"""Makes plants of 255 and of 256 units, each with a fault event that can be seen, and a log of an alarm for each unit."""


def write(count):
    units = range(1, count + 1)
    with open(f"{count}_units.des", "w") as model:
        model.write("des 1\n")
        for unit in units:
            model.write(f"component u{unit}\nstate s init\ntrans s a s\n")
        for unit in units:
            model.write(f"event e{unit} alarm L{unit} fault : u{unit}.a\n")
    with open(f"{count}_alarms.csv", "w") as log:
        for unit in units:
            log.write(f"alarm,x{unit},L{unit}\n")


write(255)
write(256)
