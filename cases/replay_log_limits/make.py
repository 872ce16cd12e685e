# Makes logs at the limits, and one above each.


def write(name, lines):
    with open(name, "w", encoding="ascii") as it:
        it.write("".join(f"{line}\n" for line in lines))


def alarms(count):
    return [f"alarm,a{at},T" for at in range(count)]


for count in (2000, 2001):
    write(f"alarms_{count}.csv", alarms(count))
pairs = [f"before,a{first},a{second}" for first in range(202) for second in range(first + 1, 202)]
write("pairs_20000.csv", [*alarms(202), *pairs[:20000]])
write("pairs_20001.csv", [*alarms(202), *pairs[:20001]])
write("a_known_pair_at_the_limit.csv", [*alarms(202), *pairs[:20000], pairs[0]])
