"""Tests tools/alarms.py: the logs that it makes of alarm lists, and what it says of rows that it can't use.

    python3 tools/alarms_test.py

No program is needed. Of lists that are drawn by chance the pairs must say just what the times say, and none may follow from others.

Status 0: all is as it should be, 1: something isn't.
"""
import os
import random
import subprocess
import sys
import tempfile

TOOLS = os.path.dirname(os.path.abspath(__file__))
sys.path.insert(0, TOOLS)
from alarms import __doc__ as USAGE  # noqa: E402
from alarms import Alarm, comes_before, pairs_of  # noqa: E402

RULES = 'label,Text,State\nHIGH,Level high,ON\nmaybe FLOOD,"Flood, sump",ON\nP1-ON|P2-ON,Pump started,\n-,,ACK\n'
HEAD = "Time,Panel,Text,State\n"
LIST = HEAD + '08:00:00,east,Level high,ON\n08:00:05,west,"Flood, sump",ON\n08:00:05,east,Pump started,ON\n08:00:06,east,Level high,ACK\n08:00:09,west,Level high,ON\n'
ALARMS = "alarm,a2,HIGH\nmaybe,a3,FLOOD\nalarm,a4,P1-ON|P2-ON\nalarm,a6,HIGH\n"
CLOCK = ("Time", "%H:%M:%S")
# Rules, an export (None for a file that isn't there), the further words, and what is printed, to standard error too (None if it is how to call the script), and the status.
TRIED = [
    (RULES, LIST, CLOCK, ALARMS + "before,a2,a3\nbefore,a2,a4\nbefore,a3,a6\nbefore,a4,a6\n", "", 0),
    (RULES, LIST, CLOCK + ("Panel",), ALARMS + "before,a2,a4\nbefore,a3,a6\n", "", 0),
    (RULES, LIST, CLOCK + ("Panel", "5"), ALARMS + "before,a2,a3\nbefore,a2,a4\nbefore,a3,a6\n", "", 0),
    (RULES, LIST, CLOCK + ("Panel", "4"), ALARMS + "before,a2,a3\nbefore,a2,a4\nbefore,a3,a6\nbefore,a4,a6\n", "", 0),
    (RULES, "\ufeff" + LIST.replace("\n", "\r\n"), CLOCK + ("Panel",), ALARMS + "before,a2,a4\nbefore,a3,a6\n", "", 0),
    (RULES, HEAD + "08:00:09,east,Pump started,ON\n08:00:00,east,Level high,ON\n\n", CLOCK, "alarm,a3,HIGH\nalarm,a2,P1-ON|P2-ON\nbefore,a3,a2\n", "", 0),
    ("label,Text\nHIGH,Level high\n", "Time,Text\n2026-11-03T02:00:00+01:00,Level high\n2026-11-03T01:30:00Z,Level high\n", ("Time", "iso"), "alarm,a2,HIGH\nalarm,a3,HIGH\nbefore,a2,a3\n", "", 0),
    (RULES, HEAD, CLOCK, "", "export: no row is an alarm, so the log is empty\n", 0),
    (RULES.replace(",", ";").replace("Flood;", "Flood,"), LIST.replace(",", "\t").replace("Flood\t", "Flood,"), CLOCK, ALARMS + "before,a2,a3\nbefore,a2,a4\nbefore,a3,a6\nbefore,a4,a6\n", "", 0),
    (RULES[:-1], LIST, CLOCK, ALARMS + "before,a2,a3\nbefore,a2,a4\nbefore,a3,a6\nbefore,a4,a6\n", "", 0),
    ("label,Text\nLEVEL,Level * high\nOTHER,*\n", "Time,Text\n1,Level 4.3 m high\n2,Level high\n3,(Level 4 high)\n", ("Time", "unix"), "alarm,a2,LEVEL\nalarm,a3,OTHER\nalarm,a4,OTHER\nbefore,a2,a3\nbefore,a3,a4\n", "", 0),
    ("label,Text\nHIGH,\n", "Day,Time,Text\n03/11/2026,11:59:00 PM,x\n04/11/2026,12:01:00 AM,x\n", ("Day+Time", "%d/%m/%Y %I:%M:%S %p"), "alarm,a2,HIGH\nalarm,a3,HIGH\nbefore,a2,a3\n", "", 0),
    ("label,Text\nHIGH,\n", "Time,Text\n2026-11-03 02:14:07.250,x\n2026-11-03 02:14:07.050,x\n", ("Time", "%Y-%m-%d %H:%M:%S.%f"), "alarm,a3,HIGH\nalarm,a2,HIGH\nbefore,a3,a2\n", "", 0),
    ("label,Text\nHIGH,\n", "Time,At,Text\n1762135200.5,a,x\n1762135200.2,b,x\n", ("Time", "unix", "At", "0.3"), "alarm,a3,HIGH\nalarm,a2,HIGH\nbefore,a3,a2\n", "", 0),
    ("label,Text\nHIGH,\n", "Time,Text\n2026-10-25T02:30:00+02:00,x\n2026-10-25T02:10:00+01:00,x\n", ("Time", "iso"), "alarm,a2,HIGH\nalarm,a3,HIGH\nbefore,a2,a3\n", "", 0),
    ("label,Text\nHIGH,\n", "Time,Text\n2026-10-25T02:30:00+02:00,x\n2026-10-25T02:10:00,x\n", ("Time", "iso"), "", "export, line 3: '2026-10-25T02:10:00' has no zone, and the first alarm has one\n", 1),
    ("label,Text\nHIGH,\n", "Time,Text\n03/11/26 02:30:00 +0200,x\n03/11/26 02:10:00 +0100,x\n", ("Time", "%d/%m/%y %H:%M:%S %z"), "alarm,a2,HIGH\nalarm,a3,HIGH\nbefore,a2,a3\n", "", 0),
    ("label,Text\nHIGH,\n", "Time,Text\n1e400,x\nnan,x\n", ("Time", "unix"), "", "export, line 2: '1e400' isn't a time of the form unix\nexport, line 3: 'nan' isn't a time of the form unix\n", 1),
    (RULES, LIST[:-1], CLOCK, "", "export, line 6: the line has no end, so it may be half-written\n", 1),
    (RULES, LIST[:-2], CLOCK, "", "export, line 6: the line has no end, so it may be half-written\n", 1),
    (RULES, LIST + '08:00:11,west,"Level\n', CLOCK, "", "export, line 7: unexpected end of data\n", 1),
    (RULES, LIST + "08:00:11,west,Flood, sump,ON\n08:00:12,west\n08:00:13,east,Level high,ON,,\n", CLOCK, "", "export, line 7: the row has 5 cells, and the header 4\nexport, line 8: the row has 2 cells, and the header 4\n", 1),
    (RULES, LIST.replace("Panel", "Text"), CLOCK, "", "export: the export has 2 columns with the name Text\n", 1),
    (RULES, LIST.replace("Panel", "Time"), CLOCK, "", "export: the export has 2 columns with the name Time\n", 1),
    ("label,Text\nHIGH\n", LIST, CLOCK, "", "rules, line 2: the row has 1 cell, and the header 2\n", 1),
    (RULES, LIST, CLOCK + ("Panel", "1e300"), "", "APART is a number of seconds, and here it is 1e300\n", 1),
    (RULES, LIST, CLOCK + ("Panel", "-1"), "", "APART is a number of seconds, and here it is -1\n", 1),
    (RULES, LIST, CLOCK + ("Place",), "", "export: the export has no column Place; it has Time, Panel, Text, State\n", 1),
    (RULES, None, CLOCK, "", "export: No such file or directory\n", 1),
    (None, LIST, CLOCK, "", "rules: No such file or directory\n", 1),
    (RULES, LIST, ("Time",), "", None, 2),
    (RULES, HEAD + "08:00,east,Level high,ON\n8 o'clock,east,Level low,ON\n", CLOCK, "", "export, line 2: '08:00' isn't a time of the form %H:%M:%S\nexport, line 3: no rule fits Panel east, Text Level low, State ON\n", 1),
    (RULES, LIST, ("Tme", "iso"), "", "export: the export has no column Tme; it has Time, Panel, Text, State\n", 1),
    ("label,Txt\n", LIST, CLOCK, "", "rules: the export has no column Txt; it has Time, Panel, Text, State\n", 1),
    ("name,Text\n", LIST, CLOCK, "", "rules: the first column of the rules is `label`, and here it is 'name'\n", 1),
    ("", LIST, CLOCK, "", "rules: the first column of the rules is `label`, and here it is missing\n", 1),
    ("label,Text\nTOO HIGH,Level high\n", LIST, CLOCK, "", "rules, line 2: 'TOO HIGH' is no label; a label is 1 to 64 ASCII letters, digits, _ or -\n", 1),
    (RULES, "", CLOCK, "", "export: the export has no column Time; it is empty\n", 1),
    (RULES, LIST, CLOCK + ("Panel", "nan"), "", "APART is a number of seconds, and here it is nan\n", 1),
    (RULES, LIST, CLOCK + ("Panel", "soon"), "", "APART is a number of seconds, and here it is soon\n", 1),
]


def made(rules, export, words):
    """What the script prints of these texts, and its status."""
    with tempfile.TemporaryDirectory() as room:
        for name, text in (("rules", rules), ("export", export)):
            if text is not None:
                with open(os.path.join(room, name), "w", encoding="utf-8", newline="") as it:
                    it.write(text)
        ran = subprocess.run([sys.executable, os.path.join(TOOLS, "alarms.py"), "rules", "export", *words], cwd=room, stdin=subprocess.DEVNULL, capture_output=True, text=True, check=False)
    return ran.stdout, None if ran.stderr == USAGE else ran.stderr, ran.returncode


def closed(pairs, names):
    """All pairs that follow from these."""
    after = {name: {later for earlier, later in pairs if earlier == name} for name in names}
    for middle in names:
        for name in names:
            if middle in after[name]:
                after[name] |= after[middle]
    return {(name, later) for name in names for later in after[name]}


def drawn(chance):
    """Alarms by chance in the order of their times, with the seconds by which their clocks may differ."""
    clocks = chance.randrange(1, 4)
    times = sorted(chance.randrange(12) for _ in range(chance.randrange(9)))
    return [Alarm(f"a{place}", None, time, chance.randrange(clocks)) for place, time in enumerate(times)], chance.choice([None, 0, 0.5, 1, 3, 20])


def pair_faults(count):
    """How many drawn lists have pairs that say too much, too little or the same twice."""
    chance, wrong = random.Random(7), 0
    for _ in range(count):
        alarms, apart = drawn(chance)
        pairs, names = list(pairs_of(alarms, apart)), [it.name for it in alarms]
        wanted = {(one.name, other.name) for one in alarms for other in alarms if comes_before(one, other, apart)}
        twice = [pair for pair in pairs if pair in closed([it for it in pairs if it != pair], names)]
        wrong += closed(pairs, names) != wanted or bool(twice) or len(set(pairs)) < len(pairs)
    return wrong


def main():
    wrong, count = 0, 500
    for rules, export, words, *wanted in TRIED:
        answer = made(rules, export, words)
        if answer != tuple(wanted):
            wrong += 1
            print(f"of {export!r} with {words} it should print\n{tuple(wanted)}\nand it prints\n{answer}")
    with tempfile.TemporaryDirectory() as room:
        with open(os.path.join(room, "rules"), "w", encoding="utf-8") as it:
            it.write(RULES)
        ran = subprocess.run([sys.executable, os.path.join(TOOLS, "alarms.py"), "rules", "-", *CLOCK], cwd=room, input=LIST, capture_output=True, text=True, check=False)
    if not ran.stdout.startswith(ALARMS) or ran.stderr:
        wrong += 1
        print(f"of the same list on standard input it prints\n{ran.stdout}{ran.stderr}")
    wrong += pair_faults(count)
    print(f"{len(TRIED)} alarm lists and {count} that are drawn by chance, of which {wrong} aren't as they should be")
    return 1 if wrong else 0


if __name__ == "__main__":
    sys.exit(main())
