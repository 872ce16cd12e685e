"""Tests tools/explain.py: that it hands on the reply and the status of the program, and that its words name what is wrong.

    python3 tools/explain_test.py PROGRAM

PROGRAM is the compiled program. A case is a call, the first line of its reply by docs/formats.md, and words that the explanation must have: the culprit, where the other
line stands that it contradicts, or what to write instead. They are written from the formats. Each code of each kind of text, each kind of REJECTED and each reply
that isn't an answer must have a case, as docs/formats.md lists them; a code that is new there without a case here is a failure.

Status 0: all is as expected, 1: something isn't, 2: it could not begin.
"""
import contextlib
import io
import os
import re
import shutil
import subprocess
import sys
import tempfile

TOOLS = os.path.dirname(os.path.abspath(__file__))
sys.path.insert(0, TOOLS)
import explain  # noqa: E402

TOP = os.path.dirname(TOOLS)
PLANT = """des 1
component valve
state open init
state shut
trans open close shut
trans shut lift open
component pump
state on init
state dead
trans on fail dead
trans dead rest dead
event close alarm SHUT : valve.close
event lift alarm OPEN : valve.lift
event fail fault : pump.fail
event stop alarm STOP : valve.close pump.rest
"""
FILES = {"m.des": PLANT, "l.csv": "alarm,a1,SHUT\nalarm,a2,OPEN\nbefore,a1,a2\n", "s.csv": "alarm,a1,SHUT\nask\n", "r.run": "run 2\nclose a1\nlift a2\n", "c.costs": "costs 1\n",
         "f.cnf": "p cnf 2 3\n1 2 0\n-1 0\n-2 0\n", "p.lrat": "4 2 0 2 1 0\n5 0 3 4 0\n"}
RING = {name: os.path.join(TOP, "examples", "ring", it) for name, it in (("m.des", "model.des"), ("l.csv", "log.csv"))}
COUNTED = 1 + PLANT.count("\n")


def model(line):
    """The plant with one line more, which is wrong."""
    return {"m.des": PLANT + line + "\n"}


def only(name, text):
    return {name: text}


HUB = only("m.des", "des 1\ncomponent hub\nstate s init\n" + "".join(f"trans s a{k} s\n" for k in range(150)) + "".join(f"event e{k} : hub.a{k}\n" for k in range(150)))
SHOW, TRACE, CHECK, REPLAY = "show m.des", "trace m.des r.run", "check f.cnf p.lrat", "replay m.des l.csv r.run 5"
DIAGNOSE, SESSION, CHEAPEST = "diagnose m.des l.csv 5 1000", "session m.des s.csv 5 1000", "cheapest m.des l.csv c.costs 5 1000"
LAST = f"line {COUNTED}"

# The files that differ from FILES, the call, the first line of the reply, and what the words must have.
CASES = [
    # Models.
    (only("m.des", "des 2\n"), SHOW, "MODEL 1 1", ["line 1", "`des 1`"]),
    (only("m.des", "\n# nothing\n"), SHOW, "MODEL 1 1", ["no line but blanks and comments", "`des 1`"]),
    (only("m.des", "\ufeff" + PLANT), SHOW, "MODEL 1 1", ["byte order mark"]),
    (only("m.des", FILES["l.csv"]), SHOW, "MODEL 1 1", ["looks like a log", "order"]),
    (model("State odd"), SHOW, f"MODEL {COUNTED} 2", [LAST + ": State odd", "'State'", "`state`"]),
    (model("state odd # why"), SHOW, f"MODEL {COUNTED} 2", ["comment", "a line of its own"]),
    (model("state odd initial"), SHOW, f"MODEL {COUNTED} 2", ["`init`", "'initial'"]),
    (model("trans on odd"), SHOW, f"MODEL {COUNTED} 2", ["`trans FROM ACTION TO`", "2 words"]),
    (model("event e: valve.close"), SHOW, f"MODEL {COUNTED} 2", ["colon", "'e:'", "blanks"]),
    (model("event e alarm L valve.close"), SHOW, f"MODEL {COUNTED} 2", ["no colon"]),
    (model("event e : valve.close pump"), SHOW, f"MODEL {COUNTED} 2", ["2nd part", "'pump'", "no dot"]),
    (model("event e : valve.close,pump.rest"), SHOW, f"MODEL {COUNTED} 2", ["1st part", "without commas"]),
    (model("event e : a.b.c"), SHOW, f"MODEL {COUNTED} 2", ["'a.b.c'", "2 dots"]),
    (model("event e fault alarm L : valve.close"), SHOW, f"MODEL {COUNTED} 2", ["`alarm LABEL` comes before `fault`"]),
    (model("event e alarm : valve.close"), SHOW, f"MODEL {COUNTED} 2", ["behind `alarm` stands the label"]),
    (model("event e alarm TOO LOW : valve.close"), SHOW, f"MODEL {COUNTED} 2", ["`alarm TOO LOW`", "a label is one word"]),
    (model("event e :"), SHOW, f"MODEL {COUNTED} 2", ["at least one part"]),
    (model("state a.b"), SHOW, f"MODEL {COUNTED} 3", ["'a.b'", "'.'", "letters, digits, _ and -"]),
    (model("event e alarm TOO/LOW : valve.close"), SHOW, f"MODEL {COUNTED} 3", ["'TOO/LOW'", "'/'"]),
    (model("state " + "x" * 65), SHOW, f"MODEL {COUNTED} 3", ["65 signs", "64"]),
    (model("component pump"), SHOW, f"MODEL {COUNTED} 4", ["component pump", "line 7"]),
    (model("state dead"), SHOW, f"MODEL {COUNTED} 4", ["pump", "state dead", "line 9"]),
    (model("trans on fail dead"), SHOW, f"MODEL {COUNTED} 4", ["transition", "line 10"]),
    (model("event fail : pump.fail"), SHOW, f"MODEL {COUNTED} 4", ["event fail", "line 14"]),
    (model("event e : pump.rest valve.close pump.fail"), SHOW, f"MODEL {COUNTED} 4", ["pump.rest and pump.fail", "one component"]),
    (model("trans on odd daed"), SHOW, f"MODEL {COUNTED} 5", ["pump has no state daed", "on, dead", "Is it dead?"]),
    (model("event e : valve.close pumps.rest"), SHOW, f"MODEL {COUNTED} 5", ["2nd of 2 parts, pumps.rest", "no component pumps", "valve, pump", "Is it pump?"]),
    (model("event e : valve.close pump.lift"), SHOW, f"MODEL {COUNTED} 5", ["2nd of 2 parts, pump.lift", "action lift", "fail, rest"]),
    (model("event e : tank.fill\ncomponent tank\nstate s init\ntrans s fill s"), SHOW, f"MODEL {COUNTED} 5", ["tank", f"below, in line {COUNTED + 1}"]),
    (model("component tank\nstate full"), SHOW, f"MODEL {COUNTED} 6", ["tank", "`init`", "full"]),
    (only("m.des", "des 1\nstate ok init\n"), SHOW, "MODEL 2 7", ["component above it"]),
    (only("m.des", "des 1\n" + "".join(f"component c{k}\nstate s init\n" for k in range(1001))), SHOW, "MODEL 2002 8", ["1,000 components"]),
    (only("m.des", "des 1\ncomponent c\n" + "".join(f"state s{k} init\n" for k in range(257))), SHOW, "MODEL 259 8", ["256 states"]),
    (only("m.des", "des 1\ncomponent c\nstate s init\n" + "".join(f"trans s a{k} s\n" for k in range(50001))), SHOW, "MODEL 50004 8", ["50,000 transitions"]),
    (only("m.des", "des 1\ncomponent c\nstate s init\ntrans s a s\n" + "".join(f"event e{k} : c.a\n" for k in range(4001))), SHOW, "MODEL 4005 8", ["4,000 events"]),
    (only("m.des", "des 1\n" + "".join(f"component c{k}\nstate s init\ntrans s a s\n" for k in range(17)) + "event e : " + " ".join(f"c{k}.a" for k in range(17)) + "\n"), SHOW,
     "MODEL 53 8", ["16 parts", "17"]),
    # Logs and scripts.
    (only("l.csv", "alarm,a1,SHUT\n\nalarm,a1,OPEN\n"), DIAGNOSE, "LOG 2 1", ["row 2 (line 3): alarm,a1,OPEN", "row 1"]),
    (only("l.csv", "before,a1,a2\nalarm,a1,SHUT\nalarm,a2,OPEN\n"), DIAGNOSE, "LOG 1 2", ["no alarm a1 above", "Row 2", "behind"]),
    (only("l.csv", "alarm,a1,SHUT\nbefore,a1,a3\n"), DIAGNOSE, "LOG 2 2", ["no alarm a3"]),
    (only("l.csv", "".join(f"alarm,a{k},SHUT\n" for k in (1, 2, 3)) + "before,a1,a2\nbefore,a2,a3\nbefore,a3,a1\n"), DIAGNOSE, "LOG 6 3", ["a1 comes before a2 comes before a3", "a3 can't come before a1"]),
    (only("l.csv", "alarm,a1,SHUT\nbefore,a1,a1\n"), DIAGNOSE, "LOG 2 3", ["before itself"]),
    (only("l.csv", "alarm,a1,\n"), DIAGNOSE, "LOG 1 4", ["label is empty"]),
    (only("l.csv", "".join(f"alarm,a{k},SHUT\n" for k in range(2001))), DIAGNOSE, "LOG 2001 5", ["2,000 alarms"]),
    (only("l.csv", "alarm,a1," + "|".join(f"L{k}" for k in range(65)) + "\n"), DIAGNOSE, "LOG 1 5", ["64 labels", "65"]),
    (only("l.csv", "".join(f"alarm,a{k},SHUT\n" for k in range(202)) + "".join(f"before,a{k},a{j}\n" for j in range(202) for k in range(j))), DIAGNOSE, "LOG 20203 5", ["20,000 different pairs"]),
    (only("l.csv", "# my log\n"), DIAGNOSE, "LOG 1 6", ["'# my log'", "no comments"]),
    (only("l.csv", "kind,id,label\n"), DIAGNOSE, "LOG 1 6", ["'kind'", "no header"]),
    (only("l.csv", "alarm;a1;SHUT\n"), DIAGNOSE, "LOG 1 6", ["between commas"]),
    (only("l.csv", " alarm,a1,SHUT\n"), DIAGNOSE, "LOG 1 6", ["' alarm'", "without blanks"]),
    (only("l.csv", "alarm,a1\n"), DIAGNOSE, "LOG 1 6", ["alarm,ID,LABEL", "2 fields"]),
    (only("l.csv", "alarm,a1,SHUT,OPEN\n"), DIAGNOSE, "LOG 1 6", ["'OPEN'", "too many", "LABEL|LABEL"]),
    (only("l.csv", "alarm,a1,SHUT\nask\n"), DIAGNOSE, "LOG 2 6", ["'ask'", "`session`"]),
    (only("l.csv", PLANT), DIAGNOSE, "LOG 1 6", ["looks like a model"]),
    (only("l.csv", "alarm, a1,SHUT\n"), DIAGNOSE, "LOG 1 7", ["' a1'", "a blank", "trimmed"]),
    (only("l.csv", "alarm,a1,SHUT|\n"), DIAGNOSE, "LOG 1 7", ["''", "empty"]),
    (only("l.csv", "alarm,a1,TOO LOW\n"), DIAGNOSE, "LOG 1 7", ["'TOO LOW'", "a blank"]),
    (only("l.csv", b"alarm,a1,ferm\xe9\n"), DIAGNOSE, "LOG 1 7", ["'ferm\\xe9'", "byte E9"]),
    (only("l.csv", "alarm,a1,SHUT\n".encode("utf-16")), DIAGNOSE, "LOG 1 6", ["UTF-16"]),
    (only("s.csv", "alarm,a1,SHUT\nasks\n"), SESSION, "LOG 2 6", ["row 2: asks", "'asks'", "`ask`"]),
    (only("s.csv", "alarm,a1,SHUT\nask,1\n"), SESSION, "LOG 2 6", ["'1'", "too many"]),
    (only("s.csv", "alarm,a1,SHUT!\n"), SESSION, "LOG 1 7", ["'SHUT!'", "'!'"]),
    (only("s.csv", "alarm,a1,SHUT\nalarm,a1,OPEN\nbefore,a1,a2\nalarm,a2,OPEN\nbefore,a1,a2\nbefore,a2,a1\nalarm,a3,\n"), SESSION, "REFUSED 1",
     ["row 2: alarm,a1,OPEN", "in row 1", "row 3: before,a1,a2", "Row 4 has", "row 6: before,a2,a1", "a1 comes before a2", "row 7: alarm,a3,", "label is empty"]),
    # Runs.
    (only("r.run", "close a1\nlift a2\n"), TRACE, "RUN 1 1", ["line 1: close a1", "`run COUNT`"]),
    (only("r.run", "run 2,0\n"), TRACE, "RUN 1 1", ["'2,0'", "digits alone"]),
    (only("r.run", "run 5000000\n"), TRACE, "RUN 1 1", ["4,000,000", "5,000,000"]),
    (only("r.run", "CHEAPEST 3\nrun 1\nfail\n"), TRACE, "RUN 1 1", ["`CHEAPEST`", "take this line away"]),
    (only("r.run", "NONE 5\n"), TRACE, "RUN 1 1", ["`NONE 5`", "no run"]),
    (only("r.run", "run 1\nclose a1 a2\n"), TRACE, "RUN 2 2", ["EVENT ALARM", "3 words"]),
    (only("r.run", "run 1\n!\n"), TRACE, "RUN 2 2", ["!", "alarm that is set aside"]),
    (only("r.run", "run 1\nclose a.1\n"), TRACE, "RUN 2 3", ["'a.1'", "'.'"]),
    (only("r.run", "run 1\nclose a1\nlift a2\n"), TRACE, "RUN 3 4", ["`run 1`", "2 lines follow"]),
    (only("r.run", "run 3\nclose a1\nlift a2\n"), TRACE, "RUN 3 4", ["`run 3`", "2 lines follow"]),
    (only("r.run", "run 1\nSHUT a1\n"), TRACE, "RUN 2 5", ["no event SHUT", "label of close"]),
    (only("r.run", "run 1\nclosed a1\n"), TRACE, "RUN 2 5", ["no event closed", "Is it close?"]),
    # Costs.
    (only("c.costs", "cost fail 3\n"), CHEAPEST, "COST 1 1", ["`costs 1`"]),
    (only("c.costs", "costs 1\ncost fail\n"), CHEAPEST, "COST 2 2", ["`cost EVENT NUMBER`", "2 words"]),
    (only("c.costs", "costs 1\ncost fail! 3\n"), CHEAPEST, "COST 2 3", ["'fail!'", "'!'"]),
    (only("c.costs", "costs 1\ncost fail 3\n\ncost fail 4\n"), CHEAPEST, "COST 4 4", ["fail", "line 2"]),
    (only("c.costs", "costs 1\ncost close 3\n"), CHEAPEST, "COST 2 5", ["close", "but no fault", "Its faults: fail"]),
    (only("c.costs", "costs 1\ncost fial 3\n"), CHEAPEST, "COST 2 5", ["no event of the model", "Is it fail?"]),
    (only("c.costs", "costs 1\ncost fail 1,000\n"), CHEAPEST, "COST 2 6", ["'1,000'", "1 to 1,000"]),
    # Formulas.
    (only("f.cnf", "1 2 0\n"), CHECK, "CNF 1 1", ["`p cnf VARIABLES CLAUSES`"]),
    (only("f.cnf", "p cnf 2 2\n1 2 0\n%\n0\n"), CHECK, "CNF 3 2", ["'%'", "Old files"]),
    (only("f.cnf", "p cnf 2 2\n1 +2 0\n"), CHECK, "CNF 2 2", ["'+2'"]),
    (only("f.cnf", "p cnf 2 2\n1 -3 0\n"), CHECK, "CNF 2 3", ["-3", "greater than 2"]),
    (only("f.cnf", "p cnf 2 1\n1 2 0\n-1 0\n"), CHECK, "CNF 3 4", ["1 clause", "more"]),
    (only("f.cnf", "p cnf 2 3\n1 2 0\n-1 0\n"), CHECK, "CNF 3 4", ["3 clauses", "only 2"]),
    (only("f.cnf", "p cnf 2 1\n1 2\n"), CHECK, "CNF 2 5", ["ends with 0"]),
    (only("f.cnf", "p cnf 100000001 1\n"), CHECK, "CNF 1 8", ["100,000,000", "100000001"]),
    # Proofs.
    (only("p.lrat", "4 2 0 2 +1 0\n"), CHECK, "LRAT 1 2", ["'+1'"]),
    (only("p.lrat", "-1 2 0\nd -1 2 0\n0\n"), CHECK, "LRAT 1 2", ["DRAT", "drat-trim FORMULA PROOF -L FILE", "--lrat"]),
    (only("p.lrat", b"a\x04\x00d\x02\x03\x00"), CHECK, "LRAT 1 2", ["binary", "--no-binary"]),
    (only("p.lrat", "4 3 0 2 1 0\n"), CHECK, "LRAT 1 3", ["literal 3", "formula"]),
    (only("p.lrat", "4 2 0 2 1\n"), CHECK, "LRAT 1 5", ["`ID LITERALS 0 HINTS 0`", "before its last 0"]),
    (only("p.lrat", "4 2 0 2 1 0 7\n"), CHECK, "LRAT 1 5", ["`ID LITERALS 0 HINTS 0`", "after its last 0"]),
    (only("p.lrat", "2 0\n0\n"), CHECK, "LRAT 1 5", ["DRAT", "drat-trim"]),
    (only("p.lrat", "3 2 0 2 1 0\n"), CHECK, "LRAT 1 6", ["3 isn't greater", "another formula"]),
    (only("p.lrat", "5 2 0 2 1 0\n4 0 3 5 0\n"), CHECK, "LRAT 2 6", ["4 isn't greater", "than 5"]),
    (only("p.lrat", "4 2 0 -2 1 0\n"), CHECK, "LRAT 1 7", ["hint -2", "RAT"]),
    (only("p.lrat", "18446744073709551616 2 0 2 1 0\n"), CHECK, "LRAT 1 8", ["18,446,744,073,709,551,615"]),
    # A proof that isn't accepted.
    (only("p.lrat", "4 2 0 9 1 0\n"), CHECK, "REJECTED 1 1", ["line 1", "hint 9", "isn't there"]),
    (only("p.lrat", "4 2 0 2 1 0\n5 d 3 0\n6 0 3 4 0\n"), CHECK, "REJECTED 3 1", ["line 3", "hint 3", "no longer"]),
    (only("p.lrat", "4 0 1 0\n"), CHECK, "REJECTED 1 2", ["hint 1", "1 2", "open"]),
    (only("p.lrat", "4 0 2 0\n"), CHECK, "REJECTED 1 3", ["1 hint", "no clause is false"]),
    (only("p.lrat", "4 2 0 2 1 0\n"), CHECK, "REJECTED 0 4", ["no line", "empty clause"]),
    # A run that isn't accepted.
    (only("r.run", "run 2\nlift a2\nclose a1\n"), REPLAY, "REJECTED STUCK 1", ["valve.lift", "allows in shut", "valve is open"]),
    (only("r.run", "run 3\nclose a1\nlift\nlift a2\n"), TRACE, "REJECTED STUCK 3", ["line 3", "valve.lift", "valve is open"]),
    (only("r.run", "run 2\nclose\nlift a2\n"), REPLAY, "REJECTED ALARM 1", ["SHUT", "must name an alarm"]),
    (only("r.run", "run 2\nclose a2\nlift a1\n"), REPLAY, "REJECTED ALARM 1", ["raises SHUT", "a2", "OPEN"]),
    (only("r.run", "run 1\nclose a7\n"), REPLAY, "REJECTED ALARM 1", ["no alarm a7"]),
    (only("r.run", "run 1\nfail a1\n"), REPLAY, "REJECTED ALARM 1", ["raises no alarm", "a1"]),
    (only("r.run", "run 3\nclose a1\nlift a2\nclose a1\n"), REPLAY, "REJECTED ALARM 3", ["line 1", "already"]),
    (only("r.run", "run 1\n! a1\n"), REPLAY, "REJECTED ALARM 1", ["a1", "`maybe`"]),
    (only("r.run", "run 1\nclose a1\n"), REPLAY, "REJECTED MISSING a2", ["a2", "OPEN"]),
    ({"l.csv": "alarm,a2,SHUT\nalarm,a1,OPEN\nbefore,a1,a2\n", "r.run": "run 2\nclose a2\nlift a1\n"}, REPLAY, "REJECTED ORDER a1 a2", ["a2 stands in line 1", "a1 in line 2"]),
    ({}, "replay m.des l.csv r.run 1", "REJECTED WIDE 2", ["2 parallel steps", "N is 1"]),
    # Words of a command.
    ({}, "", "USAGE", ["a command is missing", "diagnose, verdicts"]),
    ({}, "diagnos m.des l.csv 5 1000", "USAGE", ["'diagnos'", "Is it diagnose?"]),
    ({}, "--help", "USAGE", ["'--help'", "no options"]),
    ({}, "diagnose m.des l.csv 5", "USAGE", ["`diagnose MODEL LOG N BUDGET`", "BUDGET is missing"]),
    ({}, "trace m.des r.run 5", "USAGE", ["`trace MODEL RUN`", "5 is too many"]),
    ({}, "diagnose m.des l.csv five 1000", "USAGE", ["3rd word", "N is a number", "'five'"]),
    ({}, "diagnose m.des l.csv 05 1000", "USAGE", ["leading zero", "'05'"]),
    ({}, "diagnose m.des l.csv 1001 1000", "USAGE", ["N is from 0 to 1,000", "1,001"]),
    ({}, "diagnose m.des l.csv 5 18446744073709551616", "USAGE", ["4th word", "BUDGET is from 0 to 18,446,744,073,709,551,615"]),
    ({}, "cnf m.des l.csv 5 256", "USAGE", ["K is from 0 to 255"]),
    ({}, "cnf m.des l.csv 5 all", "USAGE", ["K is a number", "the word any", "'all'"]),
    ({}, "twin m.des fail 5 x 1000", "USAGE", ["4th word", "AFTER"]),
    ({}, "generate plant 5 1", "USAGE", ["`generate model Z START`", "`generate log Z START`"]),
    ({}, "generate model 0 1", "USAGE", ["2nd word", "Z is from 1 to 900"]),
    # Files and sizes.
    ({}, "diagnose m.des none.csv 5 1000", "LOAD 2", ["none.csv", "LOG", "No such file"]),
    ({}, "trace m.des .", "LOAD 2", ["RUN", "Is a directory"]),
    (only("m.des", (1 << 24) + 1), SHOW, "LONG 1", ["m.des", "16,777,217", "16,777,216"]),
    (HUB, "diagnose m.des l.csv 1000 0", "LARGE 22804000", ["22,804,000", "20,000,000", "877 steps", "hub, with 150"]),
    (HUB | only("l.csv", "".join(f"maybe,a{k},FLOOD\n" for k in range(2000))), "cheapest m.des l.csv c.costs 800 0", "LARGE 22352800", ["22,352,800", "705 steps"]),
    # Answers.
    ({}, DIAGNOSE, "EXPLAINED 0", ["5 parallel steps", "no fault"]),
    (only("l.csv", "alarm,a1,STOP\n"), DIAGNOSE, "EXPLAINED 1", ["1 fault (fail)", "not fewer"]),
    (only("l.csv", "alarm,a1,STOP\n"), "verdicts m.des l.csv 5 1000", "EXPLAINED 1", ["certain: fail"]),
    (only("l.csv", "alarm,a1,STOP\n"), CHEAPEST, "CHEAPEST 1", ["cost 1 together", "not less"]),
    (only("l.csv", "alarm,a1,FLOOD\n"), DIAGNOSE, "NONE 5", ["a1 (FLOOD)", "no N will do"]),
    ({}, "diagnose m.des l.csv 1 1000", "NONE 1", ["1 parallel step ", "More steps", "`maybe`"]),
    ({}, "proof m.des l.csv 5 1000", "NOTHING", ["nothing to refute"]),
    ({}, "twin m.des close 5 1 1000", "NOFAULT", ["close", "Its faults: fail"]),
    ({}, "twin m.des fail 5 1 1000", "AMBIGUOUS 5", ["fail can hide"]),
    (only("l.csv", "".join(f"maybe,a{k},FLOOD\n" for k in range(256))), "diagnose m.des l.csv 0 1000", "MANY 255", ["more than 255 faults", "not the least"]),
    ({"l.csv": "alarm,a1,STOP\nmaybe,a2,FLOOD\n", "c.costs": "costs 1\ncost fail 1000\n"}, CHEAPEST, "DEAR 1000", ["costs more than 1,000", "not the least"]),
    (RING, "diagnose m.des l.csv 9 0", "UNDECIDED", ["budget of 0 was spent", "ten times the budget"]),
    (only("m.des", PLANT.replace("event fail fault", "event fail alarm DEAD fault")), "twin m.des fail 5 1 1000", "CLEAR 5", ["no run without fail"]),
]
# Calls by a shell, each with the status, what is printed and what the words have (None if there are none): the output or the words can't be written, a word isn't UTF-8, the program is killed, or isn't there,
# or nobody reads on.
SHELL = [("{explain} {program} show m.des > /dev/full", 4, "", "couldn't be written"), ("{explain} {program} show \"$(printf 'a\\377')\"", 1, "", "isn't UTF-8"),
         ("{explain} sh -c 'kill -9 $$'", 137, "", ""), ("{explain} {program} show 2> /dev/full", 2, "USAGE\n", ""), ("{explain} ./none show", 1, "", "./none: No such file"),
         ("{explain} {program} generate model 900 7 | head -n 1", 0, "des 1\n", None), ("((({explain} {program} generate model 900 7; echo $? >&3) | head -n 1 > /dev/null) 3>&1)", 0, "4\n", None)]


def listed():
    """What docs/formats.md says that a reply may be: each code of each kind, each kind of REJECTED, and each reply of the table of statuses."""
    with open(os.path.join(TOP, "docs", "formats.md"), encoding="utf-8") as it:
        sections = dict(re.findall(r"(?ms)^## (.*?)$(.*?)(?=^## |\Z)", it.read()))
    found = set()
    for title, kinds in (("Model text", "MODEL"), ("Logs and scripts", "LOG"), ("Run text", "RUN"), ("Cost text", "COST"), ("Proofs: LRAT texts", "CNF LRAT")):
        codes = re.findall(r"(?m)^\| (\d+) \|", sections[title])
        found |= {f"{kind} {code}" for code in codes for kind in kinds.split()}
    # A formula has no numbers of clauses and no hints, a proof has no header.
    found -= {"CNF 6", "CNF 7", "LRAT 1", "LRAT 4"}
    printed = sections["What each command prints"]
    found |= {f"REJECTED {kind}" for kind in re.findall(r"`REJECTED (STUCK|[A-Z]+) [A-Z ]*` \|", printed) + re.findall(r"(?:Kind|\.|kind) (\d): ", printed.replace("kind 4:", "kind 4: "))}
    replies = {it for line in re.findall(r"(?m)^\| \d+ \|.*\|(.*)\|$", sections["Exit statuses"]) for it in re.findall(r"`([A-Z]+)[ `]", line)}
    # These say all that there is to say.
    return found | replies - {"RAN", "ACCEPTED", "VERIFIED", "OPEN", "REJECTED", "MODEL", "LOG", "RUN", "COST", "CNF", "LRAT"}


def kind_of(reply):
    """Under which name of `listed` a reply stands."""
    words = reply.split()
    if words[0] == "REJECTED":
        return f"REJECTED {words[1] if words[1].isalpha() else words[2]}"
    return f"{words[0]} {words[2]}" if words[0] in ("MODEL", "LOG", "RUN", "COST", "CNF", "LRAT") else words[0]


def written(folder, files):
    """Writes the files of a case; a number is the size of a file without content, and a path of the repository a file to copy."""
    for name, content in (FILES | files).items():
        if isinstance(content, str) and content.startswith(TOP):
            shutil.copy(content, os.path.join(folder, name))
            continue
        with open(os.path.join(folder, name), "wb") as it:
            if isinstance(content, int):
                it.truncate(content)
            else:
                it.write(content.encode() if isinstance(content, str) else content)


def called(words):
    """What explain.py prints in a call, the words beside it, and its status."""
    printed, said = io.TextIOWrapper(io.BytesIO(), encoding="utf-8"), io.StringIO()
    with contextlib.redirect_stdout(printed), contextlib.redirect_stderr(said):
        status = explain.main(words)
    printed.flush()
    return printed.buffer.getvalue(), said.getvalue(), status


def wrong_of(program, folder, case):
    """What is wrong with a case."""
    files, call, reply, wanted = case
    written(folder, files)
    os.chdir(folder)
    words = [program] + call.split()
    plain = subprocess.run(words, stdin=subprocess.DEVNULL, stdout=subprocess.PIPE, check=False)
    printed, said, status = called(words)
    heads = [line.split()[:len(reply.split())] for line in plain.stdout.decode().split("\n")]
    wrong = [f"the program replies {' '.join(heads[0])}"] * (reply.split() not in (heads if reply.startswith("REFUSED") else heads[:1]))
    wrong += ["the reply isn't handed on as it stands"] * (printed != plain.stdout) + [f"the status is {status}, not {plain.returncode}"] * (status != plain.returncode)
    wrong += [f"the words don't have {it!r}" for it in wanted if it not in said]
    return [f"{call} ({reply}): {it}" for it in wrong] + (["  " + said] if wrong else [])


def by_shell(program, folder):
    explain_it, wrong = f"{sys.executable} {os.path.join(TOOLS, 'explain.py')}", []
    written(folder, {})
    for line, status, printed, wanted in SHELL:
        made = subprocess.run(["sh", "-c", line.format(explain=explain_it, program=program)], cwd=folder, capture_output=True, check=False)
        said = made.stderr.decode()
        if (made.returncode, made.stdout.decode()) != (status, printed) or (said if wanted is None else wanted not in said or "Traceback" in said):
            wrong.append(f"{line}: status {made.returncode}, not {status}, or not {printed!r} and the words {wanted!r}:\n  {said}")
    return wrong


def main(words):
    if len(words) != 1 or not os.access(words[0], os.X_OK):
        print("usage: explain_test.py PROGRAM", file=sys.stderr)
        return 2
    program, wrong = os.path.abspath(words[0]), []
    for case in CASES:
        with tempfile.TemporaryDirectory() as folder:
            wrong += wrong_of(program, folder, case)
            os.chdir(TOP)
    with tempfile.TemporaryDirectory() as folder:
        wrong += by_shell(program, folder)
    wrong += [f"{it} has no case" for it in sorted(listed() - {kind_of(reply) for _, _, reply, _ in CASES})]
    print("\n".join(wrong + [f"{len(CASES) + len(SHELL)} cases of explain.py, and {len(wrong)} things aren't as expected"]))
    return 1 if wrong else 0


if __name__ == "__main__":
    sys.exit(main(sys.argv[1:]))
