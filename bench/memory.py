"""Refuses each request for memory of a run in turn, looks what the program answers, and prints a table.

    python3 bench/memory.py PROGRAM

PROGRAM is the program as `rt run` builds it, crates/diagnose_cli/out/diagnose_cli. It is run with an allocator before that of the C library, which
is written and compiled here by `cc` and refuses one request of a run, the first, the second and so on up to the last; and in a second
round that one and all that come later. It's no part of the gate.

The rows are commands of `cases/`, with the answers that stand there. Each run must have status 9, or status and output of its row. At status 9 the
output must be whole replies: nothing, or of a session the replies to some of its rows, or of `verdicts` some of its replies. Status 1: some run answered otherwise.

A new command is a line in ROWS, once a case of files has it.

On 2 December 2026, with the proved program: 14,316 runs of 27 commands, none wrong. 14,012 ended with status 9, and 304 answered as if
nothing had been refused. `diagnose` asks for memory 268 times on a valve that tripped (2 steps) and 461 times on one that tripped again (5 steps), a `session`
of three questions 345 times, `cheapest` (3 steps) 325, `verdicts` on three fault events 303, `proof` 285, `cnf` 260, `twin` (2 steps) 191, `replay` 134 and `check` of two steps 29 times.
"""
import os
import re
import shlex
import subprocess
import sys
import tempfile

HERE = os.path.dirname(os.path.abspath(__file__))
# (a folder in cases/ is taken for a case)
sys.dont_write_bytecode = True
sys.path.insert(0, os.path.join(HERE, "..", "cases"))
from run import prepared, rows

SECONDS = 120
OUT_OF_MEMORY = 9
# The folder of a case, and one of its commands.
ROWS = [
    ("diagnose_valve", "diagnose model.des tripped.csv 2 1000"),
    ("diagnose_valve", "diagnose model.des tripped.csv 1 1000"),
    ("diagnose_valve", "diagnose model.des tripped_again.csv 5 1000"),
    ("diagnose_no_way_over", "diagnose model.des both_alarms.csv 2 0"),
    ("diagnose_no_way_over", "diagnose model.des both_alarms.csv 2 1000000"),
    ("session", "session model.des excused.csv 2 1000"),
    ("session", "session model.des refused_between.csv 2 1000"),
    ("diagnose_valve", "replay model.des tripped.csv a_reply.run 2"),
    ("diagnose_valve", "replay model.des tripped.csv a_reply.run 1"),
    ("diagnose_valve", "replay model.des tripped.csv no_events.run 2"),
    ("check_proofs", "check four_clauses.cnf two_steps.lrat"),
    ("check_proofs", "check four_clauses.cnf hint_with_two_open_literals.lrat"),
    ("proof_printed", "proof valve.des tripped.csv 2 1000"),
    ("proof_printed", "proof two_starts.des both.csv 2 1000000"),
    ("proof_printed", "cnf valve.des tripped.csv 2 0"),
    ("diagnose_valve", "trace model.des two_faults.run"),
    ("show", "show valve.des"),
    ("generate", "generate log 12 7"),
    ("bench", "bench 12 7 3 1000"),
    ("twin", "twin two_ways.des ef 2 1 1000"),
    ("twin", "twin excused.des ef 2 1 1000"),
    ("twin", "twin valve.des trip 2 1 1000"),
    ("cheapest", "cheapest ways.des seen.csv ways.costs 3 1000"),
    ("cheapest", "cheapest starts.des both.csv none.costs 2 0"),
    ("cheapest", "cheapest valve.des tripped.csv header.costs 2 1000"),
    ("verdicts", "verdicts two_ways.des seen.csv 2 1000"),
    ("verdicts", "verdicts valve.des tripped.csv 2 1000"),
]
# Where a reply of a session or of `verdicts` begins.
REPLY = re.compile(r"^(?=(?:EXPLAINED|NONE|MANY|UNDECIDED|REFUSED|CERTAIN|EXCLUDED|POSSIBLE|OPEN) )", re.M)
# The allocator: it refuses the request with the number in REFUSED, and with LATER those that follow too, and writes to descriptor MARK when it does.
SHIM = r"""
#include <errno.h>
#include <stddef.h>
#include <stdlib.h>
#include <string.h>
#include <unistd.h>

extern void *__libc_malloc(size_t);
extern void *__libc_calloc(size_t, size_t);
extern void *__libc_realloc(void *, size_t);
extern void *__libc_memalign(size_t, size_t);
extern void __libc_free(void *);

static unsigned long requests, refused;
static int begun, later, mark;

static void begin(void) {
    begun = 1;
    const char *number = getenv("REFUSED"), *place = getenv("MARK");
    refused = number ? strtoul(number, 0, 10) : 0;
    mark = place ? atoi(place) : -1;
    later = getenv("LATER") != 0;
}

static int refuses(void) {
    if (!begun) begin();
    requests++;
    if (!refused || (later ? requests < refused : requests != refused)) return 0;
    if (mark >= 0 && write(mark, "x", 1) < 0) mark = -1;
    mark = -1;
    errno = ENOMEM;
    return 1;
}

void *malloc(size_t size) { return refuses() ? 0 : __libc_malloc(size); }
void *calloc(size_t count, size_t size) { return refuses() ? 0 : __libc_calloc(count, size); }
void *realloc(void *old, size_t size) { return refuses() ? 0 : __libc_realloc(old, size); }
void *reallocarray(void *old, size_t count, size_t size) {
    size_t bytes;
    if (__builtin_mul_overflow(count, size, &bytes)) return errno = ENOMEM, (void *)0;
    return realloc(old, bytes);
}
void *memalign(size_t align, size_t size) { return refuses() ? 0 : __libc_memalign(align, size); }
void *aligned_alloc(size_t align, size_t size) { return memalign(align, size); }
int posix_memalign(void **to, size_t align, size_t size) {
    void *found = memalign(align, size);
    if (!found) return ENOMEM;
    *to = found;
    return 0;
}
void free(void *old) { __libc_free(old); }
"""


def compiled(room):
    """The allocator as a shared library."""
    source, library = os.path.join(room, "shim.c"), os.path.join(room, "shim.so")
    with open(source, "w", encoding="ascii") as it:
        it.write(SHIM)
    subprocess.run(["cc", "-O2", "-fno-builtin", "-fPIC", "-shared", "-o", library, source], check=True)
    return library


def answer(program, words, at, variables):
    """The status and the output of a run, and whether a request was refused."""
    ours, theirs = os.pipe()
    try:
        how = {"cwd": at, "env": {"LC_ALL": "C.UTF-8", "MARK": str(theirs), **variables}, "pass_fds": [theirs], "timeout": SECONDS}
        ran = subprocess.run([program, *words], stdin=subprocess.DEVNULL, stdout=subprocess.PIPE, stderr=subprocess.DEVNULL, **how)
    finally:
        os.close(theirs)
        was_refused = os.read(ours, 1) != b""
        os.close(ours)
    return ran.returncode, ran.stdout.decode(errors="replace"), was_refused


def wanted(folder, words):
    """The status and the output of a row as the case has them, and the output None where the case leaves lines out or writes them to a file."""
    for _, found, text in rows(folder):
        command, _, file = found.partition(" > ")
        if command == words:
            body, _, status = text.decode().rstrip("\n").rpartition("status ")
            return int(status), None if file or "...\n" in body else body
    sys.exit(f"{folder} has no command {words}")


def fronts(words, text):
    """What may have been put where memory is wanting: whole replies, but not all."""
    replies = REPLY.split(text)[1:] if words[0] in ["session", "verdicts"] else [text]
    return ["".join(replies[:count]) for count in range(len(replies))]


def swept(program, library, at, words, row, later):
    """Refuses one request after another. Returns how many were refused, how many runs ended for want of memory, and the wrong ones."""
    status, text = row
    number = broken = 0
    wrong = []
    while True:
        variables = {"LD_PRELOAD": library, "REFUSED": str(number + 1), **({"LATER": "1"} if later else {})}
        told, output, was_refused = answer(program, words, at, variables)
        if not was_refused:
            break
        number += 1
        if told == OUT_OF_MEMORY and output in fronts(words, text):
            broken += 1
        elif (told, output) != (status, text):
            wrong.append((number, told, output))
    return number, broken, wrong


def main(program):
    total = of_all = 0
    print("| Command | In | Refused | Runs | Status 9 | Answered all the same | Wrong |")
    print("|---|---|---|---|---|---|---|")
    with tempfile.TemporaryDirectory(prefix="memory-") as room:
        library = compiled(room)
        for place, (name, line) in enumerate(ROWS):
            folder, words = os.path.join(HERE, "..", "cases", name), shlex.split(line)
            os.mkdir(os.path.join(room, str(place)))
            at = prepared(folder, os.path.join(room, str(place)))
            status, text = wanted(folder, line)
            told, output, _ = answer(program, words, at, {})
            if told != status or text is not None and output != text:
                sys.exit(f"{name}: {line}: it answers otherwise although no memory is refused")
            for later in [False, True]:
                number, broken, wrong = swept(program, library, at, words, (status, output), later)
                cells = [f"`{line}`", f"`{name}`", "that and all later" if later else "one", number, broken, number - broken - len(wrong), len(wrong)]
                print("| " + " | ".join(map(str, cells)) + " |", flush=True)
                for request, told, output in wrong[:5]:
                    print(f"request {request}: status {told}, {output!r}")
                total, of_all = total + number, of_all + len(wrong)
    if not total:
        sys.exit("no request for memory was seen, so nothing was looked at: the program doesn't take its memory from the C library")
    print(f"\n{total} runs, of which {of_all} answered otherwise than they may")
    return 1 if of_all else 0


if __name__ == "__main__":
    sys.exit(main(os.path.abspath(sys.argv[1])))
