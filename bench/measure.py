"""What the benches share: inputs written, a plain read of them, and timed calls of the program in a table."""
import os
import subprocess
import tempfile
import time


def written(path, text_of):
    """Writes a file in a process of its own, so that this one stays small: a child's peak of memory begins with its parent's."""
    child = os.fork()
    if child == 0:
        with open(path, "w", encoding="ascii") as f:
            f.write(text_of())
        os._exit(0)
    os.waitpid(child, 0)
    return os.path.getsize(path)


def plain_read(path):
    start = time.perf_counter()
    with open(path, "rb") as f:
        while f.read(2**20):
            pass
    return time.perf_counter() - start


def called(*words):
    """Seconds by the clock, what the call used, its exit status and its text."""
    start = time.perf_counter()
    child = subprocess.Popen(words, stdout=subprocess.PIPE)
    out = child.stdout.read().decode()
    _, status, usage = os.wait4(child.pid, 0)
    return time.perf_counter() - start, usage, os.waitstatus_to_exitcode(status), out.strip()


def timed(*words):
    """Seconds by the clock, peak of memory in MiB, exit status and text of a call."""
    seconds, usage, status, out = called(*words)
    return seconds, usage.ru_maxrss / 1024, status, out


def spent(*words):
    """The same with seconds of the processor, which say more where others use the machine."""
    _, usage, status, out = called(*words)
    return usage.ru_utime + usage.ru_stime, usage.ru_maxrss / 1024, status, out


def tabulate(program, command, cases, *words):
    """Prints a table of calls of the command: size, time, rate, ratio to a plain read, memory, answer.

    A case is a name, and for each file a call that gives its text. The further words stand behind the files.
    """
    print(f"{'input':46} {'MiB':>6} {'seconds':>8} {'MiB/s':>7} {'ratio':>7} {'memory MiB':>11}  answer")
    with tempfile.TemporaryDirectory() as folder:
        for name, *texts in cases:
            files = [os.path.join(folder, str(place)) for place in range(len(texts))]
            size = sum(written(file, text) for file, text in zip(files, texts)) / 2**20
            read = sum(plain_read(file) for file in files)
            seconds, memory, status, out = timed(program, command, *files, *words)
            print(f"{name:46} {size:6.1f} {seconds:8.2f} {size / seconds:7.1f} {seconds / read:7.0f} {memory:11.1f}  {status} {out}")
