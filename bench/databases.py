#!/usr/bin/env python3
"""Times `surveyor check` by one and by four workers, over databases in real files and without.

- one worker and four, without a database: on four processors four are to take a third of the time
- four workers over a new database, and what of it were syncs (where strace is there): 10 seconds more at most
- the same over the finished database: a tenth of the time at most

Each report has to be that of `surveyor alone`. Times are of the clock, the least of three runs, so the machine should be idle.
usage: bench/databases.py PROGRAM [FUNCTIONS]
"""
import os
import re
import shutil
import subprocess
import sys
import tempfile
import time

from analysis import made, trial


def run(words, folder):
    """Seconds of a command and what it prints."""
    begun = time.monotonic()
    done = subprocess.run(words, cwd=folder, capture_output=True, check=False)
    seconds = time.monotonic() - begun
    if done.returncode not in (0, 1):
        sys.exit(f"{' '.join(words[1:])}: status {done.returncode}: {done.stderr.decode()}")
    return seconds, done.stdout


def least(program, words, folder, wanted, new=None):
    """The least seconds of three runs, each of which prints what is wanted. A file that is to be new is removed before each."""
    times = []
    for _ in range(3):
        if new and os.path.exists(os.path.join(folder, new)):
            os.remove(os.path.join(folder, new))
        seconds, printed = run([program, *words], folder)
        if printed != wanted:
            sys.exit(f"{' '.join(words)}: another report")
        times.append(seconds)
    print(f"  {' '.join(words):<44} {min(times):7.2f} s", flush=True)
    return min(times)


def syncs(program, words, folder):
    """How many syncs a command waits for, and the seconds of these."""
    trace = os.path.join(folder, "trace.txt")
    subprocess.run(
        ["strace", "-f", "-T", "-e", "trace=fsync,fdatasync", "-o", trace, program, *words],
        cwd=folder, stdout=subprocess.DEVNULL, check=False,
    )
    with open(trace, encoding="utf-8") as file:
        times = [float(it) for it in re.findall(r"sync.*<([0-9.]+)>$", file.read(), re.M)]
    return len(times), sum(times)


def main():
    program = os.path.abspath(sys.argv[1])
    functions = int(sys.argv[2]) if len(sys.argv) > 2 else 2000
    with tempfile.TemporaryDirectory() as folder:
        made(folder, "t.c", trial(functions))
        wanted = run([program, "alone", "t.c"], folder)[1]
        print(f"{functions} functions, {os.cpu_count()} processors")
        least(program, ["alone", "t.c"], folder, wanted)
        one = least(program, ["check", "--workers", "1", "t.c"], folder, wanted)
        four = least(program, ["check", "--workers", "4", "t.c"], folder, wanted)
        new = least(program, ["check", "--db", "t.db", "t.c"], folder, wanted, new="t.db")
        print(f"  a database of {os.path.getsize(os.path.join(folder, 't.db'))} bytes")
        finished = least(program, ["check", "--db", "t.db", "t.c"], folder, wanted)
        if shutil.which("strace"):
            os.remove(os.path.join(folder, "t.db"))
            count, seconds = syncs(program, ["check", "--db", "t.db", "t.c"], folder)
            print(f"  {count} syncs, {seconds:.2f} s")
    print(f"one worker to four {one / four:.2f}, a database takes {new - four:.2f} s more, a finished one {finished / new:.3f} of the time")


if __name__ == "__main__":
    main()
