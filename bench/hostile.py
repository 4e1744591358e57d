#!/usr/bin/env python3
"""Runs a program on hostile files, and says where it crashes, hangs, or ends in another way than it may.

`large` are the large sources of large_sources.py, or those that are named, each as NAME or NAME:SIZE, with the processor seconds and the
peak memory that each took. `cut` are the files each cut at so many places, `flip` the files with one to three bytes changed, so many
times. The statuses 0, 1, 3 and 8 are allowed, with 3 one fault line; a program gets 60 seconds of a processor and 4 GiB.
usage: bench/hostile.py PROGRAM large [NAME[:SIZE]...] | cut COUNT FILE... | flip COUNT FILE...
"""
import os
import random
import re
import resource
import subprocess
import sys
import tempfile

from large_sources import LARGE

SECONDS = 60
MEMORY = 4 * 2**30
FAULT = re.compile(rb"[^\n]+:\d+:\d+: (lex|syntax|unsupported|type|link|limit) \d+ [^\n]+\n")


def limits():
    resource.setrlimit(resource.RLIMIT_CPU, (SECONDS, SECONDS))
    resource.setrlimit(resource.RLIMIT_AS, (MEMORY, MEMORY))


def run(program, folder, source):
    """What is wrong with the run of the program on a source, the status, and what it took."""
    with open(os.path.join(folder, "t.c"), "wb") as file:
        file.write(source)
    out, err = os.path.join(folder, "out"), os.path.join(folder, "err")
    with open(out, "wb") as o, open(err, "wb") as e:
        child = subprocess.Popen([program, "alone", "t.c"], cwd=folder, stdout=o, stderr=e, preexec_fn=limits)
        _, status, usage = os.wait4(child.pid, 0)
    child.returncode = os.waitstatus_to_exitcode(status)
    with open(out, "rb") as o, open(err, "rb") as e:
        return wrong(child.returncode, o.read(), e.read()), child.returncode, usage


def wrong(status, output, complaint):
    if status not in (0, 1, 3, 8):
        return f"status {status}"
    if status == 3 and (output or not FAULT.fullmatch(complaint)):
        return f"no fault line: {complaint[:80]!r}"
    if status == 8 and (output or complaint != b"surveyor: no memory\n"):
        return f"not told: {complaint[:80]!r}"
    if status < 2 and (complaint or not output.rsplit(b"\n", 2)[-2].startswith(b"sites ")):
        return f"no report: {complaint[:80]!r}"
    return None


def large(program, folder, names):
    bad = 0
    for word in names or LARGE:
        name, _, size = word.partition(":")
        make, usual = LARGE[name]
        source = make(int(size or usual)).encode()
        fault, status, usage = run(program, folder, source)
        seconds = usage.ru_utime + usage.ru_stime
        told = fault or ""
        print(f"{word:<16} {len(source) / 2**20:6.2f} MiB {seconds:7.2f} s {usage.ru_maxrss / 2**10:6.0f} MiB status {status} {told}", flush=True)
        bad += fault is not None
    return bad


def changed(source, random_numbers):
    data = bytearray(source)
    for _ in range(random_numbers.randint(1, 3)):
        data[random_numbers.randrange(len(data))] = random_numbers.randrange(256)
    return bytes(data)


def cases(kind, count, files):
    """The sources by their names."""
    for name in files:
        with open(name, "rb") as file:
            source = file.read()
        for k in range(count):
            if kind == "cut":
                at = k * len(source) // count
                yield f"{name} cut at {at}", source[:at]
            else:
                yield f"{name} changed by {k}", changed(source, random.Random(f"{os.path.basename(name)} {k}"))


def many(program, folder, all_cases):
    bad, statuses = 0, {}
    for name, source in all_cases:
        fault, status, _ = run(program, folder, source)
        statuses[status] = statuses.get(status, 0) + 1
        if fault:
            bad += 1
            print(f"{name}: {fault}", flush=True)
        if sum(statuses.values()) % 500 == 0:
            tell(statuses)
    tell(statuses)
    return bad


def tell(statuses):
    print("cases by status: " + ", ".join(f"{status}: {statuses[status]}" for status in sorted(statuses)), flush=True)


def main():
    program, kind, words = os.path.abspath(sys.argv[1]), sys.argv[2], sys.argv[3:]
    with tempfile.TemporaryDirectory() as folder:
        if kind == "large":
            bad = large(program, folder, words)
        else:
            bad = many(program, folder, cases(kind, int(words[0]), words[1:]))
    sys.exit(1 if bad else 0)


if __name__ == "__main__":
    main()
