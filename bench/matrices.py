#!/usr/bin/env python3
"""Times the closure of difference-bound matrices: in full, and after one bound.

Prints nanoseconds a call at 2, 4, 8 and 16 variables, and how many times faster one bound is. The program is built
first where it is missing. usage: bench/matrices.py
"""
import os
import subprocess
import time

TOP = os.path.dirname(os.path.dirname(os.path.abspath(__file__)))
CRATE = os.path.join(TOP, "crates", "measure")
PROGRAM = os.path.join(CRATE, "out", "measure")


def seconds(operation, size, count):
    """The least time of three runs."""
    words = [PROGRAM, "matrices", operation, str(size), str(count)]
    times = []
    for _ in range(3):
        begin = time.perf_counter()
        subprocess.run(words, check=True, stdout=subprocess.DEVNULL)
        times.append(time.perf_counter() - begin)
    return min(times)


def nanoseconds(operation, size):
    """Of one call, without the start of the program; the count is raised until the calls take half a second."""
    count = 1000
    while True:
        taken = seconds(operation, size, count) - seconds(operation, size, 0)
        if taken > 0.5:
            return taken / count * 1e9
        count *= 4


def main():
    if not os.path.exists(PROGRAM):
        subprocess.run(["rt", "run", "--", "matrices", "close", "2", "0"], cwd=CRATE, check=True, stdout=subprocess.DEVNULL)
    print("variables   close ns   tighten ns   ratio")
    for size in (2, 4, 8, 16):
        close, tighten = nanoseconds("close", size), nanoseconds("tighten", size)
        print(f"{size:9}   {close:8.0f}   {tighten:10.0f}   {close / tighten:5.1f}")


if __name__ == "__main__":
    main()
