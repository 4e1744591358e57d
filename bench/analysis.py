#!/usr/bin/env python3
"""Times a program of surveyor on sources that are to be fast, beside gcc and, where they are there, cppcheck and frama-c.

- the trial source of 2,000 functions, all subscripts inside their arrays: a tenth of Frama-C's time and memory at most
- that of twice as many: it may take 2.2 times as long
- a function of 1,500 statements and 400 variables: less than a second
- FILE, real C that was preprocessed, which may take any time

Times are processor seconds, so that other load on the machine counts little, and the least of three runs.
usage: bench/analysis.py PROGRAM [FILE]
"""
import os
import shutil
import subprocess
import sys
import tempfile

from large_sources import one_function

PEERS = [
    ["gcc", "-std=c99", "-fsyntax-only", "-w"],
    ["cppcheck", "--quiet", "--enable=warning"],
    ["frama-c", "-machdep", "x86_32", "-eva", "-eva-no-print"],
]


def trial(functions, reduced=False):
    """The source that `surveyor trial 1 FUNCTIONS` checks, or the same with each constant subscript reduced into its array."""
    number, out, calls = 1, [], []
    for k in range(functions):
        number = (1664525 * number + 1013904223) % 2**32
        size = 2 + number // 65536 % 30
        at = number // 256 % (size if reduced else size + 1)
        out.append(
            f"static int b{k}[{size}];\nint f{k}(int n){{\n int i;\n"
            f" for(i=0;i<{size};i++) b{k}[i]=n+i;\n return b{k}[{at}];\n}}\n"
        )
        calls.append(f" r=f{k}(r&255);\n")
    return "".join(out) + "int main(void){\n int r=0;\n" + "".join(calls) + " return 0;\n}\n"


def once(words, name):
    """Processor seconds, megabytes at the peak, and status of a command on a file."""
    quiet = subprocess.DEVNULL
    child = subprocess.Popen(words + [os.path.basename(name)], cwd=os.path.dirname(name), stdout=quiet, stderr=quiet)
    _, status, usage = os.wait4(child.pid, 0)
    child.returncode = os.waitstatus_to_exitcode(status)
    return usage.ru_utime + usage.ru_stime, usage.ru_maxrss / 1024, child.returncode


def tell(words, name):
    """Prints the measure of a command on a file, and gives its seconds and megabytes."""
    seconds, megabytes, status = min(once(words, name) for _ in range(3))
    print(f"  {os.path.basename(words[0]):<10} {seconds:7.2f} s {megabytes:7.1f} MB, status {status}", flush=True)
    return seconds, megabytes


def compare(program, title, name):
    """Seconds of the program on a file, told beside those of the peers."""
    print(f"{title}: {os.path.getsize(name)} bytes")
    own = tell([program, "alone"], name)
    for words in PEERS:
        if shutil.which(words[0]):
            other = tell(words, name)
            print(f"    of its time {own[0] / other[0]:.3f}, of its memory {own[1] / other[1]:.3f}")
    return own[0]


def made(folder, name, text):
    path = os.path.join(folder, name)
    with open(path, "w", encoding="ascii") as file:
        file.write(text)
    return path


def main():
    program = os.path.abspath(sys.argv[1])
    with tempfile.TemporaryDirectory() as folder:
        one = compare(program, "2,000 functions", made(folder, "one.c", trial(2000, True)))
        two = compare(program, "4,000 functions", made(folder, "two.c", trial(4000, True)))
        print(f"ratio {two / one:.2f}, at most 2.2")
        alone = compare(program, "one function", made(folder, "function.c", one_function(1500)))
        print("less than a second" if alone < 1 else "more than a second")
        for name in sys.argv[2:]:
            compare(program, "real C", os.path.abspath(name))
    sys.exit(0 if two <= 2.2 * one and alone < 1 else 1)


if __name__ == "__main__":
    main()
