#!/usr/bin/env python3
"""Times the journal on a real file: appending with syncs, and reading at opening.

Prints the load of the machine; records a second appended, beside the same two writes and two syncs a record without a
journal; and megabytes a second read when a journal of 1 GB is opened and all its records are read, beside `cat` on the
same file. Each file is read once before it is timed. The program is built first where it is missing.
usage: bench/journal.py [FOLDER] [BYTES]
"""
import os
import subprocess
import sys
import tempfile
import time

TOP = os.path.dirname(os.path.dirname(os.path.abspath(__file__)))
CRATE = os.path.join(TOP, "crates", "measure")
PROGRAM = os.path.join(CRATE, "out", "measure")
RECORDS = 500
BODY = 64


def seconds(words):
    """Of a command whose output is dropped."""
    begin = time.perf_counter()
    subprocess.run(words, check=True, stdout=subprocess.DEVNULL)
    return time.perf_counter() - begin


def bare_syncs(name):
    """Seconds for the writes and syncs of so many records, without a journal."""
    file = os.open(name, os.O_RDWR | os.O_CREAT)
    begin = time.perf_counter()
    for number in range(RECORDS):
        at = 40 + number * (BODY + 13)
        os.pwrite(file, bytes(BODY + 13), at + 1)
        os.fsync(file)
        os.pwrite(file, b"\1", at)
        os.fsync(file)
    taken = time.perf_counter() - begin
    os.close(file)
    return taken


def write_journal(name, size, body):
    """A journal of about so many bytes, of records with bodies of so many bytes. Returns how many."""
    record = b"\1" + bytes(8) + body.to_bytes(4, "big") + bytes(body)
    at_once = max(1, 4_000_000 // len(record))
    count = size // len(record) // at_once * at_once
    with open(name, "wb") as file:
        file.write(b"\1CGSURV2" + bytes([7] * 32))
        for _ in range(count // at_once):
            file.write(record * at_once)
        file.write(b"\0")
    return count


def append_rates(work):
    """Records a second that the journal appends, without the start of the program, and that bare calls write."""
    name = os.path.join(work, "a.db")
    seconds([PROGRAM, "journal", "append", name, "0", str(BODY)])
    start = seconds([PROGRAM, "journal", "append", name, "0", str(BODY)])
    own = seconds([PROGRAM, "journal", "append", name, str(RECORDS), str(BODY)]) - start
    return RECORDS / own, RECORDS / bare_syncs(os.path.join(work, "bare"))


def open_rates(name, size, body):
    """How many records there are, and megabytes a second that the journal and `cat` read: the best of three each."""
    count = write_journal(name, size, body)
    megabytes = os.path.getsize(name) / 1e6
    seconds(["cat", name])
    own = min(seconds([PROGRAM, "journal", "read", name]) for _ in range(3))
    peer = min(seconds(["cat", name]) for _ in range(3))
    os.remove(name)
    return count, megabytes / own, megabytes / peer


def main():
    folder = sys.argv[1] if len(sys.argv) > 1 else None
    size = int(sys.argv[2]) if len(sys.argv) > 2 else 1_000_000_000
    print(f"load      {os.getloadavg()[0]:.0f} on {os.cpu_count()} processors")
    with tempfile.TemporaryDirectory(dir=folder) as work:
        if not os.path.exists(PROGRAM):
            words = ["rt", "run", "--", "journal", "read", os.path.join(work, "first.db")]
            subprocess.run(words, cwd=CRATE, check=True, stdout=subprocess.DEVNULL)
        own, bare = append_rates(work)
        print(f"append    {own:6.0f} records/s   bare {bare:6.0f} records/s   ratio {own / bare:.2f}")
        for body in (50, 1_000, 60_000):
            count, own, peer = open_rates(os.path.join(work, "b.db"), size, body)
            print(f"open      {count} bodies of {body} bytes   {own:.0f} MB/s   cat {peer:.0f} MB/s   ratio {own / peer:.2f}")


if __name__ == "__main__":
    main()
