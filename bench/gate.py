#!/usr/bin/env python3
"""Runs the gate and tells what each crate costs in processor minutes: its proof, its tests, its edits.

Every second the processor time of each process of the run is read, with that of its children, and put down to the crate
that its command line names; what none names (reading, linking, running programs and tests) is the rest. With no names
the gate runs from nothing, and each crate is measured. With names it is `rt ci NAME..`, and only what that run proves or
tries is measured: rows of crates that it proved take the place of those in docs/GATE.md, which stand otherwise. Prints the
table by crate, the longest chain of crates and the budget; with --write it replaces the measured part of docs/GATE.md. What
`rt ci` says goes to the file LOG. The status is that of `rt ci`.
usage: bench/gate.py [--write] [--log LOG] [NAME..]
"""
import argparse
import os
import subprocess
import time

TOP = os.path.dirname(os.path.dirname(os.path.abspath(__file__)))
TICKS = os.sysconf("SC_CLK_TCK")
KINDS = ("proof", "tests", "edits", "program")
BEGIN, END = "<!-- measured: written by bench/gate.py -->", "<!-- end -->"
MOST_MINUTES, MOST_OF_A_CRATE, MOST_OF_A_CHAIN = 320, 12, 60


def processes():
    """Of each process: its parent, its processor seconds with those of the children that it has waited for, and its start."""
    found = {}
    for name in os.listdir("/proc"):
        if not name.isdigit():
            continue
        try:
            with open(f"/proc/{name}/stat", encoding="utf-8", errors="replace") as file:
                fields = file.read().rpartition(")")[2].split()
        except OSError:
            continue
        found[int(name)] = int(fields[1]), sum(map(int, fields[11:15])) / TICKS, fields[19]
    return found


def job_of(pid):
    """The crate and the kind of work that a process of the checker does, or none."""
    try:
        with open(f"/proc/{pid}/cmdline", "rb") as file:
            words = file.read().decode(errors="replace").split("\0")
        folder = os.readlink(f"/proc/{pid}/cwd")
    except OSError:
        return None
    if os.path.basename(words[0]) != "rattle" or "--crate-name" not in words:
        return None
    crate = words[words.index("--crate-name") + 1]
    if "rt-edit-" in folder:
        return crate, "edits"
    if "--test" in words:
        return crate, "tests"
    return crate, "program" if "--crate-checked" in words else "proof"


def below(pid, children):
    for child in children.get(pid, ()):
        yield child
        yield from below(child, children)


class Sampler:
    """The processor seconds of each job of the run that a process began."""

    def __init__(self, root):
        self.root = root
        self.jobs = {}
        self.seconds = {}

    def sample(self):
        found = processes()
        children = {}
        for pid, (parent, _, _) in found.items():
            children.setdefault(parent, []).append(pid)
        self.look_below(self.root, found, children)

    def look_below(self, pid, found, children):
        """Counts the jobs below a process, each with all that it began."""
        for child in children.get(pid, ()):
            key = child, found[child][2]
            if self.jobs.get(key) is None:
                self.jobs[key] = job_of(child)
            if self.jobs[key] is None:
                self.look_below(child, found, children)
            else:
                taken = found[child][1] + sum(found[it][1] for it in below(child, children))
                self.seconds[key] = max(taken, self.seconds.get(key, 0))

    def minutes(self):
        """By crate, and by kind of work."""
        table = {}
        for key, seconds in self.seconds.items():
            crate, kind = self.jobs[key]
            row = table.setdefault(crate, dict.fromkeys(KINDS, 0.0))
            row[kind] += seconds / 60
        return table


def run(folder, names, log):
    """Runs the gate. Returns its status, the minutes by crate, what is put down to none, and those on the clock."""
    begin = time.time()
    with open(log, "w", encoding="utf-8") as out:
        child = subprocess.Popen(["rt", "ci", *(names or ["--anew"])], cwd=folder, stdout=out, stderr=subprocess.STDOUT)
        sampler = Sampler(child.pid)
        while True:
            done, status, usage = os.wait4(child.pid, os.WNOHANG)
            if done:
                break
            sampler.sample()
            time.sleep(1)
    minutes = sampler.minutes()
    rest = (usage.ru_utime + usage.ru_stime) / 60 - sum(sum(row.values()) for row in minutes.values())
    return os.waitstatus_to_exitcode(status), minutes, rest, (time.time() - begin) / 60


def libraries(folder):
    """The crates of the repository, each with those that it names."""
    named = {}
    with open(os.path.join(folder, "crates.txt"), encoding="utf-8") as file:
        for line in file:
            name, colon, rest = line.partition("#")[0].partition(":")
            if colon:
                named[name.split()[0]] = rest.split()
    return {name: [it for it in rest if it in named] for name, rest in named.items()}


def chain(named, minutes):
    """The chain of crates whose proofs, with tests and edits of the last, take longest, and its minutes."""
    longest = {}

    def proofs(name):
        if name not in longest:
            before = max((proofs(it) for it in named[name]), default=(0.0, []))
            longest[name] = before[0] + minutes[name]["proof"], [*before[1], name]
        return longest[name]

    ends = []
    for name in named:
        taken, names = proofs(name)
        row = minutes[name]
        ends.append((taken - row["proof"] + max(row["proof"], row["tests"]) + row["edits"], names))
    return max(ends)


def edits(folder, name):
    place = os.path.join(folder, "crates", name, "must-fail")
    return sum(it.endswith(".edit") for it in os.listdir(place)) if os.path.isdir(place) else 0


def measured_before(folder):
    """The rows of docs/GATE.md: what each crate cost when it was last measured."""
    rows = {}
    with open(os.path.join(folder, "docs", "GATE.md"), encoding="utf-8") as file:
        for line in file:
            cells = [it.strip() for it in line.strip().strip("|").split("|")]
            if len(cells) == 5 and cells[1].replace(".", "").isdigit():
                proof, tests, edited = (float(it.split()[0]) if it != "-" else 0.0 for it in cells[2:])
                rows[cells[0]] = dict.fromkeys(KINDS, 0.0) | {"proof": proof, "tests": tests, "edits": edited}
    return rows


def cell(minutes, count=None):
    if minutes < 0.05 and not count:
        return "-"
    return f"{minutes:.1f}" + (f" ({count})" if count else "")


def table(folder, minutes):
    yield "| crate | processor minutes | proof | tests | edits (how many) |"
    yield "|---|---|---|---|---|"
    for name, row in sorted(minutes.items(), key=lambda it: -sum(it[1].values())):
        parts = cell(row["proof"] + row["program"]), cell(row["tests"]), cell(row["edits"], edits(folder, name))
        yield f"| {name} | {sum(row.values()):.1f} | {' | '.join(parts)} |"


def told(folder, minutes, rest):
    """The lines of the measured part."""
    named = libraries(folder)
    minutes = {name: minutes.get(name, dict.fromkeys(KINDS, 0.0)) for name in named}
    sums = {kind: sum(row[kind] for row in minutes.values()) for kind in KINDS}
    total = sum(sums.values()) + rest
    taken, names = chain(named, minutes)
    dearest = max(minutes, key=lambda it: sum(minutes[it].values()))
    version = subprocess.run(["rt", "version"], capture_output=True, text=True, check=True).stdout.strip()
    count = sum(edits(folder, name) for name in named)
    yield f"{len(named)} crates and {count} edits, with `{version}`, on {os.cpu_count()} processors: {total:.0f} processor minutes."
    yield f"Proofs {sums['proof']:.0f}, tests {sums['tests']:.0f}, edits {sums['edits']:.0f}, programs {sums['program']:.1f}, the rest {rest:.1f}."
    yield ""
    yield "| | measured | budget |"
    yield "|---|---|---|"
    yield f"| all | {total:.0f} | {MOST_MINUTES} |"
    yield f"| dearest crate, {dearest} | {sum(minutes[dearest].values()):.1f} | {MOST_OF_A_CRATE} |"
    yield f"| longest chain | {taken:.1f} | {MOST_OF_A_CHAIN} |"
    yield ""
    yield f"The longest chain: {', '.join(names)}."
    yield ""
    yield from table(folder, minutes)


def write(folder, lines):
    """Puts the lines in the place of the measured part of docs/GATE.md."""
    name = os.path.join(folder, "docs", "GATE.md")
    with open(name, encoding="utf-8") as file:
        before, rest = file.read().split(BEGIN)
    with open(name, "w", encoding="utf-8") as file:
        file.write(before + "\n".join([BEGIN, "", *lines, "", END]) + rest.split(END)[1])


def main():
    words = argparse.ArgumentParser()
    words.add_argument("--write", action="store_true")
    words.add_argument("--log", default="/dev/null")
    words.add_argument("names", nargs="*")
    given = words.parse_args()
    status, minutes, rest, clock = run(TOP, given.names, os.path.abspath(given.log))
    proved = {name: row for name, row in minutes.items() if row["proof"] + row["tests"] + row["program"] > 0}
    lines = list(told(TOP, (measured_before(TOP) | proved) if given.names else minutes, rest))
    print("\n".join(lines), f"\n\n{clock:.0f} minutes on the clock{'' if status == 0 else '; NOT PASSED'}.")
    if given.write:
        write(TOP, lines)
    raise SystemExit(status)


if __name__ == "__main__":
    main()
