#!/usr/bin/env python3
"""Times the points-to solver beside a plain one in C++ over hash sets (bench/points_to.cpp, built by g++ -O2).

Both solve the same files and have to find the same sets, which a checksum tells. Prints for each file the nodes, the
constraints, the members in all sets, seconds of solving alone (the least of three runs), nanoseconds for each member and
constraint, and the ratio to the plain solver. The shapes are named in `SHAPES`; random ones are the same in every run.
The program is built first where it is missing. usage: bench/points_to.py [SHAPE..]
"""
import os
import random
import subprocess
import sys
import tempfile

TOP = os.path.dirname(os.path.dirname(os.path.abspath(__file__)))
CRATE = os.path.join(TOP, "crates", "measure")
PROGRAM = os.path.join(CRATE, "out", "measure")
ADDRESS, COPY, LOAD, STORE = 1, 2, 3, 4


def chain(nodes):
    """One member at the end goes to all nodes."""
    copies = [(COPY, node, node + 1) for node in range(nodes - 1)]
    return nodes, 0, [(ADDRESS, nodes - 1, 3)] + copies


def long_chain(nodes, apart):
    """Each node has a member of its own, and hands it to all nodes below: each set grows by one member at a time."""
    own = [(ADDRESS, node, node * apart) for node in range(nodes)]
    return nodes, 0, own + [(COPY, node, node + 1) for node in range(nodes - 1)]


def star(nodes, members):
    """One node takes a member from each of the others."""
    rays = range(1, nodes)
    return nodes, 0, [(ADDRESS, ray, member) for ray, member in zip(rays, members)] + [(COPY, 0, ray) for ray in rays]


def shuffled(members):
    """The members in no order."""
    return random.Random(4).sample(members, len(members))


def sun(nodes, members):
    """One node hands its members to each of the others."""
    own = [(ADDRESS, 0, member) for member in range(members)]
    return nodes, 0, own + [(COPY, ray, 0) for ray in range(1, nodes)]


def mixed(chance, registers, regions, counts, near):
    """So many constraints of each rule; the target and the source of each are from a run of `near` registers, and a member is
    from the same part of the region classes."""
    constraints = []
    for rule, count in zip((ADDRESS, COPY, LOAD, STORE), counts):
        for _ in range(count):
            first = chance.randrange(registers // near) * near
            target, source = first + chance.randrange(near), first + chance.randrange(near)
            if rule == ADDRESS:
                source = chance.randrange(first * regions // registers, (first + near) * regions // registers)
            constraints.append((rule, target, source))
    chance.shuffle(constraints)
    return registers, regions, constraints


def sparse():
    """Sets stay small though any two nodes may be joined: each node has less than one edge."""
    return mixed(random.Random(1), 60_000, 40_000, (285_000, 11_000, 2_000, 2_000), 60_000)


def grouped():
    """As of a program: registers meet those of their own function, of 40 registers with 10 region classes."""
    return mixed(random.Random(2), 80_000, 20_000, (60_000, 160_000, 40_000, 40_000), 40)


def dense():
    """Most nodes stand on common circles, and have all of a few members."""
    return mixed(random.Random(3), 99_936, 64, (100_000, 200_000, 0, 0), 99_936)


SHAPES = {
    "chain of 2,000": lambda: chain(2_000),
    "chain of 100,000": lambda: chain(100_000),
    "long chain of 2,000": lambda: long_chain(2_000, 1),
    "long chain, members apart": lambda: long_chain(2_000, 64),
    "star of 100,000": lambda: star(100_000, range(1, 100_000)),
    "star, members apart": lambda: star(100_000, range(64, 6_400_000, 64)),
    "star, apart, in no order": lambda: star(100_000, shuffled(range(64, 6_400_000, 64))),
    "sun of 10,000": lambda: sun(10_000, 1_000),
    "random, sparse": sparse,
    "random, grouped": grouped,
    "random, dense": dense,
}


def solved(program, file):
    """Of the least of three runs: seconds, and the words on the answer."""
    runs = []
    for _ in range(3):
        words = subprocess.run([*program, file], check=True, capture_output=True, text=True).stdout.split()
        runs.append((float(words[1]), words[2:]))
    return min(runs)


def measure(name, folder, peer):
    registers, regions, constraints = SHAPES[name]()
    with open(os.path.join(folder, "input"), "w", encoding="ascii") as file:
        file.write(f"{registers} {regions}\n")
        file.writelines(f"{rule} {target} {source} 0\n" for rule, target, source in constraints)
    taken, answer = solved([PROGRAM, "points", "time"], file.name)
    plain, other = solved([peer], file.name)
    if answer != other:
        sys.exit(f"{name}: {' '.join(answer)}, but the plain solver has {' '.join(other)}")
    nodes, count, members = int(answer[1]), int(answer[3]), int(answer[5])
    each = taken / (count + members) * 1e9
    print(f"{name:26} {nodes:7} {count:11} {members:9} {taken:9.4f} {plain:9.4f} {each:9.0f} {taken / plain:7.2f}", flush=True)


def main():
    if not os.path.exists(PROGRAM):
        subprocess.run(["rt", "run", "--", "points", "list", "data/circle"], cwd=CRATE, check=True, stdout=subprocess.DEVNULL)
    with tempfile.TemporaryDirectory() as folder:
        peer = os.path.join(folder, "peer")
        source = os.path.join(TOP, "bench", "points_to.cpp")
        subprocess.run(["g++", "-O2", "-o", peer, source], check=True)
        print(f"load {os.getloadavg()[0]:.0f} on {os.cpu_count()} processors")
        print("shape                        nodes constraints   members   seconds     plain   ns each   ratio")
        for name in sys.argv[1:] or SHAPES:
            measure(name, folder, peer)


if __name__ == "__main__":
    main()
