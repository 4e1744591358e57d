#!/usr/bin/env python3
"""Times surveyor on a file of the accepted form near the greatest length, beside gcc on the same file.

Prints seconds and peak memory of both and their ratio. Without gcc, surveyor alone is timed.
usage: bench/first_form.py [BYTES]
"""
import os
import sys

from beside_gcc import SOURCE, compare, measure, tell

TOP = os.path.dirname(os.path.dirname(os.path.abspath(__file__)))
LIMIT = 16_777_216


def source(length):
    """A file of at most this many bytes: half of it arrays, half of it stores."""
    arrays, stores, size, number = [], [], 0, 0
    end = "return 0;\n}\n"
    head = "int main(void){\n"
    while True:
        array = f"int a{number}[{number % 97 + 1}];\n"
        store = f" a{number}[{number % 97}]={number};\n"
        size += len(array) + len(store)
        if size + len(head) + len(end) > length:
            return "".join(arrays) + head + "".join(stores) + end
        arrays.append(array)
        stores.append(store)
        number += 1


def surveyor(folder):
    """The least of three measures of surveyor, which is built before them."""
    program = os.path.join(TOP, "surveyor")
    measure([program, "alone", "absent.c"], folder)
    return min(measure([program, "alone", SOURCE], folder) for _ in range(3))


def main():
    length = int(sys.argv[1]) if len(sys.argv) > 1 else LIMIT
    size, own, peer = compare(source(length), surveyor)
    print(f"file      {size} bytes")
    tell("surveyor", own, peer)


if __name__ == "__main__":
    main()
