#!/usr/bin/env python3
"""Times the lexer on a preprocessed source near the greatest length, beside gcc on the same file.

The source repeats units as a preprocessor leaves them: line markers, declarations, tables and functions, with names of
their own in each unit. Prints seconds for cutting it into tokens, as the program measures them, the memory for a token
(the size of `Token`, and the peak without the bytes of the source divided by the number of tokens), and seconds and peak
memory of the whole program and of gcc, which checks the file, with their ratios: below a fifth of the time is wanted.
Each is the least of three runs. Without gcc, the lexer alone is timed. The program is built first where it is missing.
usage: bench/tokens.py [BYTES]
"""
import os
import subprocess
import sys

from beside_gcc import SOURCE, compare, measure, tell

TOP = os.path.dirname(os.path.dirname(os.path.abspath(__file__)))
CRATE = os.path.join(TOP, "crates", "measure")
PROGRAM = os.path.join(CRATE, "out", "measure")
LIMIT = 16_777_216
# Names of basic types stand in one place: gcc takes time by the square of their number.
HEAD = """\
# 1 "include/types.h"
typedef unsigned char byte;
typedef unsigned int counter;
"""
UNIT = """\
# 1 "module_@.c"
# 1 "include/module_@.h" 1
enum state_@ { STATE_IDLE_@, STATE_ARMED_@ = 0x10, STATE_FIRED_@, STATE_COUNT_@ };
struct sample_@ {
    counter time;
    short value[8];
    byte flags;
    struct sample_@ *next;
};
extern volatile unsigned int port_@[16];
extern int limit_value_@(int value, int low, int high);
# 3 "module_@.c" 2

static struct sample_@ samples_@[64];
static const unsigned short checksums_@[16] = {
    0x0000, 0x1021, 0x2042, 0x3063, 0x4084, 0x50a5, 0x60c6, 0x70e7,
    0x8108, 0x9129, 0xa14a, 0xb16b, 0xc18c, 0xd1ad, 0xe1ce, 0xf1efu
};
static const char *const state_names_@[] = { "idle", "armed", "fired\\n" };
static unsigned long total_@;

int limit_value_@(int value, int low, int high)
{
    if (value < low)
        return low;
    return value > high ? high : value;
}

static unsigned short checksum_@(const byte *bytes, counter length)
{
    unsigned short sum = 0xFFFF;
    counter i;

    for (i = 0; i < length; i++) {
        sum = (unsigned short)((sum << 4) ^ checksums_@[((sum >> 12) ^ (bytes[i] >> 4)) & 0xf]);
        sum = (unsigned short)((sum << 4) ^ checksums_@[((sum >> 12) ^ bytes[i]) & 0xf]);
    }
    return sum;
}
# 47 "module_@.c"
int filter_@(struct sample_@ *from, int count)
{
    int index, kept = 0;

    for (index = 0; index < count && index < 64; ++index) {
        struct sample_@ *sample = &samples_@[index];
        int column = 0;

        *sample = from[index];
        while (column < 8) {
            sample->value[column] = (short)limit_value_@(from[index].value[column], -1000, 1000);
            total_@ += (unsigned long)sample->value[column++];
        }
        if ((sample->flags & (1u << 3)) != 0 || sample->time == 0) {
            continue;
        }
        switch (sample->flags % STATE_COUNT_@) {
        case STATE_IDLE_@:
            sample->next = 0;
            break;
        case STATE_ARMED_@:
            sample->next = &samples_@[(index + 1) % 64];
            break;
        default:
            port_@[index & 15] |= checksum_@((const byte *)sample, sizeof *sample);
        }
        kept += sample->next != 0 && state_names_@[0][0] == 'i';
    }
    return kept;
}
"""


def source(length):
    """A file of at most this many bytes."""
    parts, size, number = [HEAD], len(HEAD), 0
    while True:
        unit = UNIT.replace("@", str(number))
        size += len(unit)
        if size > length:
            return "".join(parts)
        parts.append(unit)
        number += 1


def cut(folder):
    """Of one run: its measure, seconds of cutting alone, tokens, and bytes of a `Token`."""
    measured = measure([PROGRAM, "tokens", "time", SOURCE], folder, "output")
    if measured[2] != 0:
        sys.exit(f"{PROGRAM} ended with status {measured[2]}")
    with open(os.path.join(folder, "output"), encoding="ascii") as file:
        words = file.read().split()
    return measured, float(words[1]), int(words[3]), int(words[5])


def lexer(folder):
    """The least of three runs of the program, which is built first where it is missing."""
    if not os.path.exists(PROGRAM):
        words = ["rt", "run", "--", "tokens", "list", "data/small.c", "100"]
        subprocess.run(words, cwd=CRATE, check=True, stdout=subprocess.DEVNULL)
    return min(cut(folder) for _ in range(3))


def main():
    length = int(sys.argv[1]) if len(sys.argv) > 1 else LIMIT
    size, (own, cutting, tokens, layout), peer = compare(source(length), lexer)
    print(f"load      {os.getloadavg()[0]:.0f} on {os.cpu_count()} processors")
    print(f"file      {size} bytes, {tokens} tokens")
    print(f"cutting   {cutting:.2f} s, {cutting / size * 1e9:.1f} ns a byte")
    print(f"memory    {layout} bytes in a token, {(own[1] - size) / tokens:.1f} bytes at the peak for each")
    tell("lexer", own, peer)


if __name__ == "__main__":
    main()
