"""What the scripts that time a program beside gcc share: the source, a measured command, and gcc on the same source."""
import os
import shutil
import tempfile
import time

SOURCE = "t.c"


def write(folder, text):
    """Writes the source, and gives its length in bytes."""
    name = os.path.join(folder, SOURCE)
    with open(name, "w", encoding="ascii") as file:
        file.write(text)
    return os.path.getsize(name)


def measure(words, folder, output=os.devnull):
    """Seconds, peak memory in bytes and status of a command in a folder, whose output goes to a file there."""
    begin = time.perf_counter()
    child = os.fork()
    if child == 0:
        os.chdir(folder)
        os.dup2(os.open(output, os.O_WRONLY | os.O_CREAT | os.O_TRUNC), 1)
        os.execvp(words[0], words)
    _, status, usage = os.wait4(child, 0)
    return time.perf_counter() - begin, usage.ru_maxrss * 1024, os.waitstatus_to_exitcode(status)


def gcc(folder):
    """The least of three measures of gcc, which checks the source, or none where there is no gcc."""
    if shutil.which("gcc") is None:
        return None
    words = ["gcc", "-std=c99", "-m32", "-fsyntax-only", SOURCE]
    return min(measure(words, folder) for _ in range(3))


def compare(text, own):
    """The length of a source, what is measured of it in a folder of its own, and the measure of gcc."""
    with tempfile.TemporaryDirectory() as folder:
        return write(folder, text), own(folder), gcc(folder)


def row(name, measured):
    print(f"{name:<9} {measured[0]:.2f} s, {measured[1] / 2**20:.0f} MiB, status {measured[2]}")


def tell(name, own, peer):
    """Prints the measure of a program, that of gcc, and their ratios."""
    row(name, own)
    if peer is None:
        print("gcc       not there")
        return
    row("gcc", peer)
    print(f"ratio     {own[0] / peer[0]:.2f} of the time, {own[1] / peer[1]:.2f} of the memory")
