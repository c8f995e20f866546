#!/usr/bin/env python3
"""Builds each text of families.py once, and prints the slowest: slowest.py PROGRAM COUNT."""

import os
import resource
import subprocess
import sys
import tempfile

sys.dont_write_bytecode = True
from families import DEEPEST, FAMILIES


def seconds(program, text):
    """Returns the processor time that the program takes for a text."""
    with open("t.plm", "w", encoding="latin-1") as it:
        it.write(text)
    before = resource.getrusage(resource.RUSAGE_CHILDREN)
    subprocess.run([program, "build", "-r", "64", "-o", "t.rom", "t.plm"], capture_output=True)
    after = resource.getrusage(resource.RUSAGE_CHILDREN)
    return after.ru_utime + after.ru_stime - before.ru_utime - before.ru_stime


def main(program, count):
    program = os.path.realpath(program)
    with tempfile.TemporaryDirectory() as folder:
        os.chdir(folder)
        taken = [(seconds(program, maker()), name) for name, maker in FAMILIES.items()]
        taken += [(seconds(program, text), name) for name, text in DEEPEST.items()]
        os.chdir("/")
    for time, name in sorted(taken, reverse=True)[:count]:
        print(f"{name:40} {time:.2f} s")


if __name__ == "__main__":
    main(sys.argv[1], int(sys.argv[2]))
