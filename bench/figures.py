#!/usr/bin/env python3
"""Prints what the program's commands cost, and how large the code is that it makes, as a table: figures.py PROGRAM [--write].

The rows are those of counted.py, which tests/counts compares with its limits, and those of `bench/run size`. --write puts the table into README.md, where
it begins at its head and ends with the last line that begins with `|`."""

import itertools
import os
import re
import subprocess
import sys
from pathlib import Path

sys.dont_write_bytecode = True
import counted

HERE = Path(os.path.realpath(__file__)).parent
PAGE = HERE / "README.md"
HEAD = "| Command | What it measures | Figure |\n|---|---|---|\n"


def digits(figure):
    """Returns a number with four digits that count."""
    return f"{figure:,.0f}" if figure >= 1000 else f"{figure:.4g}"


def costs(program):
    """Yields a line for each row of counted.py. Of a row without a figure it says why."""
    if not counted.is_there():
        sys.exit("figures: valgrind is not installed")
    for row, figure in counted.measured(program).items():
        words = figure if isinstance(figure, str) else f"{digits(figure)} {row.unit}"
        yield f"| `{row.name}` | {row.what} | {words} |\n"


def sizes(program):
    """Yields a line for each controller: bytes of its code, and of its twin in C."""
    ran = subprocess.run([HERE / "run", "size"], env={**os.environ, "PROGRAM": program}, capture_output=True, text=True, check=True)
    for name, ours, theirs in re.findall(r"^(\w+) +(\d+) +(\d+)$", ran.stdout, re.M):
        what = "the seven controllers" if name == "sum" else f"the controller `{name}`"
        yield f"| `bench/run size` | code and constants of {what} | {int(ours):,} bytes; {int(theirs):,} of its twin in C |\n"


def main(program, is_writing):
    table = HEAD + "".join([*costs(program), *sizes(program)])
    if not is_writing:
        print(table, end="")
        return
    before, head, rest = PAGE.read_text().partition(HEAD)
    if not head:
        sys.exit(f"figures: {PAGE} has no table with this head: {HEAD.splitlines()[0]}")
    behind = itertools.dropwhile(lambda line: line.startswith("|"), rest.splitlines(keepends=True))
    PAGE.write_text(before + table + "".join(behind))


if __name__ == "__main__":
    main(os.path.realpath(sys.argv[1]), "--write" in sys.argv[2:])
