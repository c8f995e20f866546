"""What the scripts of this folder share: how a row is judged whatever the program does, and what is printed of all rows."""

import os
import subprocess
import sys
import traceback
from pathlib import Path


def words_of(fault):
    """Returns words of a fault that came up while a row was judged: how the program ended, or where the script did not find what it looked for."""
    if isinstance(fault, subprocess.CalledProcessError):
        command = " ".join([os.path.basename(os.fspath(fault.cmd[0])), *map(os.fspath, fault.cmd[1:])])
        said = fault.stderr or b""
        lines = (said.decode("utf-8", "replace") if isinstance(said, bytes) else said).splitlines()
        return f"`{command}` ended with status {fault.returncode}{': ' if lines else ''}{lines[0] if lines else ''}"
    frames = traceback.extract_tb(fault.__traceback__)
    place = [frame for frame in frames if Path(frame.filename).resolve().parent == Path(__file__).resolve().parent][-1]
    return f"what the program gave cannot be judged: {type(fault).__name__}: {fault} ({os.path.basename(place.filename)}, line {place.lineno})"


def judged(judge, *words):
    """Returns what `judge` says of these words: what is wrong with a row, or nothing. A program that fails where `judge` needs its output is what is
    wrong then."""
    try:
        return judge(*words)
    except Exception as fault:  # (a program may fail in any way, and each way is a row that failed)
        return words_of(fault)


def report(test, found, more=""):
    """Prints what is wrong with each row, of pairs of a name and words, and how many rows passed, with more words behind that. Returns the script's
    status: 1 where a row failed, or where there is no row."""
    found = list(found)
    for name, words in found:
        if words:
            print(f"tests/{test}: FAILED: {name}: {words}", file=sys.stderr)
    bad = sum(bool(words) for _, words in found)
    print(f"tests/{test}: {len(found) - bad} passed, {bad} failed{more}")
    return 1 if bad or not found else 0
