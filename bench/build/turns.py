#!/usr/bin/env python3
"""Several programs on bench/run build's mixed.plm, in turn: turns.py FOLDER PROGRAM... FOLDER has what texts.py wrote. For each: the best of sixty
builds, tokens a second, and machine instructions by valgrind, where it is installed. Then the same of tcc, where that is, on the statements in C."""

import re
import shutil
import subprocess
import sys
import time

ROUNDS = 60
TOKEN = re.compile(r"[A-Za-z0-9$_]+|<<|>>|<=|!=|&&|<>|:=|[^\sA-Za-z0-9$_]")


def seconds(words):
    """Returns how long a command takes."""
    begin = time.perf_counter()
    subprocess.run(words, check=True, stderr=subprocess.DEVNULL)
    return time.perf_counter() - begin


def instructions(words):
    """Returns how many machine instructions a command takes, or nothing without valgrind."""
    if not shutil.which("valgrind"):
        return None
    ran = subprocess.run(["valgrind", "--tool=callgrind", "--callgrind-out-file=/dev/null", *words], capture_output=True, text=True, check=True)
    return int(re.search(r"Collected : (\d+)", ran.stderr)[1])


def main(folder, programs):
    commands = {program: ("mixed.plm", [program, "build", "-r", "64", "-o", f"{folder}/rom", f"{folder}/mixed.plm"]) for program in programs}
    if shutil.which("tcc"):
        commands["tcc"] = ("mixed.c", ["tcc", "-c", "-o", f"{folder}/mixed.o", f"{folder}/mixed.c"])
    best = {name: seconds(words) for name, (_, words) in commands.items()}
    for _ in range(ROUNDS - 1):
        for name, (_, words) in commands.items():
            best[name] = min(best[name], seconds(words))
    for name, (text, words) in commands.items():
        with open(f"{folder}/{text}", encoding="ascii") as it:
            tokens = len(TOKEN.findall(it.read()))
        taken = instructions(words)
        print(f"{name}: {1000 * best[name]:.1f} ms, {tokens / best[name] / 1e6:.2f} million tokens a second" + (f", {taken / 1e6:.1f} million machine instructions" if taken else ""))


if __name__ == "__main__":
    main(sys.argv[1], sys.argv[2:])
