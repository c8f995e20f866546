#!/usr/bin/env python3
"""Prints how many turns the controllers here execute for the same output, by ROMs of several programs: executed.py PROGRAM..
What counts is the trace that the first program's ROM makes in 40,000 turns from its first line on: the turns that each program's ROM takes from its first
line to the last one of these. All ports answer as where nothing is connected; no clock pulses come, so that `clock` is seen as it clears the screen."""

import pathlib
import subprocess
import sys
import tempfile

HERE = pathlib.Path(__file__).parent
CONTROLLERS = ("clock", "heater", "lift", "packets", "ring", "sort", "servo")
TURNS = 40_000


def sources_of(name):
    """The modules of a controller."""
    return [str(path) for path in (HERE / f"{name}.plm", HERE / f"{name}_main.plm", HERE / f"{name}_checks.plm") if path.exists()]


def lines_of(program, name, folder):
    """The lines of a controller's run by a program's ROM, each with its turn."""
    rom, schedule = folder / "rom", folder / "schedule"
    schedule.write_text(f"STOP {2 * TURNS}\n")
    subprocess.run([program, "build", "-r", "64", "-o", rom, *sources_of(name)], check=True)
    run = subprocess.run([program, "run", "--turns", rom, schedule], check=True, capture_output=True, text=True)
    return [(int(turn), line) for turn, line in (text.split(" ", 1) for text in run.stdout.splitlines())][:-1]


def turns_of(programs, name, folder):
    """The turns of a controller by each program, up to the same output."""
    runs = [lines_of(program, name, folder) for program in programs]
    first = runs[0]
    count = sum(1 for turn, _ in first if turn - first[0][0] < TURNS)
    for lines in runs:
        if [line for _, line in lines[:count]] != [line for _, line in first[:count]]:
            sys.exit(f"executed: {name}: another trace")
    return [lines[count - 1][0] - lines[0][0] for lines in runs]


def main(programs):
    """A line for each controller, and one for the six without INTEGERs, each of which counts the same."""
    shares = []
    with tempfile.TemporaryDirectory() as folder:
        for name in CONTROLLERS:
            turns = turns_of(programs, name, pathlib.Path(folder))
            shares.append([own / turns[0] for own in turns])
            print(f"{name:8}", *(f"{own:7} {own / turns[0]:.3f}" for own in turns))
    six = shares[:-1]
    print("six     ", *(f"        {sum(column) / len(six):.3f}" for column in zip(*six)))


if __name__ == "__main__":
    if len(sys.argv) < 2:
        sys.exit(__doc__)
    main(sys.argv[1:])
