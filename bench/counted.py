"""What the program's commands cost in machine instructions, by valgrind's callgrind: the same figures whatever else a machine does.

tests/counts compares the rows with the limits of tests/counts.txt, and bench/run figures prints them. A turn's cost is the difference of two runs, so
that neither the program's start nor its end is in it. The figures depend a little on the C library, and those of the launcher on bash and find."""

import os
import resource
import shutil
import subprocess
import sys
import tempfile
from concurrent.futures import ThreadPoolExecutor
from dataclasses import dataclass
from pathlib import Path

HERE = Path(os.path.realpath(__file__)).parent
TOP = HERE.parent
TURNS = (200_000, 600_000)
ACKNOWLEDGEMENTS = (2_000, 6_000)
STEPS = (50_000, 150_000)
# A run that takes more processor seconds is ended: the longest takes some ten.
SECONDS = 60
# Lines of a map that name what the kernels show.
MAP = "ROM 8 KIB\nSCREEN 0000 0FA0 KERNEL.SCREEN\nHANDLER 08 KERNEL.TICK\nPORT 0301 LAMP\n"


@dataclass(frozen=True)
class Cost:
    """The machine instructions of a command, less those of another one, divided by how many turns the first makes more."""

    words: tuple
    less: tuple = ()
    by: int = 1

    def figure(self, counts):
        """Returns the cost, by the counts of both commands."""
        return (counts[self.words] - (counts[self.less] if self.less else 0)) / self.by


@dataclass(frozen=True)
class Row:
    """A command's cost, or its ratio to another one's: what it measures, in what unit, and the most that was promised, if anything was."""

    name: str
    what: str
    unit: str
    cost: Cost
    base: Cost = None
    most: float = None

    def commands(self):
        """Returns the commands that the row counts."""
        costs = (self.cost, self.base) if self.base else (self.cost,)
        return [words for cost in costs for words in (cost.words, cost.less) if words]

    def figure(self, counts):
        """Returns what the row measures, by the counts of its commands."""
        return self.cost.figure(counts) / (self.base.figure(counts) if self.base else 1)


def of_kernel(kernel, *options):
    """Returns what a turn of a kernel costs, and of `c_irq` an acknowledgement with its 40 turns and its line of schedule."""
    sizes, name = (ACKNOWLEDGEMENTS, "ticks") if kernel == "c_irq" else (TURNS, "turns")
    short, long = (("run", *options, f"{kernel}.rom", f"{name}{size}.sch") for size in sizes)
    return Cost(long, short, sizes[1] - sizes[0])


def of_mean(text):
    """Returns what a step of `mean` costs on a text."""
    short, long = (("mean", f"steps{size}.sch", f"{text}.plm") for size in STEPS)
    return Cost(long, short, STEPS[1] - STEPS[0])


def of_build(*options):
    """Returns what a build of the text `mixed` costs, in millions."""
    return Cost(("build", "-r", "64", "-o", f"rom{''.join(options)}", *options, "mixed.plm"), by=1_000_000)


KERNELS = {
    "a_regs": ("a loop on registers", "turn"),
    "b_mem": ("a loop over memory, with the stack, CALL and RET", "turn"),
    "d_trace": ("screen stores and port writes, two lines of trace in five turns", "turn"),
    "c_irq": ("interrupts through 8259A and 8253", "acknowledgement with its 40 turns and its line of schedule"),
}
# The options that show more of a run, each with the most that it may cost beside the plain run.
OPTIONS = {"--turns": (("--turns",), 1.3), "--names": (("--names", "map"), 2.0), "--vcd": (("--vcd", "wave"), 2.0)}
WAITS = {"run": ("run", "waits.rom", "waits.sch"), "run --turns": ("run", "--turns", "waits.rom", "waits.sch"), "mean": ("mean", "waits.sch", "waits.plm")}
MEANINGS = {"array": "a loop over an array", "calls": "a typed procedure for each element", "objects": "a loop through a base beside 20,000 objects"}


def rows():
    """Yields all rows."""
    for kernel, (what, unit) in KERNELS.items():
        yield Row(f"run {kernel}", what, f"machine instructions a{'n' if unit[0] == 'a' else ''} {unit}", of_kernel(kernel))
    for option, (words, most) in OPTIONS.items():
        for kernel in ("a_regs", "d_trace", "c_irq"):
            yield Row(f"run {option} {kernel}", KERNELS[kernel][0], "times the plain run", of_kernel(kernel, *words), of_kernel(kernel), most)
    explained = [Cost(("run", *options, "dead.rom", "dead.sch")) for options in (("--explain",), ())]
    yield Row("run --explain", "a run whose processor halts with interrupts off", "times the plain run", *explained, 1.02)
    for name, words in WAITS.items():
        yield Row(f"{name} waits", "4,294,967,295 turns that wait for six events", "million machine instructions", Cost(words, by=1_000_000))
    yield Row("build", "a text of 20,000 tokens of all statements", "million machine instructions", of_build(), None, 39)
    for option, words in {"--lint": ("--lint",), "--code": ("--code", "code")}.items():
        yield Row(f"build {option}", "the same text", "times the plain build", of_build(*words), of_build(), 1.3)
    for text, what in MEANINGS.items():
        yield Row(f"mean {text}", what, "machine instructions a step", of_mean(text), None, {"array": 560, "calls": 520}.get(text))
    what = "`./plm86 --version` beyond `dist/plm86 --version`, with the processes that it begins"
    yield Row("launcher", what, "million machine instructions", Cost(("launcher", "--version"), ("--version",), 1_000_000))


def objects():
    """Returns a text with a loop through a base beside 20,000 objects of one byte."""
    names = ",\n".join(f"V{n}" for n in range(20_000))
    return f"OBJECTS: DO; DECLARE ({names}) BYTE, P ADDRESS, B BASED P BYTE; P = .V19999; DO WHILE 1; B = B + 1; END; END OBJECTS;"


def ticks(count):
    """Returns a schedule of so many trains of 40 pulses, one in 40 turns."""
    return "".join(f"AT {40 * n} TICK 40\n" for n in range(1, count + 1)) + f"STOP {40 * count + 2000}\n"


def dead():
    """Returns the ROM of the loop on registers with ten rounds in place of 3,000: after some 410,000 turns the processor halts with interrupts off."""
    rom, rounds = (HERE / "kernels" / "a_regs.rom").read_bytes(), bytes([0xBD]) + (3000).to_bytes(2, "little")
    if rom.count(rounds) != 1:
        raise ValueError("a_regs.rom has not one MOV BP,3000")
    return rom.replace(rounds, bytes([0xBD, 10, 0]))


def prepare(work, program):
    """Writes the texts, schedules and ROMs that the commands name into a folder."""
    texts = {f"{name}{size}.sch": f"STOP {size}\n" for name, sizes in (("turns", TURNS), ("steps", STEPS)) for size in sizes}
    texts |= {f"ticks{size}.sch": ticks(size) for size in ACKNOWLEDGEMENTS} | {"map": MAP, "objects.plm": objects(), "dead.sch": "STOP 500000\n"}
    for name, text in texts.items():
        Path(work, name).write_text(text)
    Path(work, "dead.rom").write_bytes(dead())
    waits = TOP / "tests" / "cases" / "waits_for_events_far_apart"
    copied = [*(HERE / "kernels").glob("*.rom"), *(HERE / "mean").glob("*.plm")]
    for path, name in [*((path, path.name) for path in copied), (waits / "m.plm", "waits.plm"), (waits / "s.sch", "waits.sch")]:
        shutil.copy(path, Path(work, name))
    subprocess.run([sys.executable, HERE / "build" / "texts.py", work], check=True)
    subprocess.run([program, "build", "-r", "8", "-o", "waits.rom", "waits.plm"], cwd=work, capture_output=True)
    prepare_launcher(Path(work, "tree"), program)


def prepare_launcher(tree, program):
    """Makes a copy of the launcher over this program, with all sources that it looks at, and lets it look at their digest once."""
    for name in ("plm86", "tools/digest", "crates.txt"):
        (tree / name).parent.mkdir(parents=True, exist_ok=True)
        shutil.copy(TOP / name, tree / name)
    for folder in sorted(TOP.glob("crates/*/src")):
        shutil.copytree(folder, tree / folder.relative_to(TOP))
    (tree / "dist").mkdir()
    shutil.copy(program, tree / "dist" / "plm86")
    subprocess.run([tree / "tools" / "digest", "--write"], check=True)
    subprocess.run([tree / "plm86", "--version"], capture_output=True)
    # A process that another program takes the place of leaves no count: here the launcher waits for its program and ends.
    Path(tree, "waiting").write_text('exec() { "$@"; exit; }\n')


def count(work, program, words):
    """Returns how many machine instructions a command takes with the processes that it begins, or words that say why there is no such number. It has a
    folder of its own, so that what it writes is in nobody's way."""
    command = [Path(work, "tree", "plm86"), *words[1:]] if words[0] == "launcher" else [program, *words]
    with tempfile.TemporaryDirectory(dir=work) as folder, tempfile.TemporaryDirectory(dir=work) as logs:
        for path in Path(work).iterdir():
            if path.is_file():
                os.link(path, Path(folder, path.name))
        callgrind = ["valgrind", "--tool=callgrind", "--callgrind-out-file=/dev/null", "--trace-children=yes", f"--log-file={logs}/%p"]
        surroundings = {"PATH": os.environ["PATH"], "LC_ALL": "C", "BASH_ENV": str(Path(work, "tree", "waiting"))}
        silent = {name: subprocess.DEVNULL for name in ("stdin", "stdout", "stderr")}
        with subprocess.Popen([*callgrind, *command], cwd=folder, env=surroundings, **silent) as running:
            resource.prlimit(running.pid, resource.RLIMIT_CPU, (SECONDS, SECONDS))
            status = running.wait()
        said = [line.split() for path in Path(logs).iterdir() for line in path.read_text(errors="replace").splitlines() if "Collected" in line]
    if status:
        return f"`{' '.join(words)}` {f'ended with status {status}' if status > 0 else f'was ended after {SECONDS} processor seconds'}"
    return sum(int(parts[3]) for parts in said)


def measured(program):
    """Returns each row with its figure, or with words that say why it has none."""
    with tempfile.TemporaryDirectory() as work:
        prepare(work, program)
        every = list(rows())
        commands = list(dict.fromkeys(words for row in every for words in row.commands()))
        with ThreadPoolExecutor(os.cpu_count()) as pool:
            counts = dict(zip(commands, pool.map(lambda words: count(work, program, words), commands)))
    found = {}
    for row in every:
        wrong = [counts[words] for words in row.commands() if isinstance(counts[words], str)]
        found[row] = wrong[0] if wrong else row.figure(counts)
    return found


def is_there():
    """Whether valgrind is installed."""
    return shutil.which("valgrind") is not None
