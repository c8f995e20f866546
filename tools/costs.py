"""What the tasks of a gate take: read from tools/costs, and measured anew in each gate.

A task is a crate and one of proof, tests, seed (one more proof, which its edits begin with), edits. Its cost is the processor seconds of the prover's processes, and the most memory
that they held together, in gigabytes, with shared pages counted once (what Linux calls the proportional set size).
"""

import os
import re
import tempfile
import threading

TABLE = os.path.join(os.path.dirname(os.path.realpath(__file__)), "costs")
TICKS = os.sysconf("SC_CLK_TCK")


def known():
    """Returns the table's costs, each a number of seconds and of bytes, by crate and task."""
    with open(TABLE, encoding="utf-8") as it:
        rows = [line.split() for line in it if line.strip() and not line.startswith("#")]
    return {(crate, task): (float(seconds), 1e9 * float(gigabytes)) for crate, task, seconds, gigabytes in rows}


class Process:
    """A running process: its parent, the processor seconds of it and of its ended children, and its words."""

    def __init__(self, number):
        with open(f"/proc/{number}/stat", encoding="utf-8") as it:
            said = it.read().rpartition(")")[2].split()
        with open(f"/proc/{number}/cmdline", encoding="utf-8", errors="replace") as it:
            self.words = it.read().split("\0")
        self.number, self.parent = number, int(said[1])
        self.seconds = sum(map(int, said[11:15])) / TICKS

    def is_prover(self):
        return os.path.basename(self.words[0]) == "rattle" and self.words[1:2] in (["build"], ["check"])

    def task(self):
        name = self.words[self.words.index("--crate-name") + 1]
        folder = os.readlink(f"/proc/{self.number}/cwd")
        is_in_room = re.search(r"/gate-\w+/rooms/", folder)
        if folder.startswith(f"{tempfile.gettempdir()}/rt-edit-") or is_in_room and "--only" in self.words:
            return name, "edits"
        return name, "seed" if is_in_room else "tests" if "--test" in self.words else "proof"

    def memory(self):
        with open(f"/proc/{self.number}/smaps_rollup", encoding="utf-8") as it:
            return 1024 * int(re.search(r"^Pss:\s+(\d+)", it.read(), re.M)[1])


def running():
    """Returns the processes that run now, by number. One that ends meanwhile is left out."""
    found = {}
    for name in os.listdir("/proc"):
        if name.isdigit():
            try:
                found[int(name)] = Process(int(name))
            except (OSError, IndexError):
                pass
    return found


def is_quiet():
    """Returns whether no process of the prover runs now."""
    return not any(it.is_prover() for it in running().values())


class Watch(threading.Thread):
    """Looks at the prover's processes below this one every five seconds, and each fourth time at their memory, until it is told to end."""

    def __init__(self):
        super().__init__(daemon=True)
        self.ended, self.seconds, self.most = threading.Event(), {}, {}

    def run(self):
        looks = 0
        while not self.ended.wait(5):
            # (of a large process Linux takes a tenth of a second for it)
            self.look(looks % 4 == 0)
            looks += 1

    def look(self, is_for_memory):
        now, memory = running(), {}
        for it in now.values():
            top, above = it, now.get(it.parent)
            while above and above.is_prover():
                top, above = above, now.get(above.parent)
            if not it.is_prover() or not self.is_below(top, now):
                continue
            try:
                task, held = top.task(), it.memory() if is_for_memory else 0
            except (OSError, ValueError, TypeError):
                continue
            memory[task] = memory.get(task, 0) + held
            # (what a copy took is counted with its parent's once it has ended)
            self.seconds.setdefault(task, {}).setdefault(top.number, {})[it.number] = it.seconds
            if it is top:
                self.seconds[task][top.number] = {k: v for k, v in self.seconds[task][top.number].items() if k in now}
        for task, held in memory.items():
            self.most[task] = max(held, self.most.get(task, 0))

    def is_below(self, process, now):
        while process:
            if process.parent == os.getpid():
                return True
            process = now.get(process.parent)
        return False

    def table(self):
        """Ends the watch, and returns what it saw in the table's form."""
        self.ended.set()
        rows = []
        for task, tops in sorted(self.seconds.items()):
            seconds = sum(sum(it.values()) for it in tops.values())
            rows.append(f"{task[0]} {task[1]} {seconds:.0f} {self.most[task] / 1e9:.1f}\n")
        return "".join(rows)
