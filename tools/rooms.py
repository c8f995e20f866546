"""Tries the must-fail edits of a repository's crates side by side, each crate in a room of its own (tools/must_fail.py).

A room begins with what a proof of its crate from nothing kept, the seed: either a check of the room's own, by `rt lib` or
`rt check`, or what the gate's proof left.
"""

import os
import re
import shutil
import time
from concurrent.futures import FIRST_COMPLETED, ThreadPoolExecutor, wait

import kit
from must_fail import PARTS, Room, Rounds, edits_in, text_of


class Repository:
    """The crates of a repository, by its crates.txt, and their edits but for those that are spared."""

    def __init__(self, top, spared=frozenset()):
        rows = [re.match(r"([\w-]+)[^:]*:?(.*)", line.partition("#")[0]) for line in text_of(f"{top}/crates.txt").split("\n")]
        found = {row[1]: re.findall(r"[\w-]+", row[2]) for row in rows if row}
        self.top, self.deps = top, {name: [it for it in deps if it in found] for name, deps in found.items()}
        self.spared = spared

    def folder(self, name):
        return f"{self.top}/crates/{name}"

    def below(self, name):
        """Returns the crates that this one stands on, each after those that it stands on itself."""
        found = []
        for dep in self.deps[name]:
            found += [it for it in [*self.below(dep), dep] if it not in found]
        return found

    def lowest_first(self):
        return sorted(self.deps, key=lambda it: len(self.below(it)))

    def has_crates_above(self, name):
        return any(name in deps for deps in self.deps.values())

    def has_tests(self, name):
        return any(re.search(r"#\s*\[[^]]*\btest\b", text_of(it)) for it in self.files(name, ".rt"))

    def files(self, name, ending):
        return [f"{at}/{it}" for part in PARTS for at, _, names in os.walk(f"{self.folder(name)}/{part}") for it in names if it.endswith(ending)]

    def edits(self, name):
        return [it for it in edits_in(self.folder(name)) if f"{name}/{os.path.basename(it)}" not in self.spared]


class Task:
    """A piece of work: the tasks that it comes after, the processor seconds and the bytes that it is likely to take, and a call."""

    def __init__(self, after, seconds, memory, call):
        self.after, self.seconds, self.memory, self.call = after, seconds, memory, call


def chains(tasks):
    """Returns how many seconds the longest chain of tasks takes that begins with each. A task stands after those that it comes after."""
    found = {key: 0 for key in tasks}
    for key in reversed([*tasks]):
        found[key] += tasks[key].seconds
        for it in tasks[key].after:
            found[it] = max(found.get(it, 0), found[key])
    return found


class Elsewhere:
    """What runs beside: whether what another task comes after is done there, and whether it leaves the machine to us. Here: nothing runs beside."""

    def is_over(self, key):
        return False

    def has_ended(self):
        return True


def side_by_side(tasks, lanes, room, elsewhere):
    """Runs tasks in so many lanes, each once those that it comes after are done here or elsewhere, first those with the longest chain behind them.
    The running ones get as many bytes together as room answers then, or what is free but for a tenth where that is less; where nothing else runs one alone is always run.
    Raises what a task raises."""
    behind, done, running = chains(tasks), set(), {}
    left = sorted(tasks, key=lambda it: -behind[it])
    with ThreadPoolExecutor(lanes) as pool:
        while left or running:
            for key in [it for it in left if all(below in done or elsewhere.is_over(below) for below in tasks[it].after)]:
                spare = min(room() - sum(tasks[it].memory for it in running.values()), kit.free_memory() - 0.1 * kit.memory())
                is_alone = not running and elsewhere.has_ended()
                if len(running) < lanes and (is_alone or tasks[key].memory <= spare):
                    left.remove(key)
                    running[pool.submit(tasks[key].call)] = key
            ended = wait(running, timeout=1, return_when=FIRST_COMPLETED).done if running else wait_a_second()
            for it in ended:
                it.result()
                done.add(running.pop(it))


def wait_a_second():
    """Waits for what is done elsewhere."""
    time.sleep(1)
    return []


class Seeds:
    """What another check leaves of each crate, as crates/NAME/out below a folder, once it is proved there."""

    def __init__(self, place, is_proved, may_be_taken):
        self.place, self.is_proved, self.may_be_taken = place, is_proved, may_be_taken

    def out(self, name):
        return f"{self.place}/crates/{name}/out"


class Rooms:
    """Tries the edits of crates, and keeps what each came to in found: by the crate's and the edit's names a word and a line that shows it."""

    def __init__(self, repository, place, tell, costs, seeds=None):
        """Without seeds each room makes its own."""
        self.repository, self.place, self.tell, self.costs, self.seeds = repository, place, tell, costs, seeds
        self.rooms, self.found, self.unproved = {}, {}, set()

    def room(self, name):
        """Makes a crate's room, over the libraries that were built below it."""
        below = self.repository.below(name)
        made = Room(f"{self.place}/{name}", self.repository.top, name, below)
        for it in below:
            made.take(it, "rlib", f"{self.seeds.out(it) if self.seeds else self.rooms[it].folder + '/out'}/rlib", True)
        return made

    def prove(self, name):
        """Gives a crate a room where it is proved from nothing, or notes that it has none."""
        is_proved = self.seeds.is_proved if self.seeds else lambda it: it not in self.unproved
        if not all(is_proved(it) for it in [*self.repository.below(name), *[name] * bool(self.seeds)]):
            self.unproved.add(name)
            return
        self.rooms[name] = self.room(name)
        if self.seeds and os.path.isdir(f"{self.seeds.out(name)}/incremental"):
            self.rooms[name].take(name, "incremental", f"{self.seeds.out(name)}/incremental", False)
            if self.seeds.may_be_taken:
                shutil.rmtree(f"{self.seeds.out(name)}/incremental")
            return
        is_well, said = self.rooms[name].prove(self.repository.has_crates_above(name) and not self.seeds, 1)
        if not is_well:
            self.unproved.add(name)
            self.tell(f"{name}: not proved in its room: {said[-600:]}")

    def try_edits(self, name):
        """Tries a crate's edits in its room, and leaves there what other crates need."""
        if self.seeds:
            self.prove(name)
        if name in self.unproved:
            self.tell(f"{name}: not proved, so its edits are not tried")
            return
        found = Rounds(self.rooms[name], self.repository.folder(name), self.tell).all(self.repository.edits(name))
        self.found.update({f"{name}/{os.path.basename(it)}": came_to for it, came_to in found.items()})
        shutil.rmtree(f"{self.rooms[name].folder}/out/incremental", ignore_errors=True)

    def tasks(self, names):
        """Returns what is to be done for the edits of these crates. What a crate is proved from comes first."""
        wanted = [it for it in self.repository.lowest_first() if it in names and self.repository.edits(it)]
        needed = {below for it in wanted for below in [it, *self.repository.below(it)]}
        tasks = {}
        for it in self.repository.lowest_first():
            if it in needed and not self.seeds:
                after = [(below, "seed") for below in self.repository.deps[it]]
                tasks[it, "seed"] = Task(after, *self.costs.get((it, "seed"), (100, 2e9)), lambda name=it: self.prove(name))
        for it in wanted:
            tasks[it, "edits"] = Task([(it, "seed")], *self.costs.get((it, "edits"), (100, 2e9)), lambda name=it: self.try_edits(name))
        return tasks
