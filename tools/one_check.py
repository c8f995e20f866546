#!/usr/bin/env python3
"""Runs the kit's `rt ci` with three changes.

The check that proves a crate whose must-fail edits are tried keeps its work, in the crate's out/incremental.
So one check serves twice: it is the proof, and the rounds of the crate's edits begin with what it kept. The proof is from
nothing all the same: the folder is removed before it begins, and nothing else writes there. The prover's last
line then has the word incremental=trusted, which says that its verdict trusts whoever can write to that folder. That word, and no
other, is let through beside those that `rt ci` lets through. Such a library is built whole, and not by its statements alone, which the kit
has for no check that keeps its work. A program is compiled over what its check kept, which the compilers' runs of the prover look through again;
one line says that its edits can be tried meanwhile. Both compilers compile a program side by side, and one line says when it can be run.
All other crates are proved as `rt ci` does, which takes less time, and their libraries hold their statements alone. These get their stamp, so that
`rt check` takes them as they are: in a room they lie over the very libraries that they were built over.

The tests of crates behind the word `--` are neither proved nor run: that they are proved rests on a record (tools/record.py), and who calls this runs them.

And its plan, which goes by tools/costs. How much memory a check takes is what was measured, and a tenth more: `rt ci` reckons it by
lines, which is twice as much for the crates on top, so that these waited for one another. And the check with the longest chain of
others behind it has a job for each processor, up to four, whatever else runs, where `rt ci` shares them alike among all that may begin: plm_syntax, on
which most others wait, got one. It leaves memory for the next one: where acceptance's tests took all, plm86 waited for their end.
What can begin begins, and gives way to the check that leads: with two jobs and a little where its chain is near that one's, or comes to be as others end, else with one job, on what is left over.
A check begins and ends with a minute or two in one process, and in between its jobs wait for one another: the others have the processors then.
(Where jobs were counted, and the leader took what others had left, listing_map had two for all of its way, as two others had begun three minutes before it, with two each.)

Several jobs of a check take more than one in all, of plm_token a third to a half. So on two processors each check has one job, but for the one with the longest
chain behind it where what else there is to do takes less time than it does: else a processor would wait for it. Of what is begun only what it has
still to go counts: where it counted whole, board had one job beside the last of plm_meaning, and one processor nothing to do for five minutes.

usage: tools/one_check.py [NAME..] [-- NAME..]      at the top of a repository, with the crates whose work is kept, and those whose tests are left out; status and output are those of rt ci
"""

import contextlib
import importlib.machinery
import os
import re
import shutil
import sys
import threading
import types
from concurrent.futures import FIRST_COMPLETED, ThreadPoolExecutor, wait

sys.dont_write_bytecode = True
sys.path.insert(0, os.path.dirname(os.path.realpath(__file__)))
import costs

# The end of the last line that rt ci lets through.
ENDING = r" libraries-built=trusted statements=trusted\n\Z"
KEPT = "out/incremental"
# Processor seconds a line, for a task that was not measured; and what each job past the second takes of memory. A check with one job is a process
# that keeps all that it made. With several it is one that has read the libraries, and one for each job, which begins anew now and then: acceptance's
# tests held 9.6 GB with one job, and no more with two over the two thirds of them that were seen.
A_LINE, A_JOB = 0.1, 0.15
# How many seconds a check takes beside others for each that tools/costs has.
COMPANY = 1.3
# Seconds of a task for which no memory is kept.
SHORT = 60
# By how much checks give way to the one that leads, where the chain behind them is near the longest, and where it is less than this part of it: what Linux calls their niceness.
# It is added to the niceness that this program itself was begun with.
NEAR_GIVES, FAR_GIVES, FAR = 3, 8, 0.65
OWN_NICENESS = os.getpriority(os.PRIO_PROCESS, 0)
# How many jobs a check has on more than two processors: one that leads, at most; one whose chain is near the longest; and any other.
OF_LEADER, OF_NEAR, OF_OTHERS = 4, 2, 1
# The parts of the kit's crates that are called or changed here, and what they take.
FORMS = {
    "build_rlib": ("self", "flags", "anew"),
    "ci": ("self", "flags", "tests"),
    "compile_by": ("self", "backend", "words", "to"),
    "prove": ("self",),
    "words": ("self", "flags", "tests", "keeps"),
}
# The kit's functions and names that are called or changed here.
WORDS = ("KIT", "ci", "free", "need", "processors")


def command():
    """Loads the kit's command rt as a module, or answers None where there is none."""
    found = shutil.which("rt")
    if not found:
        return None
    made = types.ModuleType("rt")
    made.__file__ = os.path.realpath(found)
    try:
        importlib.machinery.SourceFileLoader("rt", made.__file__).exec_module(made)
    except (SyntaxError, OSError, AttributeError, SystemExit):
        return None
    return made


def is_known(rt):
    """Returns whether this rt has the parts that are changed here, in the form that is known."""
    library = getattr(rt, "rtlib", None)
    pattern = getattr(getattr(library, "VERDICT", None), "pattern", "")
    crate = getattr(rt, "Crate", None)
    takes = {name: getattr(crate, name).__code__.co_varnames for name in FORMS if hasattr(getattr(crate, name, None), "__code__")}
    is_formed = all(takes.get(name, ())[: len(form)] == form for name, form in FORMS.items())
    plans = getattr(getattr(rt, "in_lanes", None), "__code__", None)
    has_lanes = plans is not None and plans.co_varnames[: plans.co_argcount] == ("tasks",)
    has_words = all(hasattr(rt, it) for it in WORDS) and all(hasattr(crate, it) for it in ("cuts_libraries", "has_tests", "stamp"))
    return is_formed and pattern.endswith(ENDING) and has_lanes and has_words


def plan_as_measured(rt, untested):
    """Has rt ci plan by the memory that each crate's check was seen to take."""
    reckoned, most = rt.need, {}
    for (crate, task), (_, held) in costs.known().items():
        if task == "proof" or task == "tests" and crate not in untested:
            most[crate] = max(held, most.get(crate, 0))
    rt.need = lambda crate: 1.1 * most[crate.name] if crate.name in most else reckoned(crate)
    rt.in_lanes = lambda tasks: in_lanes(rt, tasks)


def chains(tasks, seconds):
    """Returns how long the longest chain is that begins with each task. (A task comes after those that it waits for.)"""
    behind = dict(seconds)
    for key in reversed([*tasks]):
        for it in tasks[key][0]:
            behind[it] = max(behind[it], seconds[it] + behind[key])
    return behind


def beside(tasks, seconds, key):
    """Returns how long those of these tasks take that do not wait for this one."""
    return sum(seconds[it] for it in tasks if it != key and key not in tasks[it][0])


def held_by(needs, jobs):
    """Returns what a check holds of memory with so many jobs, which holds this with one."""
    return needs * (1 + A_JOB * max(0, jobs - 2))


def jobs_within(memory, needs):
    """Returns how many jobs a check can have that holds no more than this memory, and needs so much with one."""
    return 1 if memory < needs else 2 + int((memory / needs - 1) / A_JOB)


def gives_way(chain, longest):
    """Returns by how much a check gives way that has such a chain behind it. (The superuser alone may take it back where a check comes to lead: for others what is near gives none.)"""
    near = NEAR_GIVES if os.geteuid() == 0 else 0
    return 0 if chain >= longest else near if chain >= FAR * longest else FAR_GIVES


def share(chain, longest, processors):
    """Returns how many jobs a check has, at most, that has such a chain behind it."""
    return min(OF_LEADER, processors) if chain >= longest else OF_NEAR if chain >= FAR * longest else OF_OTHERS


def giving_way(call, by, threads):
    """Returns the call so that what it starts gives way to others. (A thread has a niceness of its own, which what it starts begins with: its number is put into threads.)"""

    def patient(*words):
        threads.append(threading.get_native_id())
        os.setpriority(os.PRIO_PROCESS, threads[-1], OWN_NICENESS + by)
        return call(*words)

    def in_its_own_thread(*words):
        with ThreadPoolExecutor(1) as own:
            return own.submit(patient, *words).result()

    return in_its_own_thread


def gives_way_by(by, name, threads):
    """Has these threads, and what they have started in the folder of the crate of this name, give way by so much, which is less than they did."""
    folder, found = f"{os.getcwd()}/crates/{name}", [*threads]
    for process in filter(str.isdigit, os.listdir("/proc")):
        with contextlib.suppress(OSError):
            if os.readlink(f"/proc/{process}/cwd") == folder:
                found += map(int, os.listdir(f"/proc/{process}/task"))
    for it in found:
        # (one may have ended by now)
        with contextlib.suppress(OSError):
            os.setpriority(os.PRIO_PROCESS, it, OWN_NICENESS + by)


def taken(name):
    """Returns the processor seconds that what runs in the folder of the crate of this name has taken so far, with what it has waited for."""
    folder, ticks = f"{os.getcwd()}/crates/{name}", 0
    for process in filter(str.isdigit, os.listdir("/proc")):
        # (one may have ended by now)
        with contextlib.suppress(OSError):
            if os.readlink(f"/proc/{process}/cwd") == folder:
                with open(f"/proc/{process}/stat", encoding="utf-8", errors="replace") as it:
                    # (behind the name, in parentheses, the twelfth word and the three after it are times)
                    ticks += sum(map(int, it.read().rpartition(")")[2].split()[11:15]))
    return ticks / os.sysconf("SC_CLK_TCK")


def to_go(seconds, begun):
    """Returns how long tasks still take that take so long from nothing, where these are begun."""
    return seconds | {key: max(0, seconds[key] - taken(key[0]) / COMPANY) for key in begun}


def in_lanes(rt, tasks):
    """Runs the tasks of rt ci side by side, as its own in_lanes does, and returns what each gave. A task is what it waits for, its lines, its memory, and a
    call with what was given and how many jobs it may use. Longest chain first; what leads gets a job for each processor, up to four, and the others give way to it. On two
    processors two run at a time, each with one job, but what leads with two where the others would not keep the second processor busy."""
    known = costs.known()
    # (a task of no lines is one of tests that there are none of)
    seconds = {key: known[key][0] if key in known and tasks[key][1] else A_LINE * tasks[key][1] for key in tasks}
    memory, behind = 0.85 * rt.free(), chains(tasks, seconds)
    processors = rt.processors()
    are_few = processors < 3
    left, running, given = sorted(tasks, key=lambda it: -behind[it]), {}, {}
    threads, niceness = {}, {}
    # (13f ends what it began where it is itself ended; 13b has no such word)
    ending = getattr(rt, "ending", contextlib.nullcontext)
    with ending(), ThreadPoolExecutor(max(1, len(tasks))) as pool:
        while left or running:
            begun = [key for key, _ in running.values()]
            still = to_go(seconds, begun)
            ahead = {it: behind[it] - seconds[it] + still[it] for it in [*left, *begun]}
            leader = max(ahead, key=ahead.get)
            for key in [it for it in threads if gives_way(ahead[it], ahead[leader]) < niceness[it]]:
                niceness[key] = gives_way(ahead[key], ahead[leader])
                gives_way_by(niceness[key], key[0], threads[key])
            ready = [it for it in left if all(below in given for below in tasks[it][0])]
            for at, key in enumerate(ready):
                _, _, needs, call = tasks[key]
                room = memory - sum(held for _, held in running.values())
                if running and (needs > room or are_few and len(running) >= processors):
                    continue
                undone = {it: tasks[it] for it in tasks if it not in given}
                is_alone = key == leader and beside(undone, still, key) < seconds[key]
                wanted = 1 + is_alone if are_few else share(ahead[key], ahead[leader], processors)
                spare = room - max((tasks[it][2] for it in ready[at + 1 :] if seconds[it] > SHORT), default=0)
                jobs = max(1, min(processors, wanted, jobs_within(spare, needs)))
                left.remove(key)
                niceness[key] = gives_way(ahead[key], ahead[leader])
                run = pool.submit(giving_way(call, niceness[key], threads.setdefault(key, [])) if niceness[key] else call, given, jobs)
                running[run] = key, held_by(needs, jobs)
            for it in wait(running, return_when=FIRST_COMPLETED).done:
                key, _ = running.pop(it)
                threads.pop(key, None)
                given[key] = it.result()
    return given


def linked(folder, kept_work, to):
    """Makes a further copy of kept work in a crate's folder, and returns its name. Its modules are links, as the prover writes each under another name first; what else there is, its lock, is not."""
    shutil.rmtree(f"{folder}/{to}", ignore_errors=True)

    def copy(given, made):
        return os.link(given, made) if given.endswith(".oantt") else shutil.copy2(given, made)

    shutil.copytree(f"{folder}/{kept_work}", f"{folder}/{to}", copy_function=copy)
    return to


def change(rt, kept, untested=()):
    """Has the checks of the kept crates keep their work, lets their word through, and leaves the tests of the others out."""

    class Keeping(rt.Crate):
        """A crate of rt ci, whose check keeps its work, and whose tests are left out, if it is one of these."""

        def has_tests(self):
            return self.name not in untested and super().has_tests()

        def empty(self):
            """Removes what is kept, and returns whether it is gone. (rt ci tries a check that was killed once more.)"""
            shutil.rmtree(f"{self.folder}/{KEPT}", ignore_errors=True)
            is_gone = not os.path.lexists(f"{self.folder}/{KEPT}")
            if not is_gone:
                rt.say(f"{self.name}: {KEPT} cannot be removed, so this would be no proof from nothing", self.out)
            return is_gone

        def build_rlib(self, flags, anew):
            if self.name in kept:
                self.cuts_libraries = False
                return super().build_rlib([*flags, "--incremental", KEPT], anew) if self.empty() else 1
            status = super().build_rlib(flags, anew)
            if not status:
                with open(f"{self.folder}/out/rlib/stamp", "w", encoding="utf-8") as it:
                    it.write(self.stamp())
            return status

        def by_llvm(self, words, to):
            """Compiles a program by LLVM, and says that it can be run."""
            status = super().compile_by("llvm", words, to)
            if not status:
                # (one write, so that no other line comes into it)
                print(f"one_check: {self.name} is built\n", end="", flush=True)
            return status

        def by_both(self, of_llvm, of_rattle, to):
            """Compiles a program side by side by both compilers, each with its words. What the second came to is kept."""
            with ThreadPoolExecutor(1) as own:
                begun = own.submit(super().compile_by, "rattle", of_rattle, to)
                status = self.by_llvm(of_llvm, to)
                self.came_to = begun.result()
            return status

        def compile_by(self, backend, words, to):
            """Compiles a program by both compilers where rt ci asks for the first, which it does first."""
            return self.came_to if backend == "rattle" else self.by_both(words, words, to)

        def over(self, flags, kept_work):
            """Returns the words of a command over this kept work."""
            return self.words([*flags, "--incremental", kept_work], keeps=False)

        def ci(self, flags, tests):
            if tests or not self.is_program or self.name not in kept:
                return super().ci(flags, tests)
            if not self.empty():
                return 1
            status = self.prove(["check", *self.over(flags, KEPT)])
            if status:
                return status
            # (each compiler has what was kept for itself, and so have the edits, which need not wait for the compilers)
            of_each = [linked(self.folder, KEPT, f"{KEPT}-{it}") for it in ("llvm", "rattle")]
            print(f"one_check: {self.name} is checked\n", end="", flush=True)
            toolchain = ["--toolchain", f"{rt.KIT}/toolchain"]
            return self.by_both(*([*self.over(flags, it), *toolchain] for it in of_each), f"out/{self.name}") or self.came_to

    rt.Crate = Keeping
    pattern = rt.rtlib.VERDICT
    rt.rtlib.VERDICT = re.compile(pattern.pattern.replace(ENDING, ENDING.replace(r"\n", r"(?: incremental=trusted)?\n")), pattern.flags)


def main():
    rt = command()
    if not is_known(rt):
        print("one_check: this kit's rt is not known here: run rt ci", file=sys.stderr)
        return 2
    words = sys.argv[1:]
    end = words.index("--") if "--" in words else len(words)
    change(rt, words[:end], words[end + 1 :])
    plan_as_measured(rt, words[end + 1 :])
    # (an rt that keeps what it proved is told to prove all: what it kept of earlier runs would leave no work for the edits)
    takes = rt.ci.__code__.co_varnames[: rt.ci.__code__.co_argcount]
    return rt.where_disk_lasts(rt.ci, True) if "anew" in takes else rt.ci()


if __name__ == "__main__":
    sys.exit(main())
