"""The toolchain's kit, by its public commands alone: what `rt help`, `rt doc`, `rt version` and `rattle check --help` say of them."""

import functools
import os
import re
import shutil
import subprocess

# What the control group of this process may use, where it has limits.
GROUP = "/sys/fs/cgroup"


def said(*words):
    """Returns what a command prints on both its streams, or nothing where there is no such command."""
    try:
        return subprocess.run(words, stdin=subprocess.DEVNULL, stdout=subprocess.PIPE, stderr=subprocess.STDOUT, text=True, errors="replace").stdout
    except OSError:
        return ""


@functools.lru_cache(maxsize=None)
def identity():
    """Returns the kit's one line about itself."""
    return said("rt", "version").strip() or "no kit: rt is not on the PATH"


def logic_of(identity):
    """Returns the logic that a kit's line about itself names, or the whole line where it names none."""
    found = re.search(r"\blogic [0-9a-f]+\b", identity)
    return found[0] if found else identity


@functools.lru_cache(maxsize=None)
def rattle():
    """Returns the path of the prover, which stands in the kit's folder bin/, beside the first page to read."""
    return os.path.join(os.path.dirname(said("rt", "doc").strip()), "bin", "rattle")


def lacking():
    """Returns what the rounds of tools/must_fail.py need of a kit, and this one does not have."""
    check, form, help_page = said(rattle(), "check", "--help"), said(rattle(), "fmt", "--help"), said("rt", "help")
    needs = {
        "rattle check --only, with a last line only=N proved=M": "only=N proved=M" in check,
        "rattle fmt --tokens": "--tokens" in form,
        "rt lib, over the work that rt check kept": re.search(r"^lib\s", help_page, re.M),
        "rt must-fail": "rt must-fail" in help_page,
        "rt ci": "rt ci" in help_page,
    }
    return [it for it, is_there in needs.items() if not is_there]


def of_group(file, pattern):
    """Returns the numbers that a file of the control group has, or None where there is no such file or limit."""
    try:
        with open(f"{GROUP}/{file}", encoding="utf-8") as it:
            found = re.search(pattern, it.read(), re.M)
    except OSError:
        return None
    return found and [int(it) for it in found.groups()]


def processors():
    """Returns how many processors there are to use: those that this process may run on, or fewer by its control group."""
    quota, found = of_group("cpu.max", r"^(\d+) (\d+)"), len(os.sched_getaffinity(0))
    return min(found, max(1, quota[0] // quota[1])) if quota else found


def meminfo(row):
    with open("/proc/meminfo", encoding="utf-8") as it:
        return 1024 * int(re.search(rf"^{row}:\s+(\d+)", it.read(), re.M)[1])


def memory():
    """Returns how many bytes of memory there are, of the machine or by the control group."""
    limit = of_group("memory.max", r"^(\d+)")
    return min([meminfo("MemTotal"), *(limit or [])])


def free_memory():
    """Returns how many bytes of memory are free, of the machine's or of the control group's."""
    limit, held = of_group("memory.max", r"^(\d+)"), of_group("memory.stat", r"^anon (\d+)")
    return min([meminfo("MemAvailable"), *([limit[0] - held[0]] if limit and held else [])])


def guarded(is_patient=False):
    """Returns the words before a command that have it end with this process, and for a patient one give way to what else wants the processors."""
    words = {"setpriv": ["setpriv", "--pdeathsig", "KILL"], "nice": ["nice", "-n", "10"] if is_patient else []}
    return [word for tool, its in words.items() if shutil.which(tool) for word in its]


def run(words, folder, is_patient=False):
    """Runs a command in a folder. Returns its status and what it printed on both its streams."""
    how = {"cwd": folder, "stdin": subprocess.DEVNULL, "stdout": subprocess.PIPE, "stderr": subprocess.STDOUT, "encoding": "utf-8", "errors": "replace"}
    ran = subprocess.run([*guarded(is_patient), *words], **how)
    return ran.returncode, ran.stdout
