"""What gates have seen of a text, so that a gate over the same text need not see it again: tools/refused, the edits that the prover refused, and
tools/proved, the crates whose tests it proved.

What an edit comes to rests on the kit's logic, and on what its digest is of: the tool that judges, the edit, the crate that it is made in, and what the
crates below state for others, which is all that a proof can cite of them. Comments, layout and the lists of derives are in no digest: what does not derive enough does not compile.
The proof of a crate's tests rests on the same, but for the edit and the tool. Whether they pass does not: they are run in each gate.
(Kits of one logic prove the same statements. They may differ in how well they look for a proof, which is one thing that the sample is there for.)
Where the digest stands in the record under a kit of this logic, the edit need not be tried, and the tests need not be proved. A sample of these edits is tried all the same, which
the hash of the commit with the record chooses, and of as many runs one proves the tests. A record has a part for each kit that saw something: a row `kit`
with its line about itself, and then what it saw.
"""

import hashlib
import math
import os
import re
import subprocess

import kit
import statements
from must_fail import PARTS, read_edit, text_of

TOOLS = os.path.dirname(os.path.realpath(__file__))
# How much of what need not be tried is the sample.
SAMPLE = 0.02
# The records, and what each is of.
REFUSED, PROVED = "refused", "proved"
HEADINGS = {
    REFUSED: "# Edits that the prover was seen to refuse, each with a digest of what that rests on: tools/record.py.\n",
    PROVED: "# Crates whose tests the prover was seen to prove, each with a digest of what that rests on: tools/record.py.\n",
}


def digest(*texts):
    """Returns a digest of texts, each with its length before it."""
    whole = hashlib.sha256()
    for text in texts:
        coded = text.encode()
        whole.update(b"%d:%b" % (len(coded), coded))
    return whole.hexdigest()


def cited_words(repository):
    """Returns, by the names of crates, the words of the files of other crates that cite its antt."""
    found = {}
    for name in repository.deps:
        folder = repository.folder(name)
        for text in (text_of(f"{at}/{it}") for part in PARTS for at, _, names in os.walk(f"{folder}/{part}") for it in names):
            for cited in {*re.findall(r"\bRattle\.(\w+)", text)} & {*repository.deps} - {name}:
                found.setdefault(cited, set()).update(statements.words_of([text]))
    return found


class Digests:
    """The digests of a repository's crates, each with what those below it state, and of their edits."""

    def __init__(self, repository):
        self.repository, self.made = repository, {}
        self.judge = digest(text_of(f"{TOOLS}/must_fail.py"))
        self.cited = cited_words(repository)

    def of_files(self, name, parts, read):
        """Returns the digest of a crate's files in these of its folders, read so, with its row of crates.txt and what the crates below it state."""
        if (name, parts) not in self.made:
            folder = self.repository.folder(name)
            files = sorted(os.path.relpath(f"{at}/{it}", folder) for part in parts for at, _, names in os.walk(f"{folder}/{part}") for it in names)
            rows = [it for it in text_of(f"{self.repository.top}/crates.txt").split("\n") if re.split(r"[ :]", it)[0] == name]
            self.made[name, parts] = digest(*rows, *map(self.statements, self.repository.deps[name]), *read(folder, files))
        return self.made[name, parts]

    def statements(self, name):
        return self.of_files(name, ("src", "specs"), lambda folder, files: statements.stated(folder, files, self.cited.get(name, set())))

    def crate(self, name):
        return digest(self.judge, self.of_files(name, PARTS, statements.whole))

    def edits(self):
        """Returns the digest of each edit, by its crate's and its own name."""
        files = {f"{crate}/{os.path.basename(it)}": it for crate in self.repository.deps for it in self.repository.edits(crate)}
        return {name: digest(self.crate(name.split("/")[0]), name, text_of(it)) for name, it in files.items()}

    def tests(self):
        """Returns the digest of each crate that has tests, by its name."""
        return {it: self.of_files(it, PARTS, statements.whole) for it in self.repository.deps if self.repository.has_tests(it)}

    def of(self, record):
        """Returns the digest of each thing that a record is of, by its name."""
        return self.edits() if record == REFUSED else self.tests()


def recorded(path):
    """Returns a record: by the kits that saw something the digests of what each saw, by their names."""
    rows = text_of(path).split("\n") if os.path.isfile(path) else []
    by_kit, its = {}, {}
    for it in rows:
        first, _, rest = it.partition(" ")
        if first == "kit":
            its = by_kit.setdefault(rest, {})
        elif first and first != "#":
            its[first] = rest
    return by_kit


def commit(top):
    """Returns the name of the commit that the repository stands at, or nothing where there is none."""
    ran = subprocess.run(["git", "-C", top, "rev-parse", "--verify", "-q", "HEAD"], capture_output=True, text=True)
    return ran.stdout.strip()


def sample(names, of_commit):
    """Returns the sample of these edits, which the commit's hash puts first: of one crate after another, since a crate's first edit costs as much as ten more."""
    ordered = sorted(names, key=lambda it: (digest(of_commit, it.split("/")[0]), digest(of_commit, it)))
    return set(ordered[: math.ceil(SAMPLE * len(names))])


def spared(repository, digests=None):
    """Returns the edits that need not be tried, and how many of the record are tried as its sample. Without a commit all are tried."""
    of_commit, known = commit(repository.top), known_here(f"{repository.top}/tools/{REFUSED}")
    made = (digests or Digests(repository)).edits() if of_commit else {}
    held = {it for it, its in made.items() if its in known.get(it, ()) and is_applied(repository, it)}
    tried = sample(held, of_commit)
    return held - tried, len(tried)


def proves_tests(of_commit):
    """Returns whether the tests are proved at this commit, whatever the record says."""
    return int(digest(of_commit, PROVED), 16) % round(1 / SAMPLE) == 0


def tests_spared(repository, digests=None):
    """Returns the crates whose tests need not be proved. Without a commit all are proved."""
    of_commit, known = commit(repository.top), known_here(f"{repository.top}/tools/{PROVED}")
    made = (digests or Digests(repository)).tests() if of_commit and not proves_tests(of_commit) else {}
    return {it for it, its in made.items() if its in known.get(it, ())}


def is_applied(repository, name):
    """Returns whether an edit finds its text: a digest does not see how lines are laid out."""
    crate, file = name.split("/")
    folder = repository.folder(crate)
    return read_edit(f"{folder}/must-fail/{file}", folder) is not None


def known_here(path):
    """Returns what a record says that counts on this kit: by their names the digests under which kits of its logic saw these things."""
    known = {}
    for of_kit, its in recorded(path).items():
        if kit.logic_of(of_kit) == kit.logic_of(kit.identity()):
            for name, made in its.items():
                known.setdefault(name, set()).add(made)
    return known


def as_it_holds(repository, record, tried, seen):
    """Returns a record as it holds now: of what was tried now what was seen, and of all else, and of other kits, that of which a record still holds."""
    made, by_kit = Digests(repository).of(record), {kit.identity(): {}}
    for folder in ("tools", ".git"):
        for of_kit, known in recorded(f"{repository.top}/{folder}/{record}").items():
            by_kit[of_kit] = by_kit.get(of_kit, {}) | {it: its for it, its in known.items() if made.get(it) == its}
    untried = {it: its for it, its in by_kit[kit.identity()].items() if it not in tried}
    by_kit[kit.identity()] = untried | {it: its for it, its in made.items() if it in tried and it in seen}
    return by_kit


def leave(repository, record, tried, seen):
    """Writes a record as it holds now into .git/. It is to be copied to tools/."""
    if os.path.isdir(f"{repository.top}/.git"):
        by_kit = as_it_holds(repository, record, tried, seen)
        parts = [[f"kit {of_kit}\n", *(f"{it} {its}\n" for it, its in sorted(rows.items()))] for of_kit, rows in sorted(by_kit.items()) if rows]
        with open(f"{repository.top}/.git/{record}", "w", encoding="utf-8") as it:
            it.writelines([HEADINGS[record], *(row for part in parts for row in part)])
