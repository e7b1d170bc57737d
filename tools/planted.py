#!/usr/bin/env python3
"""Plants the bugs of planted/*.bugs in a copy of the repository, and prints for each how it is found out: by a proof (of which function, at
which goal), by a test, or not at all. Where all that fails is a file with a proof, which fits no more, the row says so: it tells less.

    tools/planted.py [--alone] [--jobs N] [GROUP..]     with no group, all of planted/

A function is proved from the contracts of those that it calls, and not from their code. So bugs in different functions of a crate are planted
together, and each is looked for at its own function; one that is not found there, or that stands in no function, is planted alone. With --alone
every bug is. What passes the check of its crate is left to the gate: the proofs of the crates above it, programs and tests.

It begins with what earlier checks left in crates/*/out, and is no part of the gate.
"""
import argparse
import re
import shutil
import subprocess
import sys
import tempfile
from concurrent.futures import ThreadPoolExecutor
from pathlib import Path

ROOT = Path(__file__).resolve().parent.parent

# The head of a function, by its name, or of another item, which has none.
HEAD = re.compile(r'^ *(?:pub(?:\(crate\))? |extern "C" )*fn (\w+)|^[a-z]', re.M)


class Bug:
    """A record of a group: what the bug is, its file, and what is replaced by what."""

    def __init__(self, record):
        fields = [line.split(": ", 1) for line in record.splitlines()]
        self.name, self.file = (next(text for key, text in fields if key == wanted) for wanted in ("bug", "file"))
        olds, news = ([text for key, text in fields if key == wanted] for wanted in ("old", "new"))
        self.pairs = list(zip(olds, news, strict=True))
        self.crate = self.file.split("/")[0]
        self.text = (ROOT / "crates" / self.file).read_text()
        self.fits = all(self.text.count(old) == 1 for old in olds)
        self.function = self.home()
        self.found = None if self.fits else "NOT A BUG: an old text does not stand once"

    def home(self):
        """The name of the function that all of it stands in, if it stands in one."""
        ends = [self.text.find(old) + len(old) for old, _ in self.pairs]
        heads = [max((head for head in HEAD.finditer(self.text) if head.start() < end), key=re.Match.start, default=None) for end in ends]
        return heads[0] and heads[0].group(1) if len({head and head.start() for head in heads}) == 1 else None


class Copy:
    """A copy of the repository, in which bugs are planted."""

    def __init__(self):
        self.top = Path(tempfile.mkdtemp())
        for folder in ("crates", "tools"):
            shutil.copytree(ROOT / folder, self.top / folder, symlinks=True)
        shutil.copy(ROOT / "crates.txt", self.top)
        # An edit of must-fail/ need not fit a text in which a bug stands.
        for edits in self.top.glob("crates/*/must-fail"):
            shutil.rmtree(edits)

    def complaint(self, bugs, *command, folder="."):
        """What the command prints with these bugs planted, if it fails."""
        texts = {bug.file: bug.text for bug in bugs}
        for bug in bugs:
            for old, new in bug.pairs:
                texts[bug.file] = texts[bug.file].replace(old, new)
        for file, text in texts.items():
            (self.top / "crates" / file).write_text(text)
        done = subprocess.run(command, cwd=self.top / folder, stdout=subprocess.PIPE, stderr=subprocess.STDOUT)
        for file in texts:
            shutil.copy(ROOT / "crates" / file, self.top / "crates" / file)
        return done.stdout.decode(errors="replace") if done.returncode else None

    def check(self, crate, *bugs):
        return self.complaint(bugs, "rt", "check", folder=f"crates/{crate}")


def refusals(complaint):
    """The functions of which a fact is not proved, each with that fact's goal."""
    return dict(re.findall(r"^fn (\S+): no proof: .*?`search` did not prove `([^`]*)`", complaint or "", re.M))


def try_together(copy, bugs):
    goals = refusals(copy.check(bugs[0].crate, *bugs))
    for bug in bugs:
        own = [path for path in goals if path.split("::")[-1] == bug.function]
        if len(own) == 1:
            bug.found = f"proof: `{own[0]}` (`{goals[own[0]]}`)"


def what_fails(complaint):
    """What is not proved, from the output of a check; none where the check did not come so far."""
    for path, goal in refusals(complaint).items():
        return f"proof: `{path}` (`{goal}`)"
    for place, goal in re.findall(r"^note: (src/\S+?):[\d:]+ .*\(`([^`]*)`\)", complaint, re.M):
        return f"proof: `{place}` (`{goal}`)"
    for path in re.findall(r"^fn (\S+): not proved(?!; it calls)", complaint, re.M):
        return f"proof file: `{path}`"
    if error := re.search(r"^\./(?:proofs|specs)/(\S+?): error", complaint, re.M):
        return f"proof file: `{error[1]}`"
    return None


def try_alone(copy, bug):
    for crate in (bug.crate, *crates_above(bug.crate)):
        if complaint := copy.check(crate, bug):
            return what_fails(complaint) or "NOT A BUG: " + re.search(r"^error.*|\Z", complaint, re.M).group()
    if complaint := copy.complaint([bug], "bash", "-c", "rt ci && tools/full.sh"):
        return "test: " + re.search(r".*(?:not proved|FAILED|[1-9] failed|ends with [^1]).*|\Z", complaint).group()
    return "SURVIVED"


def crates_above(crate):
    """The crates that stand on this one, from the lines of crates.txt."""
    lines = [line.split(":") for line in (ROOT / "crates.txt").read_text().splitlines() if ":" in line and not line.startswith("#")]
    return [name.split()[0] for name, below in lines if crate in below.split()]


def rounds(bugs):
    """Those that stand in functions, in rounds with no function twice."""
    made = []
    for bug in bugs:
        place = (bug.file, bug.function)
        if bug.fits and bug.function:
            turn = next((turn for turn in made if place not in turn), None)
            if turn is None:
                made.append(turn := {})
            turn[place] = bug
    return [list(turn.values()) for turn in made]


def try_crate(bugs, alone):
    copy = Copy()
    try:
        for turn in [] if alone else rounds(bugs):
            try_together(copy, turn)
        for bug in bugs:
            bug.found = bug.found or try_alone(copy, bug)
            print(f"| {bug.crate} | {bug.name} | {bug.found} |", flush=True)
    finally:
        shutil.rmtree(copy.top)


def main():
    arguments = argparse.ArgumentParser(description=__doc__, formatter_class=argparse.RawDescriptionHelpFormatter)
    arguments.add_argument("--alone", action="store_true", help="plant every bug alone")
    arguments.add_argument("--jobs", type=int, default=2, help="how many crates at a time")
    arguments.add_argument("groups", nargs="*")
    given = arguments.parse_args()
    files = [ROOT / "planted" / f"{group}.bugs" for group in given.groups] or sorted(ROOT.glob("planted/*.bugs"))
    bugs = [Bug(record) for file in files for record in file.read_text().strip().split("\n\n")]
    crates = {}
    for bug in bugs:
        crates.setdefault(bug.crate, []).append(bug)
    with ThreadPoolExecutor(given.jobs) as pool:
        list(pool.map(lambda crate: try_crate(crate, given.alone), crates.values()))
    ways = [bug.found.split(":")[0] for bug in bugs]
    print(", ".join(f"{ways.count(way)} {way}" for way in sorted(set(ways))))
    sys.exit(any(way not in ("proof", "proof file", "test") for way in ways))


if __name__ == "__main__":
    main()
