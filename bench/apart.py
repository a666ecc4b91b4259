"""Programs that lie apart from the crates, in files that end in `.rattle`, since the gate takes a `.rt` file for one that
no check reads. Each is proved and built in a root of its own, with the crates of the repository as hard links.
"""

import os
import re
import shutil
import subprocess
import sys
from dataclasses import dataclass
from pathlib import Path

ROOT = Path(__file__).resolve().parent.parent
BUILT = Path("out", "rlib")


def crates_below(lines, name):
    """The crates of the repository that this one stands on, each after those below it, and then it."""
    found = []
    for used in lines[name].partition(":")[2].split():
        if used in lines:
            found += [it for it in crates_below(lines, used) if it not in found]
    return [*found, name]


def link(folder, to):
    """Makes a folder anew, with hard links to the files of another one, if there is one."""
    shutil.rmtree(to, ignore_errors=True)
    if folder.is_dir():
        shutil.copytree(folder, to, copy_function=os.link)


def is_newer(file, other):
    """Whether a file is there, and newer than another one or alone."""
    return file.is_file() and (not other.is_file() or file.stat().st_mtime > other.stat().st_mtime)


def ran(command, folder):
    """A command that has ended, with what it printed."""
    return subprocess.run(command, cwd=folder, stdin=subprocess.DEVNULL, capture_output=True, text=True)


@dataclass(frozen=True)
class Apart:
    """A program: its line of crates.txt, the folder of its files, and those that it has from other folders."""

    line: str
    sources: Path
    others: tuple[Path, ...] = ()

    @property
    def name(self):
        return self.line.partition(":")[0]

    def listed(self):
        """The line of each crate, the program's among them."""
        told = [line.partition("#")[0].strip() for line in (ROOT / "crates.txt").read_text().splitlines()]
        lines = {re.split("[ :]", line, maxsplit=1)[0]: line for line in told if line}
        return {**lines, self.name: self.line}

    def make_root(self, top):
        """A root with the program and what it stands on, and with what is built of that: the program's folder there, and
        the crates that are not proved. What an earlier call built there stays.
        """
        lines = self.listed()
        crates = crates_below(lines, self.name)
        top.mkdir(parents=True, exist_ok=True)
        (top / "crates.txt").write_text("".join(f"{lines[it]}\n" for it in crates))
        shutil.copy(ROOT / "HANDLES", top)
        for crate in crates[:-1]:
            here, there = ROOT / "crates" / crate, top / "crates" / crate
            for part in ("src", "specs", "proofs"):
                link(here / part, there / part)
            if is_newer(here / BUILT / "stamp", there / BUILT / "stamp"):
                link(here / BUILT, there / BUILT)
        folder = top / "crates" / self.name
        shutil.rmtree(folder / "src", ignore_errors=True)
        (folder / "src").mkdir(parents=True)
        for file in (*self.sources.glob("*.rattle"), *self.others):
            shutil.copy(file, folder / "src" / f"{file.stem}.rt")
        return folder, [it for it in crates[:-1] if not (top / "crates" / it / BUILT).is_dir()]

    def build(self, top, tried):
        """Proves and builds the program, and tries it with these words."""
        folder, missing = self.make_root(top)
        if missing:
            sys.exit(f"{self.name}: not proved yet: {' '.join(missing)}: run rt lib in their folders")
        print(f"{self.name}: the program is proved and built, which takes minutes where it is new", file=sys.stderr)
        done = ran(["rt", "run", "--", *tried], folder)
        if done.returncode:
            sys.exit(f"{self.name}: the program could not be built\n{done.stderr}")
        return folder / "out" / self.name
