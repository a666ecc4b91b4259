"""The crates of the repository, as crates.txt lists them."""

import pathlib
import re

ROOT = pathlib.Path(__file__).resolve().parent.parent
CRATES = ROOT / "crates"


def dependencies():
    """Of each crate of crates.txt, in its order, the libraries that it names: those of the kit too."""
    found = {}
    for line in (ROOT / "crates.txt").read_text(encoding="utf-8").splitlines():
        head, _, used = line.partition("#")[0].partition(":")
        if head.strip():
            found[head.split()[0]] = used.split()
    return found


def wings():
    """The headings of crates.txt, up to their colon, and the crates under each."""
    found = []
    for line in (ROOT / "crates.txt").read_text(encoding="utf-8").splitlines():
        if line.startswith("# "):
            found.append((line[2:].partition(":")[0], []))
        elif line.strip():
            found[-1][1].append(re.split(r"[ :]", line)[0])
    return found


def root_of(crate):
    """The root file of a crate."""
    library = CRATES / crate / "src" / "lib.rt"
    return library if library.exists() else library.with_name("main.rt")


def is_of_tests(crate):
    return crate.startswith("test_")


def sources(crate):
    """The files of a crate that have its code, its definitions and its proofs."""
    for part in ("src", "specs", "proofs"):
        yield from sorted(it for it in (CRATES / crate / part).rglob("*") if it.suffix in (".rt", ".antt"))
