#!/usr/bin/env python3
"""Checks one crate of a checkout, or builds its library, over libraries that are kept by content.

    tools/check_over.py CHECKOUT CRATE [build] [options of rattle]

Several checkouts share what is the same in them: libraries lie in the folder that STORE names (/work/store), each under a
sum over the kit and all files that it was built from. What a check finds is kept beside them and used by the next one, so
it is for work between gates, and no gate. A crate below that has no library there yet is handed on as source, as rattle
takes it with --lib: a check is slower then, and needs no wait. `build` wants all libraries below built so before, in the
order of crates.txt.
"""
import hashlib
import os
import subprocess
import sys

KIT = "/opt/rattle"
STORE = os.environ.get("STORE", "/work/store")
BUILD = "build"


def lines_of(checkout):
    """The crates of the checkout, each with its line's head and what it names."""
    crates = {}
    with open(f"{checkout}/crates.txt", encoding="utf-8") as file:
        for line in file:
            line = line.split("#")[0].strip()
            if line:
                head, named = line.split(":", 1)
                crates[head.split()[0]] = (head, named.split())
    return crates


def below(crate, crates, known=None):
    """The checkout's crates that this one stands on, the lowest first. Each is looked at once, however many ways lead to it."""
    known = {} if known is None else known
    if crate not in known:
        found = {}
        for named in crates[crate][1]:
            if named in crates:
                found |= dict.fromkeys([*below(named, crates, known), named])
        known[crate] = list(found)
    return known[crate]


def sum_of(checkout, crate, crates):
    """The sum over the kit, the crate's line and its files."""
    with open(f"{KIT}/KIT-ID", encoding="utf-8") as file:
        total = hashlib.sha256((file.read() + str(crates[crate])).encode())
    for part in ("src", "specs", "proofs"):
        for folder, folders, files in os.walk(f"{checkout}/crates/{crate}/{part}"):
            folders.sort()
            for name in sorted(files):
                total.update(os.path.relpath(f"{folder}/{name}", checkout).encode())
                with open(f"{folder}/{name}", "rb") as file:
                    total.update(file.read())
    return total.hexdigest()


def library(checkout, crate, crates):
    """Where the crate's library is, or goes."""
    sums = [sum_of(checkout, c, crates) for c in sorted(below(crate, crates)) + [crate]]
    return f"{STORE}/{crate}-{hashlib.sha256(''.join(sums).encode()).hexdigest()[:20]}"


def is_built(checkout, crate, crates):
    """Whether the crate has its library."""
    return os.path.exists(f"{library(checkout, crate, crates)}/{crate}.rlib")


def root_of(checkout, crate):
    """The crate's root file, from its folder."""
    files = ("src/main.rt", "src/lib.rt")
    return next(f for f in files if os.path.exists(f"{checkout}/crates/{crate}/{f}"))


def words(checkout, crate, crates):
    """The words of rattle for the crate: what is built below as libraries, the rest as sources."""
    out = ["--crate-name", crate, root_of(checkout, crate), "--extern", f"std={KIT}/rlibs/std.rlib"]
    out += ["-L", f"dependency={KIT}/rlibs"]
    ours = below(crate, crates)
    for c in ours:
        if all(is_built(checkout, d, crates) for d in below(c, crates) + [c]):
            folder = library(checkout, c, crates)
            out += ["-L", f"dependency={folder}", "--extern", f"{c}={folder}/{c}.rlib"]
        else:
            root = f"{checkout}/crates/{c}/{root_of(checkout, c)}"
            out += ["--lib", f"{c}:{','.join(['std'] + crates[c][1])}={root}"]
    kits = {named for c in ours + [crate] for named in crates[c][1] if named not in crates}
    for named in sorted(kits):
        out += ["--extern", f"{named}={KIT}/rlibs/{named}.rlib"]
    return out + ["--antt-project", f"{KIT}/rattle/logic/antt-project.json",
                  "--logic-built", f"{KIT}/logic_built", "--links", f"{crate}="]


def main():
    checkout, crate, options = os.path.abspath(sys.argv[1]), sys.argv[2], sys.argv[3:]
    crates = lines_of(checkout)
    is_build = BUILD in options
    missing = [c for c in below(crate, crates) if not is_built(checkout, c, crates)]
    if is_build and missing:
        sys.exit(f"no library yet of {', '.join(missing)}")
    kept = f"{STORE}/kept-{os.path.basename(checkout)}-{crate}"
    os.makedirs(kept, exist_ok=True)
    command = [f"{KIT}/bin/rattle", BUILD if is_build else "check", *words(checkout, crate, crates)]
    command += ["--jobs", "1", "--incremental", kept, *(o for o in options if o != BUILD)]
    if is_build:
        folder = library(checkout, crate, crates)
        os.makedirs(folder, exist_ok=True)
        command += ["-o", f"{folder}/{crate}.rlib"]
    sys.exit(subprocess.call(command, cwd=f"{checkout}/crates/{crate}"))


if __name__ == "__main__":
    main()
