"""A lock whose nodes spin on a word, beside the same lock with awaits, where there are more nodes than processors."""

import statistics
import subprocess
import time
from dataclasses import dataclass
from pathlib import Path

from loops import PAGE_SIZE, loop
from timing import write_lines

RUNS = 11
SECTIONS = 10
LIMIT = 10
ROW = "{:<12} {:>10} {:>10} {:>10} {:>8} {:>6}"
HEAD = ("spins", "await ms", "spin ms", "longest", "ratio", "limit")


@dataclass(frozen=True)
class Spin:
    """So many nodes raise a number under a lock."""

    name: str
    nodes: int


SPINS = (Spin("spins-8", 8), Spin("spins-16", 16))


def sections(nodes, waits, leaves):
    """Each node draws a ticket by a fetch-and-add, waits for its turn, raises the number, and lets the next one go."""
    for node in range(nodes):
        yield from (f"node {node}", "set r1 1", f"set r2 {PAGE_SIZE}", f"set r3 {2 * PAGE_SIZE}", f"set r4 {3 * PAGE_SIZE}")
        raises = ["load 8 r9 r4", "add r9 r9 r1", "store 8 r4 r9"]
        yield from loop(SECTIONS, ["fadd 8 r6 r2 r1", *waits, *raises, *leaves])


def spinning(nodes):
    waits = ["label look", "load 8 r7 r3", "sub r8 r6 r7", "jumpz r8 turn", "jump look", "label turn"]
    return sections(nodes, waits, ["add r6 r6 r1", "store 8 r3 r6"])


def awaiting(nodes):
    return sections(nodes, ["await r7 r0 r6"], ["advance r0"])


def seconds_of(program, file):
    """The seconds of a run, and whether it ended well."""
    began = time.monotonic()
    done = subprocess.run([program, "run", file], stdout=subprocess.DEVNULL, stderr=subprocess.DEVNULL)
    return time.monotonic() - began, done.returncode == 0


def row_of(program, spin, folder):
    """The columns of a row, and whether it is within its limit: the runs of both kinds take turns."""
    awaits = write_lines(Path(folder) / "awaits", awaiting(spin.nodes))
    spins = write_lines(Path(folder) / "spins", spinning(spin.nodes))
    runs = [(seconds_of(program, awaits), seconds_of(program, spins)) for _ in range(RUNS)]
    usual = statistics.median(seconds for (seconds, _), _ in runs)
    clocks = [seconds for _, (seconds, _) in runs]
    ratio = statistics.median(clocks) / usual
    all_ended = all(ended for run in runs for _, ended in run)
    times = (f"{1000 * seconds:.0f}" for seconds in (usual, statistics.median(clocks), max(clocks)))
    return (spin.name, *times, f"{ratio:.1f}", LIMIT), all_ended and ratio <= LIMIT
