"""Sessions of threads, timed by the clock and by the processor: what a turn, a hand-over and an idle worker cost, and
how many times as long they take as drawn moves of the same programs, as plain threads that hand over or meet as often,
and as the same bound to one processor.
"""

import os
import random
import subprocess
import sys
import time
from collections.abc import Callable, Iterable
from dataclasses import dataclass
from pathlib import Path

from loops import LARGE, LARGE_PAGE, PAGE_SIZE, hits, loop, ring
from timing import run_once, write_lines

sys.path.append(str(Path(__file__).resolve().parent.parent / "stress"))
import phases

RUNS = 3
DRAWN_PAGES = 8
COMPUTES = "while True: pass"
PLAIN = Path(__file__).resolve().parent / "plain.c"


@dataclass(frozen=True)
class Session:
    """The programs of a session for a number of units, and how many processes compute beside it."""

    name: str
    unit: str
    count: int
    text: Callable[[int], Iterable]
    beside: int = 0
    options: tuple = ()
    # What plain threads do so often, and how many.
    plain: tuple | None = None
    # Whether drawn moves of the same programs are timed, too.
    drawn: bool = False
    # Whether it is timed on one processor, too.
    bound: bool = False
    # The programs of one node of so many, whose turns a second are compared.
    alone: tuple | None = None
    runs: int = RUNS


def barrier(meetings):
    """Eight nodes meet so often: each advances the one count, and awaits that all have."""
    for node in range(8):
        yield from (f"node {node}", "set r1 8", "set r2 8")
        yield from loop(meetings, ["advance r0", "await r3 r0 r1", "add r1 r1 r2"])


def meet(_):
    """Thirty-two nodes meet once."""
    for node in range(32):
        yield from (f"node {node}", "set r1 32", "advance r0", "await r2 r0 r1")


def tree(_):
    """Thirty-two nodes add their numbers by twos, and two such sums by twos, up to one. A sum stands in a word of its
    node, and the node's count says that it does.
    """
    for node in range(32):
        yield from (f"node {node}", f"set r1 {PAGE_SIZE + 8 * node}", f"set r2 {node + 1}", "set r3 1")
        step = 1
        while step < 32 and node % (2 * step) == 0:
            other = node + step
            yield from (f"set r4 {other}", "await r5 r4 r3", f"set r6 {PAGE_SIZE + 8 * other}", "load 8 r7 r6")
            yield "add r2 r2 r7"
            step *= 2
        yield "store 8 r1 r2"
        yield from ("print r2",) if node == 0 else (f"set r4 {node}", "advance r4")


def page(hand_overs):
    """Two nodes in turn add to one word, so the word's page is handed to and fro."""
    for node in range(2):
        yield from (f"node {node}", f"set r1 {node}", "set r2 2", f"set r4 {LARGE_PAGE}", "set r5 1")
        body = ["await r3 r0 r1", "load 8 r6 r4", "add r6 r6 r5", "store 8 r4 r6", "advance r0", "add r1 r1 r2"]
        yield from loop(hand_overs // 2, body)


def sums(numbers):
    """Node 0 stores so many numbers; each of eight sums an eighth of them, and all sum the eight sums."""
    first, sum_page, part = 2 * LARGE_PAGE, LARGE_PAGE, numbers // 8
    for node in range(8):
        yield from (f"node {node}", "set r2 8", "set r5 1")
        if node == 0:
            yield f"set r1 {first}"
            yield from loop(numbers, ["store 8 r1 r14", "add r1 r1 r2"], "fill")
            yield "advance r0"
        yield from ("await r3 r0 r5", f"set r1 {first + 8 * part * node}", "set r4 0")
        yield from loop(part, ["load 8 r3 r1", "add r4 r4 r3", "add r1 r1 r2"], "part")
        yield from (f"set r1 {sum_page + 8 * node}", "store 8 r1 r4", "advance r5", "await r3 r5 r2")
        yield from (f"set r1 {sum_page}", "set r4 0")
        yield from loop(8, ["load 8 r3 r1", "add r4 r4 r3", "add r1 r1 r2"], "all")
        yield "print r4"


def drawn_phases(count):
    """Thirty-two nodes store and load in phases, as drawn by `stress/run phases`."""
    text = phases.Text(random.Random("drawn"), 32, DRAWN_PAGES, PAGE_SIZE)
    for _ in range(count):
        text.phase()
    yield from text.programs().splitlines()


def waits(laps):
    """Node 0 computes alone, and seven nodes wait until it is done."""
    yield "node 0"
    yield from loop(laps, [])
    yield "advance r0"
    for node in range(1, 8):
        yield from (f"node {node}", "set r1 1", "await r2 r0 r1")


LOSSY = ("--capacity", "32", "--pulse", "1024")
NARROW = ("--capacity", "7")

SESSIONS = (
    Session("run-hits-1", "lap", 1_000_000, hits(1)),
    Session("run-hits-8", "lap", 1_000_000, hits(8), alone=(hits(1), 8)),
    Session("run-ring-2", "hand-over", 4_000, ring(2)),
    Session("run-ring-2-beside", "hand-over", 4_000, ring(2), beside=4),
    Session("run-ring-8", "hand-over", 1_600, ring(8), plain=("ring", 8), bound=True),
    Session("run-barrier", "meeting", 300, barrier, plain=("meet", 8), bound=True),
    Session("run-meet-32", "session", 1, meet, drawn=True, bound=True, runs=10),
    Session("run-tree-32", "session", 1, tree, drawn=True, bound=True, runs=10),
    Session("run-drawn-32", "phase", 4, drawn_phases, drawn=True, bound=True),
    Session("run-drawn-32-lossy", "phase", 4, drawn_phases, options=LOSSY, drawn=True, bound=True),
    Session("run-drawn-32-narrow", "phase", 4, drawn_phases, options=NARROW, drawn=True, bound=True),
    Session("run-page", "hand-over", 10_000, page, options=(*LARGE, "2")),
    Session("run-sum", "number", 80_000, sums, options=(*LARGE, "160")),
    Session("run-waits", "lap", 3_000_000, waits),
)


def timed(words):
    """The seconds of the clock and of the processor that a run takes, and the greatest memory that it had, in MiB."""
    began = time.monotonic()
    seconds, memory = run_once(words, 0)
    return time.monotonic() - began, seconds, memory


def walls(words):
    """The seconds of several runs, in order."""
    return sorted(timed(words)[0] for _ in range(RUNS))


def all_ended(program, file, moves):
    """Whether so many drawn moves are enough for all programs to end."""
    words = [program, "sim", file, "--moves", str(moves)]
    printed = subprocess.run(words, stdout=subprocess.PIPE, check=True, text=True).stdout
    return all(line.endswith(" ended") for line in printed.splitlines() if line.count(":") == 0)


def drawn_wall(program, file):
    """The seconds of the least drawn moves after which all programs have ended."""
    most = 1
    while not all_ended(program, file, most):
        most *= 2
    least = most // 2
    while least + 1 < most:
        middle = (least + most) // 2
        least, most = (least, middle) if all_ended(program, file, middle) else (middle, most)
    return walls([program, "sim", file, "--moves", str(most)])[0]


def plain_words(kind, threads, count, folder):
    """The words of plain threads, which are compiled here."""
    plain = Path(folder) / "plain"
    subprocess.run(["cc", "-O2", "-pthread", PLAIN, "-o", plain], check=True)
    return [plain, kind, str(threads), str(count)]


def on_one(words):
    """The seconds of a run on one processor, at best."""
    first = min(os.sched_getaffinity(0))
    return walls(["taskset", "-c", str(first), *words])[0]


def times(wall, other):
    return f"{wall / other:.2f}"


def compared(program, session, file, folder, clocks):
    """How the seconds of the clock compare: with plain threads, with drawn moves (the median and the longest), with one
    processor and, of plain threads, the same; and so many nodes' turns a second with those of one.
    """
    shown = dict.fromkeys(("plain", "sim", "one", "plain one", "node"), "")
    least, median = clocks[0], clocks[len(clocks) // 2]
    words = [program, "run", file, *session.options]
    if session.bound:
        shown["one"] = times(least, on_one(words))
    if session.plain:
        plain = plain_words(*session.plain, session.count, folder)
        wall = walls(plain)[0]
        shown["plain"] = times(least, wall)
        shown["plain one"] = times(wall, on_one(plain))
    if session.drawn:
        wall = drawn_wall(program, file)
        shown["sim"] = f"{times(median, wall)} {times(clocks[-1], wall)}"
    if session.alone:
        text, nodes = session.alone
        other = write_lines(Path(folder) / "alone", text(session.count))
        shown["node"] = times(nodes * walls([program, "run", other, *session.options])[0], least)
    return shown.values()


def row_of(program, session, folder):
    """The columns of a session: the clock and the processor of the run that took the least time of so many."""
    others = [subprocess.Popen([sys.executable, "-c", COMPUTES]) for _ in range(session.beside)]
    file = write_lines(Path(folder) / "program", session.text(session.count))
    try:
        runs = sorted(timed([program, "run", file, *session.options]) for _ in range(session.runs))
    finally:
        for other in others:
            other.kill()
            other.wait()
    wall, seconds, memory = runs[0]
    kept = (session.name, session.unit, session.count)
    clocks = [clock for clock, _, _ in runs]
    columns = (f"{wall:.3f}", f"{clocks[-1]:.3f}", f"{seconds:.3f}", f"{wall / session.count * 1e6:.3f}")
    return *kept, *columns, f"{memory:.0f}", *compared(program, session, file, folder, clocks)
