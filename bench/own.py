"""Own code in Rattle: what its calls, locks, barriers, queues and blocks cost, beside a plain lock, plain threads and the
same as a text.

The program that is timed lies in `bench/own`, and is proved and built apart from the crates.
"""

import os
import sys
import tempfile
from collections.abc import Callable
from dataclasses import dataclass
from math import inf
from pathlib import Path

from apart import ROOT, Apart, ran
from loops import PAGE_SIZE, loop
from memories import FEW_CALLS, MOST_APART, SWAP, TIMES
from sessions import barrier
from timing import write_lines

EXAMPLE = ROOT / "examples" / "producer_consumer.ivy"
SOURCES = ROOT / "bench" / "own"
# The drawn blocks are those of the plays.
ARRAYS = ROOT / "bench" / "plays" / "arrays.rattle"
# What is built stays where the gate does not look.
KEPT = ROOT / ".git" / "ivy-bench"
APART = Apart(
    "bench_own: ivy_model ivy_alloc ivy_calls ivy_sync example_programs ivy_program ivy_session ivy_own anyhow",
    SOURCES,
    (ARRAYS,),
)
RUNS = 5
# How many times fewer units an unproved program does, which is checked as it runs.
FEWER = 100
TRY_SECONDS = 600
PLACES = 64
ROWS = 32
SUMMING = 4
MULTIPLYING = 4


def built_program(top=KEPT):
    """The program, which is built where it has to be."""
    return APART.build(top, ("mutex", "1", "1"))


class Program:
    """The program that runs own code and texts."""

    def __init__(self, top, unproved):
        self.unproved = unproved
        self.folder, _ = APART.make_root(top)
        if not unproved:
            built_program(top)

    def run(self, *words):
        """The nanoseconds that a run counts, and its greatest memory in MiB."""
        command = [self.folder / "out" / APART.name, *words]
        if self.unproved:
            command = ["rt", "try", "--seconds", TRY_SECONDS, "--", *words]
        done = ran(list(map(str, command)), self.folder)
        if done.returncode:
            sys.exit(f"own: {' '.join(map(str, words))}: status {done.returncode}\n{done.stderr}")
        nanoseconds, peak = done.stdout.splitlines()[:2]
        return int(nanoseconds), int(peak.split()[1]) / 1024

    def text(self, lines):
        """The same of a text of programs."""
        # `rt try` hands over files that lie in the program's folder.
        file = write_lines(self.folder / "text", lines)
        return self.run("text", "text" if self.unproved else file)


@dataclass(frozen=True)
class Own:
    """What own code does so often, how many units that is, and beside what it is timed."""

    name: str
    unit: str
    count: int
    words: Callable[[int], tuple]
    beside: Callable[[Program, int], tuple]
    limit: float
    # Units of the words' count, and of what it is beside: the nanoseconds of one are compared.
    units: int = 1
    other_units: int = 1
    # Whether the ratio may be no less than its limit.
    least: bool = False
    runs: int = RUNS


def words(kind, nodes):
    return lambda count: (kind, count, nodes)


def own(kind, nodes):
    """Beside the same program, which does something else."""
    return lambda program, count: program.run(kind, count, nodes)


def text(lines):
    """Beside a session of a text."""
    return lambda program, count: program.text(lines(count))


def allowed(nanoseconds):
    """Beside what one unit may take."""
    return lambda program, count: (nanoseconds * count, 0)


def copied(program, count):
    """Beside one and a half copies of as many bytes, and 40 ns."""
    return 1.5 * program.run("copies", count, 1)[0] + 40 * count, 0


def queue(count):
    """The producer and the consumer of the examples, with so many numbers and as many places as own code has."""
    written = EXAMPLE.read_text()
    for found, new in (
        ("set r7 10 ", f"set r7 {count} "),
        ("set r7 10\n", f"set r7 {count}\n"),
        ("set r3 288", f"set r3 {PAGE_SIZE + 8 * PLACES}"),
        ("advance r1\n" * 3, "advance r1\n" * (PLACES - 1)),
    ):
        if found not in written:
            sys.exit(f"own: {EXAMPLE} lacks {found!r}")
        written = written.replace(found, new)
    return written.splitlines()


def small_queue(count):
    """The producer and the consumer of the examples, with so many numbers."""
    return EXAMPLE.read_text().replace("set r7 10", f"set r7 {count}").splitlines()


def sums(count):
    """Nodes that raise a number under a lock, each so often."""
    take, give = SWAP
    for node in range(SUMMING):
        yield from (f"node {node}", f"set r1 {PAGE_SIZE}", f"set r2 {2 * PAGE_SIZE}", "set r3 1", "set r4 0")
        yield from loop(count, [*take, "load 8 r6 r2", "add r6 r6 r3", "store 8 r2 r6", *give])


def draws(count):
    """Eight nodes, of which each draws an eighth of so many jobs."""
    for node in range(8):
        yield from (f"node {node}", f"set r1 {PAGE_SIZE}", "set r2 1")
        yield from loop(count // 8, ["fadd 8 r3 r1 r2"])


def product(_):
    """As many nodes as rows: each stores its row of the matrix on the right, meets the others, and prints its row of
    the product. What is on the left it makes as it goes.
    """
    for node in range(ROWS):
        yield from (f"node {node}", f"set r1 {PAGE_SIZE * (1 + node)}", "set r2 8", f"set r3 {ROWS * node}")
        yield from loop(ROWS, ["store 8 r1 r3", "add r1 r1 r2", "add r3 r3 r15"], "share")
        yield from ("set r4 0", "advance r4", f"set r5 {ROWS}", "await r6 r4 r5", f"set r4 {8 * ROWS}")
        yield from (f"set r7 {ROWS}", f"set r8 {PAGE_SIZE}", "label column")
        yield from ("set r9 0", f"set r10 {ROWS * node}", "mov r11 r8")
        body = ["load 8 r13 r11", "mul r13 r13 r10", "add r9 r9 r13", "add r10 r10 r15", "add r11 r11 r4"]
        yield from loop(ROWS, body, "entry")
        yield from ("print r9", "add r8 r8 r2", "sub r7 r7 r15", "jumpz r7 done", "jump column", "label done")


OWN = (
    Own("own-hit", "hit", 2_000_000, words("hits", 1), own("mutex", 1), 2.0, units=2),
    Own("own-eight", "hit", 8_000_000, words("hits", 8), own("hits", 1), 3.4, units=16, other_units=2, least=True),
    Own("own-lock", "lock, unlock", 2_000_000, words("lock", 1), own("hits", 1), 4.0, other_units=2),
    Own("own-barrier", "meeting of 8", 1_000, words("barrier", 8), text(barrier), 1.3),
    *(
        Own(f"own-{form}-{nodes}", f"meeting of {nodes}", 1_000, words(f"{form}_barrier", nodes), own("barrier", nodes), inf)
        for nodes in (2, 4, 8)
        for form in ("word", "tree")
    ),
    Own("own-queue", "number", 10_000, words("queue", 2), text(small_queue), 1.0),
    Own("own-queue-64", "number", 10_000, words("queue", 2), text(queue), 1.0),
    Own("own-sum", "addition of 4", 5_000, words("sum", SUMMING), text(sums), 1.0),
    Own("own-draws", "job", 200_000, words("draws", 8), text(draws), 1.0),
    Own("own-product", "product of 32", 1, words("product", ROWS), text(product), 1.1, runs=15),
    Own("own-block", "page read", 1_000_000, words("blocks", 1), copied, 1.0),
    Own("own-heap", "block", 1_000, words("heap", 1), allowed(20_000), 1.0),
    Own("own-page", "hand-over", 10_000, words("page_blocks", 2), own("page_words", 2), 1.3),
    Own("own-sweep", "page of 56", 200, words("sweep", 2), own("sweep_pages", 2), 1.0, units=56, other_units=56),
    Own(
        "own-matrices",
        "product of 512",
        1,
        words("matrices", MULTIPLYING),
        own("plain_matrices", MULTIPLYING),
        1.5,
    ),
    Own("own-matrices-one", "product of 512", 1, words("matrices", MULTIPLYING), own("matrices", 1), 3.0, least=True),
)
ROW = "{:<16} {:<14} {:>9} {:>13} {:>13} {:>7} {:>6} {:>6}"
HEAD = ("own code", "unit", "K", "ns each", "other's", "ratio", "limit", "load")


def least_of(program, measure, count):
    """The least nanoseconds of several runs, of own code and of what it is beside, one after the other."""
    times = 1 if program.unproved else measure.runs
    runs = [(program.run(*measure.words(count))[0], measure.beside(program, count)[0]) for _ in range(times)]
    return min(mine for mine, _ in runs), min(other for _, other in runs)


def time_own(program, measure):
    """Prints a row. Whether the ratio is within its limit."""
    count = max(1, measure.count // FEWER) if program.unproved else measure.count
    mine, other = least_of(program, measure, count)
    mine, other = mine / count / measure.units, other / count / measure.other_units
    ratio = other / mine if measure.least else mine / other
    load = f"{os.getloadavg()[0]:.1f}"
    shown = (measure.name, measure.unit, count, f"{mine:.1f}", f"{other:.1f}", f"{ratio:.2f}", measure.limit, load)
    within = program.unproved or (ratio >= measure.limit if measure.least else ratio <= measure.limit)
    print(ROW.format(*shown), "" if within else "BEYOND ITS LIMIT", flush=True)
    return within


@dataclass(frozen=True)
class Flat:
    """The greatest memory at so many calls and at ten times as many."""

    name: str


def weigh_own(program, measure):
    """Prints both. Whether they are the same."""
    calls = FEW_CALLS // FEWER if program.unproved else FEW_CALLS
    few, many = (program.run("hits", times * calls // 2, 1)[1] for times in (1, TIMES))
    within = program.unproved or many - few <= MOST_APART
    shown = f"{measure.name}: after {calls} calls {few:.2f} MiB, after {TIMES * calls} calls {many:.2f} MiB"
    print(shown, "" if within else "BEYOND ITS LIMIT", flush=True)
    return within


@dataclass(frozen=True)
class Wide:
    """A session of two nodes with so many pages, of which few are used: the most seconds and MiB that it may take."""

    name: str
    pages: int
    seconds: float
    memory: float


def open_wide(program, measure):
    """Prints the least time of several such sessions, and the greatest memory. Whether both are within their limits."""
    pages = measure.pages // FEWER if program.unproved else measure.pages
    runs = [program.run("wide", pages, 2) for _ in range(1 if program.unproved else RUNS)]
    seconds, memory = min(nanoseconds for nanoseconds, _ in runs) / 1e9, max(peak for _, peak in runs)
    within = program.unproved or (seconds <= measure.seconds and memory <= measure.memory)
    shown = f"{seconds:.3f} s (at most {measure.seconds}), {memory:.1f} MiB (at most {measure.memory})"
    print(f"{measure.name}: {pages} pages: {shown}", "" if within else "BEYOND ITS LIMIT", flush=True)
    return within


MEASURES = (*OWN, Flat("own-memory"), Wide("own-wide", pages=65_536, seconds=0.2, memory=64))
RUN = {Own: time_own, Flat: weigh_own, Wide: open_wide}


def measure_own(chosen, unproved):
    """Runs the measures. Whether each is within its limit."""
    with tempfile.TemporaryDirectory() as room:
        # It is built anew where there is no such folder.
        program = Program(KEPT if KEPT.parent.is_dir() else Path(room), unproved)
        if any(isinstance(measure, Own) for measure in chosen):
            print(ROW.format(*HEAD), flush=True)
        within = [RUN[type(it)](program, it) for it in chosen]
    return all(within)
