"""Runs drawn programs of 2 to 32 nodes in sessions of threads. They go in phases: first each node puts numbers into
words of which it is the one writer in this phase, by stores or by swaps, which give the old number; then all meet at a
count; then they load words of any width; then they meet again. So an array, kept by this script, says each number that
they print. Words of several writers lie side by side.

Drawn besides: manager (but with `--steady`), pages, their size from 64 to 4,096 bytes, the ether's capacity from 1, and
from 1 to 1,024 turns between pulses. Each session has to end in time with status 0, and to print what the array says.

What differs is printed at once, with its command line; its program is kept. Then follow the number of sessions and the
longest.
"""

import random
import shlex
import shutil
import subprocess
import tempfile
import time
from dataclasses import dataclass, replace
from pathlib import Path

from flat import Flat
from running import MANAGERS, STEADY, add_steady, positive, program_of, told_with

COUNT = 500
SECONDS = 5
# From so many items on an ether is no narrow one.
WIDE = 7
NARROW_SECONDS = 60
MOST_NODES = 32
MOST_PULSE = 1024
MOST_CAPACITY = 1024
PAGE_SIZES = (64, 128, 256, 512, 1024, 2048, 4096)
MOST_PAGES = 16
WIDTHS = (1, 2, 4, 8)
# The bytes that a phase hands out to writers in words, all of one writer or of several.
CELL = 8
MOST_CELLS = 24
MOST_PHASES = 8
# Of each writer in a phase, one with another.
MOST_WORDS = 12
MOST_LOADS = 5


def near_any_size(draw, most):
    """A number from 1 on, as often of few digits as of many."""
    return min(most, int(2 ** draw.uniform(0, most.bit_length())))


class Text:
    """The programs of a session as they grow, with the array that they work on and what they print."""

    def __init__(self, draw, nodes, pages, page_size):
        self.draw, self.nodes = draw, nodes
        self.lines = [[] for _ in range(nodes)]
        self.printed = [[] for _ in range(nodes)]
        self.heap = bytearray(pages * page_size)
        cells = range(page_size, pages * page_size, CELL)
        self.cells = draw.sample(cells, min(len(cells), draw.randint(1, MOST_CELLS)))
        self.written, self.loaded = draw.sample(range(page_size // 8), 2)
        self.met = 0
        for lines in self.lines:
            lines += [f"set r1 {self.written}", f"set r2 {self.loaded}"]

    def words(self):
        """Words that lie apart, which are all cells in parts."""
        for cell in self.cells:
            width = self.draw.choice(WIDTHS)
            yield from ((width, addr) for addr in range(cell, cell + CELL, width))

    def tell(self, node, value):
        self.lines[node].append("print r5")
        self.printed[node].append(value)

    def put(self, node, width, addr):
        """One node puts a number into a word."""
        old = int.from_bytes(self.heap[addr : addr + width], "big")
        value = self.draw.getrandbits(self.draw.choice((3, 8 * width, 64)))
        self.heap[addr : addr + width] = (value % 2 ** (8 * width)).to_bytes(width, "big")
        self.lines[node] += [f"set r3 {addr}", f"set r4 {value}"]
        if self.draw.random() < 0.3:
            self.lines[node].append(f"swap {width} r5 r3 r4")
            self.tell(node, old)
        else:
            self.lines[node].append(f"store {width} r3 r4")

    def get(self, node):
        """A node loads a word of any width."""
        width = self.draw.choice(WIDTHS)
        addr = self.draw.choice(self.cells) + width * self.draw.randrange(CELL // width)
        self.lines[node] += [f"set r3 {addr}", f"load {width} r5 r3"]
        self.tell(node, int.from_bytes(self.heap[addr : addr + width], "big"))

    def meet(self, count):
        """All meet at a count, by the number in this register."""
        for lines in self.lines:
            lines += [f"advance {count}", f"set r6 {self.nodes * self.met}", f"await r7 {count} r6"]

    def phase(self):
        self.met += 1
        words = list(self.words())
        self.draw.shuffle(words)
        # All nodes write in this phase, or few, or one.
        writers = self.draw.sample(range(self.nodes), self.draw.randint(1, self.nodes))
        for width, addr in words[: MOST_WORDS * len(writers)]:
            self.put(self.draw.choice(writers), width, addr)
        self.meet("r1")
        for node in range(self.nodes):
            for _ in range(self.draw.randint(0, MOST_LOADS)):
                self.get(node)
        self.meet("r2")

    def programs(self):
        return "".join(f"node {node}\n" + "\n".join(lines) + "\n" for node, lines in enumerate(self.lines))

    def output(self):
        return "".join(f"node {node}: {it}\n" for node, all_of in enumerate(self.printed) for it in all_of)


@dataclass(frozen=True)
class Drawn:
    """A session: its programs, what they are to print, and its options."""

    programs: str
    output: str
    pages: int
    page_size: int
    manager: str
    capacity: int
    pulse: int

    def words(self, file):
        words = ["run", str(file), "--pages", str(self.pages), "--page-size", str(self.page_size)]
        words += ["--manager", self.manager, "--capacity", str(self.capacity), "--pulse", str(self.pulse)]
        return words


def drawn(seed, number, least_pulse=1, most_nodes=MOST_NODES):
    """The session of this number, which is the same in each run by that seed and these bounds."""
    draw = random.Random(f"{seed} {number}")
    nodes = min(most_nodes, draw.choice((2, 3, 4, 8, draw.randint(2, MOST_NODES))))
    pages, page_size = draw.randint(2, MOST_PAGES), draw.choice(PAGE_SIZES)
    text = Text(draw, nodes, pages, page_size)
    for _ in range(draw.randint(1, MOST_PHASES)):
        text.phase()
    manager, capacity = draw.choice(MANAGERS), near_any_size(draw, MOST_CAPACITY)
    pulse = max(least_pulse, near_any_size(draw, MOST_PULSE))
    return Drawn(text.programs(), text.output(), pages, page_size, manager, capacity, pulse)


def wrong_of(program, session, file, seconds):
    """What is wrong with a session of the program, if anything is."""
    words = [program, *session.words(file)]
    try:
        done = subprocess.run(
            words,
            stdout=subprocess.PIPE,
            stderr=told_with(session.manager),
            text=True,
            errors="backslashreplace",
            timeout=seconds,
        )
    except subprocess.TimeoutExpired:
        return f"still runs after {seconds:g} seconds"
    if (done.returncode, done.stdout) == (0, session.output):
        return ""
    return f"status {done.returncode}, {done.stdout!r}, and not {session.output!r}"


def wrong_in_one_memory(session, number):
    """What is wrong with the programs on one memory, if anything is."""
    try:
        printed = Flat(session.programs, session.pages, session.page_size).run(number)
    except ValueError as fault:
        return str(fault)
    return "" if printed == session.output else f"{printed!r}, and not {session.output!r}"


def add_words(parser):
    parser.add_argument("--seed", type=int, default=1, metavar="S", help="of all that is drawn; 1")
    parser.add_argument("--count", type=positive, default=COUNT, metavar="N", help=f"so many sessions; {COUNT}")
    parser.add_argument("--first", type=positive, default=1, metavar="N", help="the number of the first one; 1")
    parser.add_argument("--least-pulse", type=positive, default=1, metavar="E", help="turns between pulses; 1")
    parser.add_argument(
        "--most-nodes",
        type=int,
        choices=range(2, MOST_NODES + 1),
        default=MOST_NODES,
        metavar="N",
        help=f"nodes of a session; {MOST_NODES}",
    )
    parser.add_argument(
        "--seconds",
        type=float,
        default=SECONDS,
        help=f"that a session may take at capacities from {WIDE} on; {SECONDS}",
    )
    parser.add_argument(
        "--narrow-seconds", type=float, default=NARROW_SECONDS, help=f"and below; {NARROW_SECONDS}"
    )
    parser.add_argument("--dry", action="store_true", help="run the programs on one memory of this script instead")
    add_steady(parser)


def is_good(options):
    """Whether each session ended in time and printed what the array says."""
    program = None if options.dry else program_of(options)
    folder = Path(tempfile.mkdtemp(prefix="ivy-phases-"))
    wrong, longest = 0, (0, "")
    for number in range(options.first, options.first + options.count):
        session = drawn(options.seed, number, options.least_pulse, options.most_nodes)
        if options.steady:
            session = replace(session, manager=STEADY)
        file = folder / f"{options.seed}-{number}.ivy"
        file.write_text(session.programs)
        began = time.monotonic()
        if options.dry:
            fault = wrong_in_one_memory(session, number)
        else:
            seconds = options.seconds if session.capacity >= WIDE else options.narrow_seconds
            fault = wrong_of(program, session, file, seconds)
        named = shlex.join(["ivyscope" if options.steady else "ivy", *session.words(file)])
        longest = max(longest, (time.monotonic() - began, named))
        if fault:
            wrong += 1
            print(f"{named}: {fault}", flush=True)
        else:
            file.unlink()
    if not wrong:
        shutil.rmtree(folder)
    print(f"{options.count:,} sessions, {wrong:,} that differ")
    print(f"longest: {longest[0]:.2f} s, {longest[1]}")
    return wrong == 0
