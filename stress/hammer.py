"""Runs the programs that have their output beside them in as many sessions of threads as a time allows: under either
manager, over ethers of 1, 2, 3 and 256 items, and with a pulse in each turn on the wire, or in each 7th up to each
1,024th. All of these sessions are run in a drawn order, then all again in another, and so on. Whatever the threads
do, a run has to end with status 0 and to print the text that lies beside its program.

What differs is printed at once, with its command line. Then follow the number of sessions, those over each ether, and
the longest session.
"""

import random
import shlex
import threading
import time
from collections import Counter
from concurrent.futures import ThreadPoolExecutor

from running import MANAGERS, Session, names_with_output, positive, program_of, run

TIME = 600
CAPACITIES = (1, 2, 3, 256)
PULSES = (1, 7, 10, 32, 100, 320, 1024)


def drawn(seed):
    """Every session, in one order after another."""
    draw = random.Random(seed)
    every = [
        Session(name, manager, capacity, pulse)
        for name in names_with_output()
        for manager in MANAGERS
        for capacity in CAPACITIES
        for pulse in PULSES
    ]
    while True:
        draw.shuffle(every)
        yield from every


class Hammer:
    """Sessions up to a moment, and what came of them so far. Several threads may run them at a time."""

    def __init__(self, program, seed, until):
        self.program = program
        self.sessions = drawn(seed)
        self.until = until
        self.lock = threading.Lock()
        self.capacities = Counter()
        self.wrong = 0
        self.longest = None

    def next(self):
        """The next session, or none where the time is over."""
        with self.lock:
            return next(self.sessions) if time.monotonic() < self.until else None

    def note(self, ended):
        with self.lock:
            self.capacities[ended.session.capacity] += 1
            if self.longest is None or ended.seconds > self.longest.seconds:
                self.longest = ended
            if ended.wrong:
                self.wrong += 1
                print(ended.wrong, flush=True)

    def strike(self):
        """Runs one session after another."""
        while session := self.next():
            self.note(run(self.program, session))

    def tell(self):
        print(f"{self.capacities.total():,} sessions, {self.wrong:,} that differ")
        for capacity in CAPACITIES:
            print(f"capacity {capacity}: {self.capacities[capacity]:,}")
        if self.longest:
            print(f"longest: {self.longest.seconds:.2f} s, {shlex.join(self.longest.session.words())}")


def add_words(parser):
    parser.add_argument(
        "seconds", nargs="?", type=float, default=TIME, metavar="SECONDS", help=f"begin sessions for so long; {TIME}"
    )
    parser.add_argument("--seed", type=int, default=1, metavar="S", help="of the order; 1 without it")
    parser.add_argument(
        "--jobs", type=positive, default=1, metavar="N", help="sessions at a time, each of two threads a node; 1"
    )


def is_good(options):
    """Whether no session differs."""
    program = program_of(options)
    hammer = Hammer(program, options.seed, time.monotonic() + options.seconds)
    with ThreadPoolExecutor(options.jobs) as pool:
        workers = [pool.submit(hammer.strike) for _ in range(options.jobs)]
    # A worker's exception is raised here.
    for worker in workers:
        worker.result()
    hammer.tell()
    return hammer.wrong == 0
