#!/usr/bin/env python3
"""Counts messages, and for how many rounds a load or store waits, by manager: N nodes of libivy in one process, whose turns
and deliveries a seed draws, those of each pair in order (as `bench/meetings.py`).

    bench/rounds.py LIBRARY [SEEDS]

LIBRARY is libivy.so, as tools/bindings makes it. SEEDS is 20 where it is left out: so many even worlds and as many uneven ones
of each line, N and manager, whose programs are the same under each manager.

A round of a node is a list of moves with a turn of it, by whose end all is delivered that had been sent at its beginning
(docs/ASSURANCE.md). A wait is how many rounds of the asker end, one after another, from the turn in which it asks to the one
in which its call is recorded; where so many are proved to be enough, that is the limit. In an even world each move is as
likely as any other. In an uneven one each node and each pair has a pace, 1, 2, 4, up to 64, so some are passed by for long.

| Line | What each node does with one page, 40 times |
|---|---|
| `half` | it loads a word or stores it, whichever is drawn |
| `turns` | it loads a word, and stores it where that is its turn |
"""

import collections
import itertools
import random
import sys

from meetings import PAGE, World, load, load_library, store

NODES = (8, 32)
MANAGERS = ("fixed", "dynamic", "steady")
TIMES = 40
PACES = [2**power for power in range(7)]
SEEDS = 20
# The rounds that are proved to answer a call of N nodes.
LIMITS = {"fixed": lambda nodes: 6 * nodes + 3, "steady": lambda nodes: 4 * nodes + 1}
ROW = "{:<8} {:<6} {:>6} {:<9} {:>16} {:>13} {:>10} {:>6}"
HEAD = ("rounds", "worlds", "nodes", "manager", "messages a call", "longest wait", "mean wait", "limit")


def half(me, nodes, draws):
    for time in range(TIMES):
        yield store(PAGE, time) if draws.randrange(2) else load(PAGE)


def turns(me, nodes, draws):
    for time in range(TIMES):
        yield store(PAGE, time) if time % nodes == me else load(PAGE)


class Wait:
    """Of a node that waits: how many rounds ended, what was sent as the one began in which it is, and its turn in that."""

    def __init__(self, sent):
        self.rounds, self.sent, self.had_turn = 0, sent, False


class Counted(World):
    """A world that counts the rounds for which its nodes wait."""

    def __init__(self, library, nodes, manager, seed, is_even):
        super().__init__(library, nodes, manager, seed)
        self.paces = None if is_even else collections.defaultdict(lambda: self.random.choice(PACES))
        # The numbers of the frames under way, in the order sent: of all, and of each pair.
        self.under_way, self.numbers = collections.OrderedDict(), collections.defaultdict(collections.deque)
        self.sent = 0
        self.waits, self.waited = {}, []

    def draw(self, moves):
        weights = None if self.paces is None else [self.paces[move] for move in moves]
        return self.random.choices(moves, weights)[0]

    def put(self, link, frame):
        super().put(link, frame)
        self.under_way[self.sent] = None
        self.numbers[link].append(self.sent)
        self.sent += 1

    def deliver(self, link):
        del self.under_way[self.numbers[link].popleft()]
        super().deliver(link)
        for me in self.waits:
            self.end_round(me)

    def had_turn(self, me, is_waiting):
        if me in self.waits:
            self.waits[me].had_turn = True
            self.end_round(me)
        elif is_waiting:
            self.waits[me] = Wait(self.sent)
        if not is_waiting:
            self.waited.append(self.waits.pop(me).rounds if me in self.waits else 0)

    def end_round(self, me):
        """Ends the round of a waiting node, if all is delivered that had been sent as it began, and begins the next one."""
        wait = self.waits[me]
        if wait.had_turn and next(iter(self.under_way), self.sent) >= wait.sent:
            wait.rounds, wait.sent, wait.had_turn = wait.rounds + 1, self.sent, False


def row_of(library, line, nodes, manager, is_even, seeds):
    """The messages of a call, and the longest and the mean wait of those that waited, over all seeds."""
    messages, waited = 0, []
    for seed in range(seeds):
        draws = [random.Random(1000 * seed + me) for me in range(nodes)]
        world = Counted(library, nodes, manager, seed, is_even)
        world.run([line(me, nodes, draws[me]) for me in range(nodes)])
        world.close()
        messages += world.messages
        waited += world.waited
    long = [rounds for rounds in waited if rounds]
    return f"{messages / len(waited):.2f}", max(waited), f"{sum(long) / len(long):.2f}"


def count_rounds(library, seeds):
    """Prints the table. Whether no wait is longer than it may be."""
    print(ROW.format(*HEAD))
    good = True
    for line, is_even, nodes, manager in itertools.product((half, turns), (True, False), NODES, MANAGERS):
        messages, longest, mean = row_of(library, line, nodes, manager, is_even, seeds)
        limit = LIMITS[manager](nodes) if manager in LIMITS else ""
        columns = (line.__name__, "even" if is_even else "uneven", nodes, manager, messages, longest, mean, limit)
        within = not limit or longest <= limit
        print(ROW.format(*columns), "" if within else "ABOVE ITS LIMIT", flush=True)
        good &= within
    return good


if __name__ == "__main__":
    if len(sys.argv) < 2:
        sys.exit(__doc__)
    sys.exit(not count_rounds(load_library(sys.argv[1]), int(sys.argv[2]) if len(sys.argv) > 2 else SEEDS))
