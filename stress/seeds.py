"""Runs the two programs that each store and then load the other's word under drawn moves, for the seeds 1 to 1000, or to
the last that is named, and 10000 moves each, under either manager. Every run has to end with one loaded value a node,
not 0 at both, and to print the same bytes when it is made again.

In the same way it runs two nodes that each advance one count twice, over pages of 64 bytes, for the seeds 1 to
100. Wherever all programs ended, node 0, which awaits the four advances, has to print 4.

Before that it computes the first drawn moves that the tests of `crates/test_programs/src/commands/draws.rt` expect,
by the definition of the generator (O'Neill's PCG, XSH RR on 64 bits, seeded as the Rust crate `rand_core` seeds by a
number) and of a draw, with no code of this repository, and compares them with the moves that stand there.
"""

import re
import subprocess
from collections import Counter

from running import EXAMPLES, MANAGERS, ROOT, program_of

DRAWS = ROOT / "crates" / "test_programs" / "src" / "commands" / "draws.rt"
BUFFERING = EXAMPLES / "store_buffering.ivy"
ADVANCES = EXAMPLES / "four_advances.ivy"
LAST = 1000
LAST_OF_ADVANCES = 100
MOVES = 10_000
LOADED = re.compile(r"node 0: ([01])\nnode 1: ([01])\nnode 0 ended\nnode 1 ended\n")
ALL_ENDED = "node 0 ended\nnode 1 ended\nnode 2 ended\n"

MULTIPLIER = 6364136223846793005
SEED_INCREMENT = 11634580027462260723
WORD = 2**64


def output(state):
    """XSH RR: a xorshift of the high bits, rotated right by the top five."""
    word = ((state >> 18) ^ state) >> 27 & 0xFFFFFFFF
    turn = state >> 59
    return (word >> turn | word << (32 - turn)) & 0xFFFFFFFF


def seed_bytes(seed):
    """The sixteen bytes that `seed_from_u64` makes: four words, each of the state after a step."""
    state, parts = seed, []
    for _ in range(4):
        state = (state * MULTIPLIER + SEED_INCREMENT) % WORD
        parts.append(output(state).to_bytes(4, "little"))
    return b"".join(parts)


class Generator:
    """Lcg64Xsh32, whose words are of the state before the step."""

    def __init__(self, seed):
        data = seed_bytes(seed)
        self.increment = int.from_bytes(data[8:], "little") | 1
        self.state = int.from_bytes(data[:8], "little") + self.increment
        self.step()

    def step(self):
        self.state = (self.state * MULTIPLIER + self.increment) % WORD

    def word(self):
        word = output(self.state)
        self.step()
        return word


def draw(generator, nodes, dests):
    """The next move, where `dests` has the destination of each string sent."""
    kind, place = generator.word() % 8, generator.word()
    if kind < 4 or (kind < 7 and not dests):
        return f"Turn({place % nodes})"
    if kind < 7:
        index = len(dests) - 1 - place % min(len(dests), 64)
        return f"Deliver{{index:{index},to:{dests[index]}}}"
    source = place % nodes
    others = [node for node in range(nodes) if node != source]
    return f"Pulse{{from:{source},to:{others[generator.word() % (nodes - 1)]}}}"


def expected_moves():
    """Of each test of drawn moves: seed, number of nodes, destinations of the strings, and the moves."""
    for test in DRAWS.read_text().split("#[test]")[1:]:
        seed, nodes = re.search(r"check\(&rt, ([\w:]+), (\d+),", test).groups()
        seed = WORD - 1 if seed == "u64::MAX" else int(seed)
        dests = [int(dest) for dest in re.findall(r"string_to\(&rt, alloc, (\d+)\)", test)]
        moves = re.findall(r"Move::(\w+(?:\(\d+\)| \{[^}]*\}))", test)
        yield seed, int(nodes), dests, [move.replace(" ", "") for move in moves]


def draws_agree():
    good = True
    for seed, nodes, dests, moves in expected_moves():
        generator = Generator(seed)
        drawn = [draw(generator, nodes, dests) for _ in moves]
        print(f"seed {seed}: the first {len(moves)} moves {'agree' if drawn == moves else 'DIFFER'}")
        good &= drawn == moves
    return good


class Simulation:
    """A build of the program, which makes drawn moves."""

    def __init__(self, program):
        self.program = program

    def printed(self, programs, seed, manager, options=()):
        words = [self.program, "sim", programs, "--seed", str(seed), "--moves", str(MOVES), *options]
        run = subprocess.run([*words, "--manager", manager], check=True, stdout=subprocess.PIPE, text=True)
        return run.stdout

    def seeds_agree(self, last, manager):
        good, counts = True, Counter()
        for seed in range(1, last + 1):
            text = self.printed(BUFFERING, seed, manager)
            loaded = LOADED.fullmatch(text)
            again = self.printed(BUFFERING, seed, manager)
            if loaded is None or loaded.groups() == ("0", "0") or again != text:
                print(f"{manager}, seed {seed}: {text!r}")
                good = False
            else:
                counts[" ".join(loaded.groups())] += 1
        print(f"{manager}, seeds 1 to {last}: " + ", ".join(f"{k}: {n}" for k, n in sorted(counts.items())))
        return good

    def advances_agree(self, manager):
        good, ended = True, 0
        for seed in range(1, LAST_OF_ADVANCES + 1):
            text = self.printed(ADVANCES, seed, manager, ["--pages", "2", "--page-size", "64"])
            if not text.endswith(ALL_ENDED):
                continue
            ended += 1
            if text != "node 0: 4\n" + ALL_ENDED:
                print(f"{manager}, seed {seed}: {text!r}")
                good = False
        print(f"{manager}, four advances, seeds 1 to {LAST_OF_ADVANCES}: {ended} ended")
        return good


def add_words(parser):
    parser.add_argument(
        "last", nargs="?", type=int, default=LAST, metavar="LAST", help=f"the last seed of the first program; {LAST}"
    )


def is_good(options):
    """Whether each run prints what it has to, and the tests expect the moves that the definition gives."""
    good = [draws_agree()]
    simulation = Simulation(program_of(options))
    good += [simulation.seeds_agree(options.last, manager) for manager in MANAGERS]
    good += [simulation.advances_agree(manager) for manager in MANAGERS]
    return all(good)
