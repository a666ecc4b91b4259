"""Sessions whose greatest memory is the same however many calls they make: each runs for so many calls, and for ten
times as many.
"""

from collections.abc import Callable, Iterable
from dataclasses import dataclass
from pathlib import Path

from loops import LARGE, LARGE_PAGE, PAGE_SIZE, hits, loop, ring
from timing import run_once, write_lines

FEW_CALLS = 1_000_000
TIMES = 10
# A MiB of pages that threads, their stacks and the allocator have used or not.
MOST_APART = 1.0
# A session stops at its limit of turns for each worker.
NO_LIMIT = ("--turns", str(2**63))


@dataclass(frozen=True)
class Memory:
    """The programs of a session that makes about so many calls."""

    name: str
    text: Callable[[int], Iterable]
    options: tuple = ()


def hitting(calls):
    """One node loads and stores a word of a page of its own."""
    return hits(1)(calls // 2)


def handing(size):
    """Two nodes in turn add to a word of a page of so many bytes."""

    def text(calls):
        for node in range(2):
            yield from (f"node {node}", f"set r1 {node}", "set r2 2", f"set r4 {size}", "set r5 1")
            body = ["await r3 r0 r1", "load 8 r6 r4", "add r6 r6 r5", "store 8 r4 r6", "advance r0", "add r1 r1 r2"]
            yield from loop(calls // 8, body)

    return text


def spinning(calls):
    """Node 1 loads a word again and again, which node 0 stores once node 1 has loaded it so often."""
    yield from ("node 0", "set r1 1", "await r2 r0 r1", f"set r3 {PAGE_SIZE}", "store 8 r3 r1")
    yield from ("node 1", f"set r3 {PAGE_SIZE}")
    yield from loop(calls, ["load 8 r4 r3"])
    yield from ("advance r0", "label wait", "load 8 r4 r3", "jumpz r4 wait")


def locking(take, give):
    """Four nodes take a lock, add to a word of another page, and give the lock back."""

    def text(calls):
        for node in range(4):
            yield from (f"node {node}", f"set r1 {PAGE_SIZE}", f"set r2 {2 * PAGE_SIZE}", "set r3 1", "set r4 0")
            yield from loop(calls // 20, [*take, "load 8 r6 r2", "add r6 r6 r3", "store 8 r2 r6", *give])

    return text


def ringing(calls):
    """Eight nodes in turn advance the one count that the next one awaits."""
    return ring(8)(calls // 2)


SWAP = (["label take", "swap 8 r5 r1 r3", "jumpz r5 taken", "jump take", "label taken"], ["store 8 r1 r4"])
CAS = (["label take", "cas 8 r5 r1 r4 r3", "jumpz r5 taken", "jump take", "label taken"], ["store 8 r1 r4"])

MEMORIES = (
    Memory("mem-hits", hitting),
    Memory("mem-page-256", handing(PAGE_SIZE)),
    Memory("mem-page-4096", handing(LARGE_PAGE), (*LARGE, "2")),
    Memory("mem-spin", spinning),
    Memory("mem-swap-lock", locking(*SWAP)),
    Memory("mem-cas-lock", locking(*CAS)),
    Memory("mem-ring-8", ringing),
)


def row_of(program, measure, folder):
    """The columns of a session: its greatest memory at so many calls and at ten times as many. And whether both are the
    same.
    """
    memories = []
    for calls in (FEW_CALLS, TIMES * FEW_CALLS):
        file = write_lines(Path(folder) / "program", measure.text(calls))
        _, memory = run_once([program, "run", file, *NO_LIMIT, *measure.options], 0)
        memories.append(memory)
    few, many = memories
    return (measure.name, FEW_CALLS, f"{few:.2f}", f"{many:.2f}", f"{many - few:+.2f}"), many - few <= MOST_APART
