"""Two nodes in processes of their own, over two fifos: what a page costs that goes to and fro, beside plain processes that
hand lines of that length to and fro; the memory of a node however long it runs; and a start from a long log.
"""

import os
import subprocess
import sys
import tempfile
import time
from dataclasses import dataclass
from pathlib import Path

from loops import PAGE_SIZE, LARGE_PAGE, loop
from timing import peak_of, weighed, write_lines

LINES = Path(__file__).resolve().parent / "lines.c"
# A frame with a page has 41 bytes beside it, two digits each, and its line two characters and an LF.
BESIDE = 41
RUNS = 3
MOST_TIMES = 3.0
MOST_APART = 1.0
MOST_SECONDS = 2.0
SMALL_PAGE = 64


def handing(size, hand_overs):
    """Two nodes in turn add to a word of a page of so many bytes."""
    for node in range(2):
        yield from (f"node {node}", f"set r1 {node}", "set r2 2", f"set r4 {size}", "set r5 1")
        body = ["await r3 r0 r1", "load 8 r6 r4", "add r6 r6 r5", "store 8 r4 r6", "advance r0", "add r1 r1 r2"]
        yield from loop(hand_overs // 2, body)


def options(size):
    return ("--pages", "2", "--page-size", str(size))


def logged(logs, node):
    """The option for a node's log, where the nodes keep logs."""
    return ("--log", logs[node]) if logs else ()


class Pair:
    """Two nodes, each of which hears what the other one says."""

    def __init__(self, program, file, words, logs):
        ends = [os.pipe(), os.pipe()]
        runs = [
            weighed(f"node-{node}", [program, "run", file, str(node), *words, *logged(logs, node)])
            for node in range(2)
        ]
        self.told = [told for _, told in runs]
        self.nodes = [
            subprocess.Popen(
                runs[node][0],
                stdin=ends[node][0],
                stdout=ends[1 - node][1],
                stderr=subprocess.PIPE,
                text=True,
            )
            for node in range(2)
        ]
        # This script keeps the ends at which the nodes hear and is heard: else a node that ends would end the other one.
        self.ends = ends

    def wait(self):
        """Waits until both programs have ended, ends both inputs, and says how much memory each had at most, in MiB."""
        for node in self.nodes:
            for line in node.stderr:
                if line.endswith(" ended\n"):
                    break
        began = time.monotonic()
        for node in self.nodes:
            node.terminate()
        for node in self.nodes:
            node.wait()
        memories = [peak_of(told) for told in self.told]
        for pair in self.ends:
            for end in pair:
                os.close(end)
        return began, max(memories)


def run_pair(program, file, words, logs):
    """The seconds until both programs have ended, and the greatest memory of a node, in MiB."""
    began = time.monotonic()
    ended, memory = Pair(program, file, words, logs).wait()
    return ended - began, memory


def plain_seconds(room, count, length):
    """The least seconds in which two plain processes hand so many lines to and fro."""
    plain = Path(room) / "lines"
    subprocess.run(["cc", "-O2", LINES, "-o", plain], check=True)
    found = []
    for _ in range(RUNS):
        began = time.monotonic()
        subprocess.run([plain, str(count), str(length)], check=True)
        found.append(time.monotonic() - began)
    return min(found)


def pages_taken(log, size):
    """How many strings with a page a log has, and how many strings."""
    with open(log) as lines:
        lengths = [len(line) for line in lines if line.startswith("took ")]
    return sum(length > 2 * size for length in lengths), len(lengths)


def least_seconds(program, file, size, logs):
    """The least seconds of some runs, and how many pages and strings went over in the last, where the nodes keep logs."""
    found, counted = [], []
    for _ in range(RUNS):
        found.append(run_pair(program, file, options(size), logs)[0])
        counted = [pages_taken(log, size) for log in logs]
        for log in logs:
            log.unlink()
    return min(found), [sum(column) for column in zip(*counted)]


def measure_page(program, room, size, count):
    """A row: a page that goes over, without and with logs, beside a plain line of the length of a page's line."""
    file = write_lines(Path(room) / "program", handing(size, count))
    logs = [Path(room) / f"{node}.log" for node in range(2)]
    seconds, (pages, strings) = least_seconds(program, file, size, logs)
    bare, _ = least_seconds(program, file, size, [])
    plain = plain_seconds(room, count, 2 * (BESIDE + size) + 3) / count
    row = f"nodes-page-{size}: {count} hand-overs, for which {pages} pages went over and {strings} strings"
    for kind, taken in (("without logs", bare), ("with logs", seconds)):
        row += f"; {kind} {taken / pages * 1e6:.1f} us a page, {taken / pages / plain:.2f} times a plain line"
    print(f"{row}; a plain line {plain * 1e6:.1f} us", flush=True)
    return bare / pages / plain <= MOST_TIMES


def measure_memory(program, room, count):
    """A node that keeps nothing of its past has the same memory after ten times as many hand-overs."""
    memories = []
    for times in (1, 10):
        file = write_lines(Path(room) / "program", handing(SMALL_PAGE, times * count))
        seconds, memory = run_pair(program, file, options(SMALL_PAGE), ["/dev/null", "/dev/null"])
        memories.append(memory)
        print(f"nodes-memory: {times * count} hand-overs: {memory:.2f} MiB, {seconds:.1f} s", flush=True)
    return memories[1] - memories[0] <= MOST_APART


def measure_restart(program, room, events):
    """How long a node takes to be made again from a log of so many events."""
    # Each hand-over is some nine events of a node.
    file = write_lines(Path(room) / "program", handing(SMALL_PAGE, events // 8))
    logs = [Path(room) / f"{node}.log" for node in range(2)]
    run_pair(program, file, options(SMALL_PAGE), logs)
    with open(logs[0]) as text:
        lines = [line for _, line in zip(range(events + 1), text)]
    logs[0].write_text("".join(lines))
    size = logs[0].stat().st_size
    found = []
    for _ in range(RUNS):
        began = time.monotonic()
        # Its input is at its end, so it is made again, makes turns, and ends.
        done = subprocess.run(
            [program, "run", file, "0", *options(SMALL_PAGE), "--log", logs[0]],
            stdin=subprocess.DEVNULL,
            stdout=subprocess.DEVNULL,
            stderr=subprocess.PIPE,
            text=True,
        )
        found.append(time.monotonic() - began)
        if done.returncode not in (0, 3):
            sys.exit(f"nodes-restart: {done.returncode} {done.stderr}")
    print(f"nodes-restart: {len(lines) - 1} events, {size / 1e6:.0f} MB: {min(found):.2f} s", flush=True)
    return min(found) <= MOST_SECONDS


@dataclass(frozen=True)
class Process:
    """A measure of nodes in processes, whose result is within its limit or not."""

    name: str
    run: object


PROCESSES = (
    Process("nodes-page-256", lambda program, room: measure_page(program, room, PAGE_SIZE, 20_000)),
    Process("nodes-page-4096", lambda program, room: measure_page(program, room, LARGE_PAGE, 10_000)),
    Process("nodes-memory", lambda program, room: measure_memory(program, room, 100_000)),
    Process("nodes-restart", lambda program, room: measure_restart(program, room, 1_000_000)),
)


def measure_processes(program, chosen):
    """Runs the measures. Whether each is within its limit."""
    good = True
    for process in chosen:
        with tempfile.TemporaryDirectory() as room:
            within = process.run(program, room)
        if not within:
            print(f"{process.name}: ABOVE ITS LIMIT", flush=True)
        good &= within
    return good
