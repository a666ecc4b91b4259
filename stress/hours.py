"""Runs sessions whose programs make calls without end, one after another, each for so many seconds, and looks at the
memory that the program has had at most: once a minute has passed, it has to stay the same within 1 MiB. The programs
are those of `bench/measure mem`, with more calls than there is time for; each session is ended when its time is over.

    stress/run hours 3600          each of them, for an hour
    stress/run hours 60 mem-hits   those alone whose names begin so

What the memory was is printed each time that it grew.
"""

import signal
import subprocess
import sys
import tempfile
import time
from pathlib import Path

from running import ROOT, positive, program_of

sys.path.append(str(ROOT / "bench"))

import memories
from timing import write_lines

TIME = 600
MANY_CALLS = 2**62
STARTING = 60
MOST_APART = 1.0
BETWEEN = 1.0


def add_words(words):
    words.add_argument("seconds", nargs="?", type=positive, default=TIME, metavar="SECONDS", help="of each session")
    words.add_argument("names", nargs="*", metavar="NAME")


def greatest(process):
    """The greatest memory that a process has had, in MiB; None where it has ended."""
    try:
        lines = Path(f"/proc/{process.pid}/status").read_text().splitlines()
    except OSError:
        return None
    sizes = [int(line.split()[1]) for line in lines if line.startswith("VmHWM:")]
    return sizes[0] / 1024 if sizes else None


def watch(process, seconds):
    """Whether the memory of a process stays the same until so many seconds have passed."""
    begun = time.monotonic()
    first = last = None
    while time.monotonic() - begun < seconds:
        time.sleep(BETWEEN)
        size = greatest(process)
        if size is None or process.poll() is not None:
            print(f"  ended after {time.monotonic() - begun:.0f} s")
            return False
        if last is None or size > last:
            print(f"  {time.monotonic() - begun:7.0f} s {size:10.2f} MiB", flush=True)
            last = size
        if first is None and time.monotonic() - begun >= min(STARTING, seconds / 2):
            first = size
    return last - first <= MOST_APART


def is_flat(program, measure, seconds):
    """Whether a session takes no more memory than at first."""
    print(measure.name, flush=True)
    with tempfile.TemporaryDirectory() as room:
        file = write_lines(Path(room) / "program", measure.text(MANY_CALLS))
        words = [program, "run", file, *memories.NO_LIMIT, *measure.options]
        process = subprocess.Popen(words, stdout=subprocess.DEVNULL, stderr=subprocess.DEVNULL)
        try:
            return watch(process, seconds)
        finally:
            process.send_signal(signal.SIGKILL)
            process.wait()


def is_good(options):
    program = program_of(options)
    chosen = [m for m in memories.MEMORIES if not options.names or m.name.startswith(tuple(options.names))]
    return all([is_flat(program, measure, options.seconds) for measure in chosen])
