"""What a measure is, and one run of a program, timed."""

import functools
import os
import subprocess
import sys
import tempfile
from collections.abc import Callable
from dataclasses import dataclass
from pathlib import Path

PEAK = Path(__file__).resolve().parent / "peak.c"
LINEAR = 2.3
LEAST_RUNS = 3
LEAST_SECONDS = 2


@dataclass(frozen=True)
class Measure:
    """A command line of `ivy` for a number of units, whose files are written into a folder for it."""

    name: str
    unit: str
    count: int
    words: Callable[[Path, int], list]
    limit: float = LINEAR
    status: int = 0
    # The measure whose unit may take at least half as long.
    beside: str | None = None


def write_lines(file, lines):
    """Writes the lines one by one, so that this script stays smaller than what it measures."""
    with file.open("w") as text:
        text.writelines(f"{line}\n" for line in lines)
    return file


@functools.cache
def peak_folder():
    """A folder that goes when this script ends, with the program that says how much memory another one had. What the
    system would say of a child of this script is no less than what this script had.
    """
    folder = tempfile.TemporaryDirectory()
    subprocess.run(["cc", "-O2", PEAK, "-o", Path(folder.name) / "peak"], check=True)
    return folder


def weighed(told, words):
    """The words of a run that also writes the greatest memory that it had into a file of this name, and that file."""
    room = Path(peak_folder().name)
    return [room / "peak", room / told, *words], room / told


def peak_of(told):
    """The greatest memory that such a run had, in MiB."""
    return int(told.read_text()) / 1024


def run_once(words, status):
    """The processor seconds that a run takes, and the greatest memory that it had, in MiB."""
    command, told = weighed("memory", words)
    run = subprocess.Popen(command, stdout=subprocess.DEVNULL, stderr=subprocess.DEVNULL)
    _, ended, usage = os.wait4(run.pid, 0)
    run.returncode = os.waitstatus_to_exitcode(ended)
    if run.returncode != status:
        sys.exit(f"{' '.join(map(str, words))}: status {run.returncode}")
    return usage.ru_utime + usage.ru_stime, peak_of(told)


def best(words, status):
    """The best time of three runs, or of as many as take two seconds, and the greatest memory of all."""
    runs = []
    while len(runs) < LEAST_RUNS or sum(seconds for seconds, _ in runs) < LEAST_SECONDS:
        runs.append(run_once(words, status))
    return min(seconds for seconds, _ in runs), max(memory for _, memory in runs)
