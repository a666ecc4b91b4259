#!/usr/bin/env python3
"""Runs two commands by turns, and prints each time that both tell beside the other's.

    bench/beside.py TIMES COMMAND -- COMMAND

A time is the first number before us or ms in a line, and its row is what stands before it. Of each the median of all runs is
printed, with the second's as so many times the first's. The status is 1 where a row is over 1.1.
"""

import re
import statistics
import subprocess
import sys

TIME = re.compile(r"(?m)^(.*?) (\d+\.\d+) (us|ms)\b")
MOST = 1.1


def times_of(command):
    """The times that a run tells, by their rows."""
    done = subprocess.run(command, stdout=subprocess.PIPE, text=True)
    if done.returncode:
        sys.exit(f"{' '.join(command)}: status {done.returncode}")
    return {row: (float(number), unit) for row, number, unit in TIME.findall(done.stdout)}


def main():
    words = sys.argv[2:]
    cut = words.index("--")
    runs = [(times_of(words[:cut]), times_of(words[cut + 1 :])) for _ in range(int(sys.argv[1]))]
    is_over = False
    for row, (_, unit) in runs[0][0].items():
        first, second = (statistics.median(run[which][row][0] for run in runs) for which in (0, 1))
        over = second > MOST * first
        print(f"{row} {first:.2f} {unit}, {second:.2f}, ratio {second / first:.2f}{' OVER' if over else ''}", flush=True)
        is_over |= over
    sys.exit(is_over)


main()
