"""Plays of own code by drawn moves, all on one processor."""

import os
import subprocess
import sys
import time
from dataclasses import dataclass

from apart import ROOT, Apart

# It lies apart from the crates: in the gate its proof would take five processor minutes.
APART = Apart(
    "plays: ivy_model ivy_calls ivy_sync ivy_moves ivy_world ivy_texts ivy_charts ivy_replay ivy_play example_programs anyhow",
    ROOT / "bench" / "plays",
)
PLAYS = 1_000
MOST_SECONDS = 10


@dataclass(frozen=True)
class Play:
    """Plays of a program of `bench/plays`, by as many seeds under either manager as make a thousand of both."""

    name: str
    program: str


MEASURES = (Play("plays-4", "pace"),)


def built_program():
    """The program, which is built where it has to be."""
    return APART.build(ROOT / ".git" / "ivy-plays", ("0", "0", "none"))


def measure_plays(program, chosen):
    """Runs the measures. Whether each is within its limit."""
    good = True
    for play in chosen:
        words = [program, "0", str(PLAYS // 2 - 1), play.program]
        began = time.monotonic()
        done = subprocess.run(
            words, stdout=subprocess.DEVNULL, preexec_fn=lambda: os.sched_setaffinity(0, {min(os.sched_getaffinity(0))})
        )
        seconds = time.monotonic() - began
        if done.returncode != 0:
            sys.exit(f"{play.name}: status {done.returncode}")
        within = seconds <= MOST_SECONDS
        print(f"{play.name}: {PLAYS} plays in {seconds:.1f} s", "" if within else "ABOVE ITS LIMIT", flush=True)
        good &= within
    return good
