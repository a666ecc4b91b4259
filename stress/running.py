"""What the scripts of this folder share: the program that they run, and one run of it in threads."""

import argparse
import shlex
import subprocess
import time
from dataclasses import dataclass
from pathlib import Path

ROOT = Path(__file__).resolve().parent.parent
EXAMPLES = ROOT / "examples"
MANAGERS = ("fixed", "dynamic")
# Which `ivy` does not take, but `ivyscope`.
STEADY = "steady"
# Far above what a run takes: one that takes longer is said to hang.
SECONDS = 300


def add_program(parser):
    """Has a parser of words know which build of the program is meant."""
    parser.add_argument("--program", metavar="FILE", type=Path, help="another build than that of this repository")


def add_steady(parser):
    """Has a parser of words know whether sessions run under steady hints."""
    parser.add_argument("--steady", action="store_true", help="under steady hints, by `ivyscope run`")


def parser_of(about):
    """A parser of a script's words, that knows which build of the program is meant."""
    parser = argparse.ArgumentParser(description=about, formatter_class=argparse.RawDescriptionHelpFormatter)
    add_program(parser)
    return parser


def program_of(options):
    """The program that was named, or else that of this repository, built where that has to be done: so no run is timed
    with it.
    """
    if options.program:
        return options.program.resolve()
    name = "ivyscope" if getattr(options, "steady", False) else "ivy"
    subprocess.run([ROOT / name, "run", EXAMPLES / "first_load.ivy"], check=True, stdout=subprocess.DEVNULL)
    return ROOT / "crates" / name / "out" / name


def positive(word):
    """The number that a word of the command line is, from 1 on."""
    number = int(word)
    if number < 1:
        raise argparse.ArgumentTypeError(f"{word} is below 1")
    return number


def names_with_output():
    """The programs that have their output beside them."""
    return sorted(out.stem for out in EXAMPLES.glob("*.out"))


@dataclass(frozen=True)
class Session:
    """A program of the examples with the options that it is run with."""

    name: str
    manager: str
    capacity: int
    pulse: int

    def words(self):
        words = ["run", str(EXAMPLES / f"{self.name}.ivy"), "--manager", self.manager]
        return words + ["--capacity", str(self.capacity), "--pulse", str(self.pulse)]

    def wanted(self):
        """The status that it has to end with, and all that is to be printed."""
        return (0, (EXAMPLES / f"{self.name}.out").read_text())


@dataclass(frozen=True)
class Ended:
    """How a session ended, the seconds that it took, and what is wrong with that, if anything is."""

    session: Session
    status: int | None
    seconds: float
    wrong: str


def told_with(manager):
    """Where standard error goes beside what is compared: of calls that are refused `ivyscope` tells there."""
    return subprocess.DEVNULL if manager == STEADY else subprocess.STDOUT


def run(program, session):
    """Runs a session, and says what came of it."""
    words = [program, *session.words()]
    named = shlex.join(str(word) for word in words)
    began = time.monotonic()
    try:
        done = subprocess.run(
            words,
            stdout=subprocess.PIPE,
            stderr=told_with(session.manager),
            text=True,
            errors="backslashreplace",
            timeout=SECONDS,
        )
    except subprocess.TimeoutExpired:
        return Ended(session, None, SECONDS, f"{named}: still runs after {SECONDS} seconds")
    took = time.monotonic() - began
    good = (done.returncode, done.stdout) == session.wanted()
    return Ended(
        session, done.returncode, took, "" if good else f"{named}: status {done.returncode}, {done.stdout!r}"
    )
