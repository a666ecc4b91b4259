"""Runs the programs that have their output beside them in sessions of threads: under either manager, or with `--steady`
under steady hints, over ethers of 1, 2 and 256 items, and with a pulse in each 7th, 64th and 1,024th turn on the wire, so
often each. Whatever the threads do, a run has to end with status 0 and to print the text that lies beside its program.

Then prints, for each program, how many sessions there were and how long the longest and all of them took.
"""

from running import MANAGERS, STEADY, Session, add_steady, names_with_output, positive, program_of, run

TIMES = 20
CAPACITIES = (1, 2, 256)
PULSES = (7, 64, 1024)


def sessions(program, name, times, managers):
    """Whether all sessions of a program under these managers print what they have to."""
    done = [
        run(program, Session(name, manager, capacity, pulse))
        for manager in managers
        for capacity in CAPACITIES
        for pulse in PULSES
        for _ in range(times)
    ]
    wrong = [ended.wrong for ended in done if ended.wrong]
    seconds = [ended.seconds for ended in done]
    print(*wrong, sep="\n", end="\n" if wrong else "")
    print(f"{name}: {len(done)} sessions, {max(seconds):.1f} s at most, {sum(seconds):.0f} s in all", flush=True)
    return not wrong


def add_words(parser):
    parser.add_argument(
        "times", nargs="?", type=positive, default=TIMES, metavar="TIMES", help=f"how often each session; {TIMES}"
    )
    parser.add_argument("names", nargs="*", metavar="NAME", help="the programs of these names; all without one")
    add_steady(parser)


def is_good(options):
    """Whether all sessions print what they have to."""
    program = program_of(options)
    managers = (STEADY,) if options.steady else MANAGERS
    return all([sessions(program, name, options.times, managers) for name in options.names or names_with_output()])
