"""Program texts: for `ivy sim`, and such as are only read."""

from timing import Measure, write_lines

PAGES = 5
PAGE_SIZE = 64
COUNTS = PAGE_SIZE // 8

INSTRUCTIONS = 4_000


def every_call(nodes):
    """So many programs that make every call but a swap in loops and differ in where they begin. In each lap a node
    loads, adds to and stores a word of each page, reads and advances a count and awaits that advance, and takes a block,
    stores to it and ends it. All counts lie in one page: each of eight nodes has one of its own, and of more nodes several share one.
    All nodes but one ask that one for blocks.
    """
    for node in range(nodes):
        yield f"node {node}"
        yield "set r1 1"
        yield f"set r2 {node % COUNTS}"
        yield f"set r3 {128 // nodes}"
        yield "label again"
        for place in range(PAGES - 1):
            page = 1 + (node + place) % (PAGES - 1)
            yield f"set r4 {page * PAGE_SIZE + 8 * place}"
            yield "load 8 r5 r4"
            yield "add r5 r5 r1"
            yield "store 8 r4 r5"
        yield "count r6 r2"
        yield "add r6 r6 r1"
        yield "advance r2"
        yield "await r6 r2 r6"
        yield "alloc r7 r3"
        yield "store 8 r7 r6"
        yield "free r7"
        yield "jump again"


# A line of each kind of instruction but `swap` and `stop`.
KINDS = (
    "set r1 18446744073709551615",
    "mov r2 r1",
    "add r3 r1 r2   # a sum",
    "sub r3 r1 r2",
    "mul r3 r1 r2",
    "load 8 r4 r1",
    "store 4 r1 r4",
    "count r5 r1",
    "advance r1",
    "await r5 r1 r2",
    "alloc r6 r1",
    "free r6",
    "status r7",
    "print r7",
    "jumpz r7 again",
    "jump again",
)


def lines_text(lines):
    """Programs of 4,000 instructions each, in so many lines but for those that name a node or a label."""
    for node in range(lines // INSTRUCTIONS):
        yield f"node {node}"
        yield "label again"
        for place in range(INSTRUCTIONS):
            yield KINDS[place % len(KINDS)]


def labels_text(labels):
    """One program of so many labels and as many jumps, each to the label before it."""
    yield "node 0"
    for label in range(labels):
        yield f"label l{label}"
        yield f"jump l{label}"


def simulation(nodes, manager):
    """The words of a run of so many drawn moves among so many nodes."""
    options = ["--pages", str(PAGES), "--page-size", str(PAGE_SIZE), "--manager", manager]
    return lambda folder, count: [
        "sim",
        write_lines(folder / "program", every_call(nodes)),
        "--moves",
        str(count),
        *options,
    ]


def reading(text):
    """The words of a command that reads such a text, and then refuses a memory of one page with status 2."""
    return lambda folder, count: ["sim", write_lines(folder / "program", text(count)), "--moves", "0", "--pages", "1"]


SIMULATIONS = (
    Measure("sim-fixed", "move", 500_000, simulation(8, "fixed"), limit=2.8),
    Measure("sim-fixed-32", "move", 500_000, simulation(32, "fixed"), limit=2.8, beside="sim-fixed"),
    Measure("sim-dynamic", "move", 500_000, simulation(8, "dynamic"), limit=2.8),
    Measure("sim-dynamic-32", "move", 500_000, simulation(32, "dynamic"), limit=2.8, beside="sim-dynamic"),
)

TEXTS = (
    Measure("parse-lines", "line", 16 * INSTRUCTIONS, reading(lines_text), status=2),
    Measure("parse-labels", "label", 2_000, reading(labels_text), status=2),
)
