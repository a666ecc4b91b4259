"""Programs and schedules for `ivy step`."""

from timing import Measure, write_lines

NODES = 8
READ_PAGES = 256
SMALL_PAGE = 64
LARGE_PAGE = 4096
MOST_INSTRUCTIONS = 4096


def reads_program():
    """Node 0 loads one word of its own again and again, and node 1 a word of each page."""
    yield "node 0"
    yield f"set r1 {SMALL_PAGE}"
    for _ in range(MOST_INSTRUCTIONS - 1):
        yield "load 8 r2 r1"
    yield "node 1"
    for page in range(1, READ_PAGES):
        yield f"set r1 {page * SMALL_PAGE}"
        yield "load 8 r2 r1"


def read_page(sent):
    """One page is loaded, with its request pulsed and acknowledged: nine moves, four strings."""
    return [
        "turn 1",
        "turn 1",
        f"deliver {sent} 0",
        f"deliver {sent + 1} 1",
        "pulse 1 0",
        f"deliver {sent + 2} 0",
        "pulse 0 1",
        f"deliver {sent + 3} 1",
        "turn 1",
    ]


def repeat(sent):
    """The first request comes again, and its acknowledgement goes back: five moves, one string."""
    return ["deliver 0 0", "pulse 0 1", f"deliver {sent} 1", "turn 0", "pulse 1 0"]


def reads_schedule(moves):
    """Each page comes by a delivery. Between two pages the first request is delivered over and over, which owes an
    acknowledgement each time that the next pulse sends. So there are turns, deliveries, repeats and pulses from the
    first move to the last, and the list of strings grows with them.
    """
    lines, sent, page = [], 0, 1
    every = moves // READ_PAGES
    while len(lines) < moves:
        if page < READ_PAGES and len(lines) >= (page - 1) * every:
            lines += read_page(sent)
            sent, page = sent + 4, page + 1
        else:
            lines += repeat(sent)
            sent += 1
    return lines[:moves]


class Network:
    """Who owns each page and who has a copy, under the fixed manager, and the moves of one access at a time."""

    def __init__(self):
        self.moves = []
        self.sent = 0
        self.owners = {}
        self.copies = {}

    def turn(self, node):
        self.moves.append(f"turn {node}")

    def pass_on(self, *nodes):
        """A string to each of these nodes, one after another, where each one's delivery sends the next."""
        for node in nodes:
            self.moves.append(f"deliver {self.sent} {node}")
            self.sent += 1

    def route(self, node, page):
        """The nodes that a request passes, with the owner."""
        manager, owner = page % NODES, self.owners.get(page, 0)
        return [owner] if manager in (node, owner) else [manager, owner]

    def end_copies(self, node, others):
        """An order to each other node, and then the acknowledgements."""
        self.pass_on(*sorted(others))
        self.pass_on(*[node for _ in others])

    def load(self, node, page):
        """A turn, and where the node has no copy the request, the copy, and the turn of the reply."""
        copies = self.copies.setdefault(page, set())
        self.turn(node)
        if node != self.owners.get(page, 0) and node not in copies:
            self.pass_on(*self.route(node, page), node)
            copies.add(node)
            self.turn(node)

    def store(self, node, page):
        """A turn, and where the node may not write the page, the orders to the copies, and the turn of the reply."""
        others = self.copies.setdefault(page, set()) - {node}
        owns = self.owners.get(page, 0) == node
        self.turn(node)
        if owns and not others:
            return
        if not owns:
            self.pass_on(*self.route(node, page), node)
        self.end_copies(node, others)
        self.owners[page] = node
        self.copies[page] = set()
        self.turn(node)


def words_program():
    """Each node adds 1 to each of four words again and again, each in a page of its own."""
    for node in range(NODES):
        yield f"node {node}"
        yield "set r5 1"
        yield from (f"set r{page} {page * SMALL_PAGE}" for page in range(1, 5))
        yield "label again"
        for page in range(1, 5):
            yield f"load 8 r6 r{page}"
            yield "add r6 r6 r5"
            yield f"store 8 r{page} r6"
        yield "jump again"


def words_schedule(moves):
    """One node after another goes on by one word."""
    network = Network()
    for node in range(NODES):
        for _ in range(5):
            network.turn(node)
    page = 1
    while len(network.moves) < moves:
        for node in range(NODES):
            network.load(node, page)
            network.turn(node)
            network.store(node, page)
            if page == 4:
                network.turn(node)
        page = page % 4 + 1
    return network.moves[:moves]


def page_program():
    """Each node stores its number to a word of its own in page 1, again and again."""
    for node in range(NODES):
        yield f"node {node}"
        yield f"set r1 {LARGE_PAGE + 8 * node}"
        yield f"set r2 {node}"
        yield "label again"
        yield "store 8 r1 r2"
        yield "jump again"


def page_schedule(moves):
    """One node after another stores. In a transfer the bytes of the page are copied

    - into its string (`encode` in `ivy_wire/src/writing.rt`),
    - into what the link keeps until it is acknowledged (`Link::keep` in `ivy_link/src/link.rt`),
    - out of the string into the receiver's spare page, which is then exchanged with the one of its table
      (`Coherence::unlock` in `ivy_coherence/src/handle.rt`), or into the table at once where other nodes have to give
      their copies up first (`owned_with`).

    The world and the receiver's list of events own the string as it was made, and the sender's table lends the page up
    to `encode` and `keep`.
    """
    network = Network()
    for node in range(NODES):
        network.turn(node)
        network.turn(node)
    while len(network.moves) < moves:
        for node in range(NODES):
            network.store(node, 1)
            network.turn(node)
    return network.moves[:moves]


def stepping(program, schedule, pages, page_size):
    """The words of such a schedule of so many moves."""
    options = ["--pages", str(pages), "--page-size", str(page_size), "--manager", "fixed"]
    return lambda folder, count: [
        "step",
        write_lines(folder / "program", program()),
        write_lines(folder / "schedule", schedule(count)),
        *options,
    ]


MEASURES = (
    Measure("step-reads", "move", 200_000, stepping(reads_program, reads_schedule, READ_PAGES, SMALL_PAGE)),
    Measure("step-words", "move", 200_000, stepping(words_program, words_schedule, 5, SMALL_PAGE)),
    Measure("step-page", "move", 200_000, stepping(page_program, page_schedule, 2, LARGE_PAGE)),
)
