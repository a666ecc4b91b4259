#!/usr/bin/env python3
"""Counts the messages of meetings and locks by N, in drawn worlds: N nodes of libivy in one process, whose turns and
deliveries a seed draws.

    bench/meetings.py LIBRARY [SEEDS [LINE..]]

LIBRARY is libivy.so, as tools/bindings makes it. SEEDS is 3 where it is left out, and the lines are all.

A message is a frame that its receiver serves as a new one; a page is such a frame that carries one. Nothing is lost, so no
pulse is made. Each waiting node looks whenever its turn is drawn. The first meetings, in which words move for the first
time, are not counted. Of each line the mean over all seeds is printed.

| Line | What the nodes do |
|---|---|
| `count`, `words`, `tree` | they meet: by an eventcount, by two words on two pages, by a tree of four |
| `reduce count`, `reduce words`, `reduce tree` | each stores a number, they meet, and each loads all numbers |
| `give count` | one stores a number, they meet, and each loads it |
| `fold` | they add up their numbers by a tree of four, and each gets the sum: a number of node 0 reaches all by the same calls |
| `spin`, `tickets`, `places` | each adds 1 to a word of the same page, under a lock: by swaps, by tickets and a count, by places |
"""
import ctypes
import random
import sys

LOAD, STORE, SWAP, CAS, FETCH_ADD, COUNT, ADVANCE, AWAIT = range(8)
PENDING, NEXT, PAGE, MEETINGS, ROUNDS = 300, 0, 256, 8, 6
NODES = [2, 4, 8, 16, 32]
KINDS = {"fixed": 0, "dynamic": 1}
STEADY = {"steady": 2}


class Handle(ctypes.Structure):
    _fields_ = [("at", ctypes.c_void_p)]


class World:
    """Nodes, the frames under way between each two, and how many were served as new."""

    def __init__(self, library, nodes, manager, seed):
        self.ivy, self.random = library, random.Random(seed)
        self.nodes = [Handle() for _ in range(nodes)]
        for me, node in enumerate(self.nodes):
            assert self.ivy.ivy_open_by(ctypes.byref(node), nodes, 160, PAGE, (KINDS | STEADY)[manager], me) == 0
        self.links = {}
        self.messages = self.pages = 0
        self.room = ctypes.create_string_buffer(PAGE + 41)

    def close(self):
        for node in self.nodes:
            self.ivy.ivy_close(ctypes.byref(node))

    def send(self, me):
        size, dest = ctypes.c_size_t(), ctypes.c_uint32()
        while self.ivy.ivy_next_frame(ctypes.byref(self.nodes[me]), self.room, len(self.room), ctypes.byref(size),
                                      ctypes.byref(dest)) == 0:
            self.put((me, dest.value), self.room.raw[: size.value])

    def put(self, link, frame):
        self.links.setdefault(link, []).append(frame)

    def deliver(self, link):
        frame = self.links[link].pop(0)
        if not self.links[link]:
            del self.links[link]
        verdict = ctypes.c_uint32()
        assert self.ivy.ivy_deliver(ctypes.byref(self.nodes[link[1]]), frame, len(frame), ctypes.byref(verdict)) == 0
        if verdict.value == NEXT:
            self.messages += 1
            self.pages += len(frame) > PAGE
        self.send(link[1])

    def draw(self, moves):
        return self.random.choice(moves)

    def had_turn(self, me, is_waiting):
        """Nothing is to do."""

    def run(self, programs):
        """Runs each node's program, a generator of calls, to its end."""
        value = ctypes.c_uint64()
        waiting = {me: None for me in range(len(programs))}
        begun = set()
        while waiting:
            moves = [("turn", me) for me in waiting] + [("deliver", link) for link in self.links]
            move, at = self.draw(moves)
            if move == "deliver":
                self.deliver(at)
                continue
            node = ctypes.byref(self.nodes[at])
            if at in begun:
                status = self.ivy.ivy_reply(node, ctypes.byref(value))
            else:
                try:
                    call = programs[at].send(waiting[at])
                except StopIteration:
                    del waiting[at]
                    continue
                status = self.ivy.ivy_begin(node, *call, ctypes.byref(value))
            self.send(at)
            self.had_turn(at, status == PENDING)
            begun.add(at) if status == PENDING else begun.discard(at)
            if status != PENDING:
                assert status == 0, status
                waiting[at] = value.value
        while self.links:
            self.deliver(self.random.choice(list(self.links)))


def load(addr):
    return (LOAD, 8, addr, 0, 0)


def store(addr, value):
    return (STORE, 8, addr, value, 0)


def fetch_add(addr, more):
    return (FETCH_ADD, 8, addr, more, 0)


def look(addr, least):
    while (yield load(addr)) < least:
        pass


def by_count(me, nodes, phase):
    yield (ADVANCE, 8, 0, 0, 0)
    yield (AWAIT, 8, 0, nodes * phase, 0)


def by_words(me, nodes, phase):
    drawn = yield fetch_add(PAGE, 1)
    if drawn + 1 == nodes * phase:
        yield store(2 * PAGE, nodes * phase)
    else:
        yield from look(2 * PAGE, nodes * phase)


def by_tree(me, nodes, phase):
    raised, opened = 3 * PAGE, 40 * PAGE
    for child in range(4 * me + 1, min(4 * me + 5, nodes)):
        yield from look(raised + PAGE * child, phase)
    yield store(raised + PAGE * me, phase)
    if me:
        yield from look(opened + PAGE * ((me - 1) // 4), phase)
    yield store(opened + PAGE * me, phase)


def meets(meet):
    def program(me, nodes, first, last):
        for phase in range(first, last):
            yield from meet(me, nodes, phase)
    return program


def reduces(meet):
    def program(me, nodes, first, last):
        for phase in range(first, last):
            yield store(80 * PAGE + 8 * me, phase)
            yield from meet(me, nodes, 2 * phase - 1)
            for other in range(nodes):
                found = yield load(80 * PAGE + 8 * other)
                assert found == phase
            yield from meet(me, nodes, 2 * phase)
    return program


def gives(me, nodes, first, last):
    for phase in range(first, last):
        if me == 0:
            yield store(80 * PAGE, phase)
        yield from by_count(me, nodes, 2 * phase - 1)
        found = yield load(80 * PAGE)
        assert found == phase
        yield from by_count(me, nodes, 2 * phase)


def folds(me, nodes, first, last):
    raised, opened = 3 * PAGE, 40 * PAGE
    for phase in range(first, last):
        children = range(4 * me + 1, min(4 * me + 5, nodes))
        for child in children:
            yield from look(raised + PAGE * child, phase)
        part = phase
        for child in children:
            part += yield load(raised + PAGE * child + 8)
        yield store(raised + PAGE * me + 8, part)
        yield store(raised + PAGE * me, phase)
        if me:
            yield from look(opened + PAGE * ((me - 1) // 4), phase)
            part = yield load(opened + PAGE * ((me - 1) // 4) + 8)
        yield store(opened + PAGE * me + 8, part)
        yield store(opened + PAGE * me, phase)
        assert part == phase * nodes


def spin(me, nodes, turn):
    while (yield (SWAP, 8, 81 * PAGE, 1, 0)):
        pass
    return turn, [store(81 * PAGE, 0)]


def tickets(me, nodes, turn):
    ticket = yield fetch_add(81 * PAGE, 1)
    yield (AWAIT, 8, 1, ticket, 0)
    return turn, [(ADVANCE, 8, 1, 0, 0)]


def places(me, nodes, turn):
    ticket = yield fetch_add(81 * PAGE, 1)
    yield from look(82 * PAGE + PAGE * (ticket % nodes), ticket)
    return turn, [store(82 * PAGE + PAGE * ((ticket + 1) % nodes), ticket + 1)]


def adds(lock):
    def program(me, nodes, first, last):
        for turn in range(first, last):
            _, leave = yield from lock(me, nodes, turn)
            found = yield load(120 * PAGE)
            yield store(120 * PAGE, found + 1)
            for call in leave:
                yield call
    return program


def tables(library, seeds, wanted):
    lines = {"count": meets(by_count), "words": meets(by_words), "tree": meets(by_tree),
             "reduce count": reduces(by_count), "reduce words": reduces(by_words), "reduce tree": reduces(by_tree),
             "give count": gives, "fold": folds,
             "spin": adds(spin), "tickets": adds(tickets), "places": adds(places)}
    print("| Line, manager | " + " | ".join(f"{n} nodes" for n in NODES) + " |")
    print("|---" * (1 + len(NODES)) + "|")
    for name in wanted or lines:
        program = lines[name]
        lock = name in ("spin", "tickets", "places")
        for manager in KINDS:
            cells = []
            for nodes in NODES:
                messages = pages = 0
                for seed in range(seeds):
                    world = World(library, nodes, manager, seed)
                    world.run([program(me, nodes, 1, 4) for me in range(nodes)])
                    world.messages = world.pages = 0
                    last = 4 + (ROUNDS if lock else MEETINGS)
                    world.run([program(me, nodes, 4, last) for me in range(nodes)])
                    units = ROUNDS * nodes if lock else MEETINGS
                    messages += world.messages / units / seeds
                    pages += world.pages / units / seeds
                    world.close()
                cells.append(f"{messages:.1f} ({pages:.1f})" if lock else f"{messages:.0f} ({messages / nodes:.1f})")
            print(f"| {name}, {manager} | " + " | ".join(cells) + " |", flush=True)


def load_library(file):
    library = ctypes.CDLL(file)
    for function in ("ivy_open_by", "ivy_begin", "ivy_reply", "ivy_deliver", "ivy_next_frame"):
        getattr(library, function).restype = ctypes.c_uint32
    library.ivy_begin.argtypes = [ctypes.c_void_p, ctypes.c_uint32, ctypes.c_uint32, ctypes.c_uint64, ctypes.c_uint64,
                                  ctypes.c_uint64, ctypes.c_void_p]
    return library


if __name__ == "__main__":
    if len(sys.argv) < 2:
        sys.exit(__doc__)
    tables(load_library(sys.argv[1]), int(sys.argv[2]) if len(sys.argv) > 2 else 3, sys.argv[3:])
