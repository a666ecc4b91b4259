"""Orders for `ivy check`. All of them are legal."""

import random

from timing import Measure, write_lines

NODES = 8
PAGES = 16
PAGE_SIZE = 256
WIDTHS = (1, 2, 4, 8)
BLOCK_PAGES = 128


def words_order(records):
    """Eight nodes load, store, count and advance, one after the other, and are answered by a flat memory. No block
    is live.
    """
    draw = random.Random(1)
    heap = bytearray(PAGES * PAGE_SIZE)
    counts = [0] * (PAGE_SIZE // 8)
    yield f"ivy order {NODES} {PAGES} {PAGE_SIZE}"
    for place in range(records):
        node, kind = place % NODES, draw.randrange(4)
        if kind < 2:
            width = draw.choice(WIDTHS)
            addr = draw.randrange(PAGE_SIZE // width, PAGES * PAGE_SIZE // width) * width
            if kind == 0:
                value = int.from_bytes(heap[addr : addr + width], "big")
                yield f"{node} load {width} {addr} = value {value}"
            else:
                value = draw.getrandbits(8 * width)
                heap[addr : addr + width] = value.to_bytes(width, "big")
                yield f"{node} store {width} {addr} {value} = done"
        else:
            k = draw.randrange(len(counts))
            if kind == 2:
                yield f"{node} count {k} = value {counts[k]}"
            else:
                counts[k] += 1
                yield f"{node} advance {k} = done"


def blocks_order(blocks):
    """So many blocks of 8 bytes lie apart, with 8 bytes between them. Then a block of 16 bytes is placed behind all
    of them and freed, as many times.
    """
    yield f"ivy order {NODES} {BLOCK_PAGES} {PAGE_SIZE}"
    first = PAGE_SIZE
    for block in range(2 * blocks):
        yield f"{block % NODES} alloc 8 = value {first + 8 * block}"
    for block in range(0, 2 * blocks, 2):
        yield f"{block % NODES} free {first + 8 * block} = done"
    last = first + 16 * blocks
    for turn in range(blocks):
        yield f"{turn % NODES} alloc 16 = value {last}"
        yield f"{turn % NODES} free {last} = done"


def check(order):
    """The words of a check of such an order."""
    return lambda folder, count: ["check", write_lines(folder / "order", order(count))]


MEASURES = (
    Measure("check-words", "record", 500_000, check(words_order)),
    Measure("check-blocks", "block", 512, check(blocks_order), limit=4.5),
)
