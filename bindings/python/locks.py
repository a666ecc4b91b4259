"""Each process adds to arrays of numpy under locks, and all find the sums: `ivyrun -n 3 python3 locks.py`."""
import struct

import numpy

from ivy_process import Process, Refused

PAGE, EACH, SHORT = 1024, 20, 0.005
MET, TURN = 0, 1
SPIN, NEXT, READERS = 4 * PAGE, 4 * PAGE + 8, 4 * PAGE + 16
PIECES = 5 * PAGE


def add(ivy, address, by):
    ivy.put_array(address, ivy.get_array(address, (4, 5)) + by)


def hand_on(ivy, met):
    """Node 0 makes an array, which all find by its root."""
    if ivy.me == 0:
        block = ivy.alloc_aligned(PAGE, PAGE)
        ivy.put_array(block, numpy.zeros((4, 5)))
        ivy.give_root(3, block)
    address = ivy.root(3)
    assert address % PAGE == 0 and ivy.page_of(address) == address // PAGE
    assert ivy.root(4, seconds=SHORT) is None
    met.wait()
    return address


def refuse(ivy):
    try:
        ivy.alloc_aligned(1 << 40, PAGE)
        raise AssertionError("a block without room")
    except Refused as refused:
        assert refused.status == 9
    with ivy.lock(SPIN):
        try:
            with ivy.lock(SPIN, seconds=SHORT):
                raise AssertionError("a lock that is held twice")
        except TimeoutError:
            pass


def main():
    with Process(pages=64, page_size=PAGE) as ivy:
        met = ivy.barrier(MET)
        address = hand_on(ivy, met)
        for _ in range(EACH):
            with ivy.lock(SPIN):
                add(ivy, address, 0.5)
            with ivy.ticket_lock(NEXT, TURN):
                add(ivy, address + 160, 1)
            with ivy.writing(READERS):
                add(ivy, address + 320, 2)
            with ivy.reading(READERS):
                found = ivy.get_array(address + 320, (4, 5))
                assert (found == found[0, 0]).all()
        met.wait()
        for place, by in enumerate((0.5, 1, 2)):
            assert (ivy.get_array(address + 160 * place, (4, 5)) == by * EACH * ivy.nodes).all()
        pieces = met.gather(PIECES, struct.pack("=id", ivy.me, ivy.me / 2), ivy.me)
        assert [struct.unpack("=id", it) for it in pieces] == [(it, it / 2) for it in range(ivy.nodes)]
        met.wait()
        if ivy.me == 0:
            refuse(ivy)
            ivy.store(SPIN, 7)
        assert ivy.wait_until(SPIN, "==", 7) == 7 and ivy.wait_until(SPIN, ">", 7, seconds=SHORT) is None
        assert ivy.is_here(SPIN) and ivy.counts().calls > 5 * EACH
        met.wait()
        if ivy.me == 0:
            print(f"locks: {ivy.nodes} processes")


main()
