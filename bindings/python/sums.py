"""Each process puts a row of numbers, and all get the sum: `ivyrun -n 3 python3 sums.py`."""
import array
import threading

from ivy_process import Process, Refused

PAGE, MANY, MET, ANSWERED = 1024, 40, 0, 1


def meet(ivy, times):
    ivy.advance(MET)
    ivy.wait(MET, times * ivy.nodes)


def main():
    with Process(pages=16, page_size=PAGE) as ivy:
        ivy.use_threads()
        ivy.put(2 * PAGE + 8 * MANY * ivy.me, array.array("d", [ivy.me + 0.5] * MANY))
        meet(ivy, 1)
        ivy.prefetch(2 * PAGE, 8 * MANY * ivy.nodes)
        row, sums = array.array("d", [0.0] * MANY), [0.0] * MANY
        for node in range(ivy.nodes):
            ivy.get_into(2 * PAGE + 8 * MANY * node, row)
            sums = [a + b for a, b in zip(sums, row)]
        assert sums == [ivy.nodes * ivy.nodes / 2] * MANY
        ivy.add_double(PAGE, 0.25)
        waits = threading.Thread(target=ivy.wait, args=(ANSWERED, 1))
        waits.start()
        ivy.advance(ANSWERED)
        waits.join()
        assert ivy.wait(5, 1, seconds=0.01) is None
        try:
            ivy.load(PAGE + 1)
            raise AssertionError("a load that is not aligned")
        except Refused as refused:
            assert refused.status == 3
        try:
            ivy.prefetch(15 * PAGE, PAGE + 1)
            raise AssertionError("a hint past the memory")
        except Refused as refused:
            assert refused.status == 4
        meet(ivy, 2)
        found = array.array("d", [0.0])
        ivy.get_into(PAGE, found)
        assert found[0] == 0.25 * ivy.nodes
        meet(ivy, 3)
        if ivy.me == 0:
            print(f"sums: {ivy.nodes} processes")


main()
