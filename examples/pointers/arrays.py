"""Arrays of numpy in the memory: each process has some rows. `ivyrun -n 3 python3 arrays.py`, with IVY_LIB and PYTHONPATH."""
import os

os.environ.setdefault("OPENBLAS_NUM_THREADS", "1")
import numpy
from ivy_map import Mapped

N = 96


def main():
    with Mapped() as ivy:
        a, b, c, d = numpy.frombuffer(ivy.shared(4 * 8 * N * N)).reshape(4, N, N)
        counts = numpy.frombuffer(ivy.shared(4096), dtype=numpy.int64)
        rows = slice(N * ivy.me // ivy.nodes, N * (ivy.me + 1) // ivy.nodes)
        drawn = numpy.random.default_rng(7).random((2, N, N))
        a[rows], b[rows] = drawn[0, rows], drawn[1, rows]
        ivy.barrier()
        numpy.dot(a[rows], b, out=c[rows])
        d[rows] = numpy.fft.irfft(numpy.fft.rfft(b.T[rows]), N)
        ivy.barrier()
        numpy.add(c[rows], d[rows], out=d[rows])
        c[rows].sort(axis=1)
        with ivy.locked(1):
            counts[:8] += ivy.me + 1
        ivy.barrier()
        product = drawn[0] @ drawn[1]
        assert numpy.allclose(d, product + drawn[1].T)
        assert numpy.allclose(c, numpy.sort(product, axis=1))
        assert (counts[:8] == ivy.nodes * (ivy.nodes + 1) // 2).all()
        ivy.barrier()
        if ivy.me == 0:
            print(f"arrays: {ivy.nodes} processes")


main()
