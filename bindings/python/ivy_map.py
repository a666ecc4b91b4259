"""Mapped memory: a process whose memory is a buffer at one address, the same in all processes, over libivy.so.

    with Mapped() as ivy:
        numbers = numpy.frombuffer(ivy.shared(8 * 1000))

A buffer is the memory itself: what is stored there others find. Where several threads use it, use_threads says so before.
"""
import contextlib
import ctypes

from ivy_process import STEADY, Process, _done, _lib

_process = ctypes.c_void_p
for _name, _result, _arguments in (
    ("map", ctypes.c_uint32, []),
    ("map_malloc_pages", ctypes.c_void_p, [ctypes.c_size_t]),
    ("map_free", None, [ctypes.c_void_p]),
    ("map_root", ctypes.POINTER(ctypes.c_void_p), []),
    ("map_barrier", None, []),
    ("map_lock_acquire", None, [ctypes.c_uint32]),
    ("map_lock_release", None, [ctypes.c_uint32]),
    ("map_image", ctypes.c_char_p, []),
):
    _function = getattr(_lib, "ivy_" + _name)
    _function.restype, _function.argtypes = _result, [_process, *_arguments]


class Mapped(Process):
    """A process that has joined the others and mapped the memory, before anything is allocated."""

    def __init__(self, pages=4096, manager=STEADY, threads=False):
        super().__init__(pages=pages, page_size=4096, manager=manager)
        if threads:
            self.use_threads()
        _done(_lib.ivy_map(self._at))
        self.image = _lib.ivy_map_image(self._at).decode()

    def pages(self, size):
        """A buffer of so many bytes, in whole pages that nobody shares, of this process; or one of another, by its address."""
        return self.buffer(_lib.ivy_map_malloc_pages(self._at, size), size)

    @staticmethod
    def buffer(address, size):
        if not address:
            raise MemoryError(f"no {size} bytes")
        return (ctypes.c_char * size).from_address(address)

    def shared(self, size):
        """The same buffer in all processes, which all ask for: node 0 gets it."""
        root = _lib.ivy_map_root(self._at)
        if self.me == 0:
            root[0] = _lib.ivy_map_malloc_pages(self._at, size)
        self.barrier()
        found = self.buffer(root[0], size)
        self.barrier()
        return found

    def free(self, block):
        _lib.ivy_map_free(self._at, ctypes.addressof(block))

    def barrier(self):
        """Nobody goes on before all are here."""
        _lib.ivy_map_barrier(self._at)
        _done(_lib.ivy_error(self._at))

    @contextlib.contextmanager
    def locked(self, lock):
        """One process at a time has a lock."""
        _lib.ivy_map_lock_acquire(self._at, lock)
        _done(_lib.ivy_error(self._at))
        try:
            yield
        finally:
            _lib.ivy_map_lock_release(self._at, lock)
