"""A process of a program that `ivyrun` or `mpirun` starts: a coherent shared memory, over libivy.so by ctypes.

    with Process() as ivy:
        ivy.fetch_add(1024, 1)
        with ivy.lock(2048):
            ivy.put_array(4096, numpy.ones(10))

The library is IVY_LIB, or bindings/out/libivy.so, or that of the install. Not proved; the node that it runs is. A call lets
other threads of the interpreter run; a program of which several make calls says so by use_threads.
"""
import ctypes
import os
from contextlib import contextmanager

LOAD, STORE, SWAP, COMPARE_AND_SWAP, FETCH_AND_ADD, COUNT, ADVANCE, AWAIT, ALLOC, FREE = range(10)
FIXED, DYNAMIC, STEADY = range(3)
DONE, TIMEOUT = 0, 406
COMPARISONS = ("==", "!=", "<", "<=", ">", ">=")


class Config(ctypes.Structure):
    """What all processes have alike; the number of nodes is that of ivyrun."""

    _fields_ = [(name, ctypes.c_uint32) for name in ("nodes", "pages", "page_size", "manager")]


class _Word(ctypes.Structure):
    """A lock, or a lock for readers."""

    _fields_ = [("address", ctypes.c_uint64)]


class _Tickets(ctypes.Structure):
    _fields_ = [("next", ctypes.c_uint64), ("turn", ctypes.c_uint64)]


class _Meeting(ctypes.Structure):
    _fields_ = [("count", ctypes.c_uint64), ("nodes", ctypes.c_uint32), ("passed", ctypes.c_uint64)]


class _Pieces(ctypes.Structure):
    _fields_ = [("address", ctypes.c_uint64), ("barrier", ctypes.POINTER(_Meeting))]


class Counts(ctypes.Structure):
    """What a process has done, as ivy_runtime.h says."""

    _fields_ = [(name, ctypes.c_uint64) for name in ("calls", "hits", "misses", "waits", "sent", "again", "heard")]


def _library():
    here = os.path.dirname(os.path.abspath(__file__))
    beside = [os.path.join(here, *words, "libivy.so") for words in (("..", "out"), ("..", "..", "..", "lib"))]
    lib = ctypes.CDLL(os.environ.get("IVY_LIB") or next(filter(os.path.exists, beside), beside[0]))
    process, u32, u64, size = ctypes.c_void_p, ctypes.c_uint32, ctypes.c_uint64, ctypes.c_size_t
    to64, buffer = ctypes.POINTER(u64), ctypes.c_void_p
    types = {
        "init_as": [buffer, buffer, ctypes.POINTER(Config), ctypes.POINTER(process)], "leave": [process],
        "me": [process], "nodes": [process], "use_threads": [process], "error": [process], "forget": [process],
        "call": [process, u32, u32, u64, u64, u64, to64], "await_for": [process, u64, u64, ctypes.c_long, to64],
        "get": [process, u64, buffer, size], "put": [process, u64, buffer, size], "text": [u32],
        "prefetch": [process, u64, u64],
        "add_double": [process, u64, ctypes.c_double], "counts_of": [process], "page_of": [process, u64],
        "wait_until": [process, u32, u64, ctypes.c_int, u64, ctypes.c_long, to64], "is_here": [process, u64],
        "give_root": [process, u32, u64], "root_for": [process, u32, ctypes.c_long, to64],
        "calloc": [process, u64], "alloc_aligned": [process, u64, u64], "free_aligned": [process, u64],
        "lock_acquire_for": [process, _Word, ctypes.c_long], "lock_release": [process, _Word],
        "ticket_lock_acquire": [process, _Tickets], "ticket_lock_release": [process, _Tickets],
        "readers_lock_read": [process, _Word], "readers_lock_leave_read": [process, _Word],
        "readers_lock_write": [process, _Word], "readers_lock_leave_write": [process, _Word],
        "barrier_wait": [process, ctypes.POINTER(_Meeting)],
        "gather": [process, ctypes.POINTER(_Pieces), u32, buffer, size, buffer],
    }
    gives = {"use_threads": None, "free_aligned": None, "text": ctypes.c_char_p, "add_double": ctypes.c_double}
    gives |= {"counts_of": Counts} | dict.fromkeys(("page_of", "calloc", "alloc_aligned", "ticket_lock_acquire"), u64)
    for name, arguments in types.items():
        function = getattr(lib, "ivy_" + name)
        function.argtypes = arguments
        function.restype = gives.get(name, u32)
    return lib


def _library_of_mpi():
    """The library over MPI, beside the other one, where mpirun has started this process."""
    if not {"OMPI_COMM_WORLD_SIZE", "PMI_SIZE", "PMIX_RANK"} & os.environ.keys():
        return None
    lib = ctypes.CDLL(os.path.join(os.path.dirname(_lib._name), "libivy_mpi.so"), ctypes.RTLD_GLOBAL)
    lib.ivy_init_mpi_as.argtypes, lib.ivy_finalize_mpi.argtypes = _lib.ivy_init_as.argtypes, [ctypes.c_void_p]
    return lib


_lib = _library()
_mpi = _library_of_mpi()


class Refused(Exception):
    """A status that is not DONE."""

    def __init__(self, status):
        super().__init__(_lib.ivy_text(status).decode())
        self.status = status


def _done(status):
    if status != DONE:
        raise Refused(status)


def _bytes_of(buffer):
    """The bytes of something that can be written, as a bytearray, an array or one of numpy, and how many."""
    view = memoryview(buffer).cast("B")
    return (ctypes.c_char * len(view)).from_buffer(view), len(view)


def _microseconds(seconds):
    return -1 if seconds is None else int(seconds * 1e6)


class Barrier:
    """So many nodes meet over and over, by a count that is 0 at first. Each has one of its own for it."""

    def __init__(self, process, count, nodes):
        self._process, self._at, self._meeting = process, process._at, _Meeting(count, nodes, 0)

    def wait(self):
        _done(_lib.ivy_barrier_wait(self._at, self._meeting))

    def gather(self, address, data, place):
        """The bytes of all nodes, in the order of their places, each as many as these: at the address is room for all. Before
        they are given again all have to meet once more."""
        data = bytes(memoryview(data).cast("B"))
        pieces, found = _Pieces(address, ctypes.pointer(self._meeting)), bytearray(len(data) * self._meeting.nodes)
        room, _ = _bytes_of(found)
        _done(_lib.ivy_gather(self._at, pieces, place, data, len(data), room))
        return [bytes(found[at : at + len(data)]) for at in range(0, len(found), len(data))]


class Process:
    """A process that has joined the others, until it leaves, or is alone where neither ivyrun nor mpirun started it."""

    def __init__(self, pages=0, page_size=1024, manager=STEADY):
        self._at = ctypes.c_void_p()
        config = Config(0, pages, page_size, manager) if pages else None
        _done((_mpi.ivy_init_mpi_as if _mpi else _lib.ivy_init_as)(None, None, config, self._at))
        self.me, self.nodes = _lib.ivy_me(self._at), _lib.ivy_nodes(self._at)

    def __enter__(self):
        return self

    def __exit__(self, kind, *_):
        if kind is None:
            self.leave()

    def leave(self):
        """Serves the others until all leave. Nothing is called afterwards."""
        at, self._at = self._at, None
        if _mpi is None:
            _done(_lib.ivy_leave(at))
            return
        error = _lib.ivy_error(at)
        _mpi.ivy_finalize_mpi(at)
        _done(error)

    def use_threads(self):
        _lib.ivy_use_threads(self._at)

    def _call(self, kind, place=0, operand=0, expected=0, width=8):
        value = ctypes.c_uint64()
        _done(_lib.ivy_call(self._at, kind, width, place, operand, expected, value))
        return value.value

    def load(self, address, width=8):
        return self._call(LOAD, address, width=width)

    def store(self, address, value, width=8):
        self._call(STORE, address, value, width=width)

    def swap(self, address, value, width=8):
        return self._call(SWAP, address, value, width=width)

    def compare_and_swap(self, address, expected, value, width=8):
        return self._call(COMPARE_AND_SWAP, address, value, expected, width)

    def fetch_add(self, address, addend, width=8):
        return self._call(FETCH_AND_ADD, address, addend, width=width)

    def count(self, count):
        return self._call(COUNT, count)

    def advance(self, count):
        self._call(ADVANCE, count)

    def wait(self, count, least, seconds=None):
        """Waits until the count is at least so much: the count, or None where the time is over before."""
        return self._within_time(_lib.ivy_await_for, count, least, _microseconds(seconds))

    def wait_until(self, address, comparison, number, seconds=None, width=8):
        """Waits until a word compares so, as "==" or "<": the word, or None where the time is over before."""
        by = COMPARISONS.index(comparison)
        return self._within_time(_lib.ivy_wait_until, width, address, by, number, _microseconds(seconds))

    def _within_time(self, function, *arguments):
        value = ctypes.c_uint64()
        status = function(self._at, *arguments, value)
        if status == TIMEOUT:
            return None
        _done(status)
        return value.value

    def alloc(self, size):
        return self._call(ALLOC, operand=size)

    def calloc(self, size):
        """A block whose bytes are 0."""
        return self._sure(_lib.ivy_calloc(self._at, size))

    def alloc_aligned(self, size, alignment):
        """A block at a multiple of a power of two, as of the size of a page, that free_aligned frees."""
        return self._sure(_lib.ivy_alloc_aligned(self._at, size, alignment))

    def free_aligned(self, address):
        _lib.ivy_free_aligned(self._at, address)
        self._sure(None)

    def _sure(self, value):
        """What a function gives that keeps a failure."""
        status = _lib.ivy_error(self._at)
        if status != DONE:
            _lib.ivy_forget(self._at)
            raise Refused(status)
        return value

    def give_root(self, root, number):
        """Gives all nodes a number under a root, as the address of a block."""
        _done(_lib.ivy_give_root(self._at, root, number))

    def root(self, root, seconds=None):
        """The number that a root was given, or None where the time is over before."""
        return self._within_time(_lib.ivy_root_for, root, _microseconds(seconds))

    def page_of(self, address):
        return _lib.ivy_page_of(self._at, address)

    def is_here(self, address):
        """Whether the word can be read at once, since its page is here."""
        return bool(_lib.ivy_is_here(self._at, address))

    def counts(self):
        return _lib.ivy_counts_of(self._at)

    def free(self, address):
        self._call(FREE, address)

    def get(self, address, size):
        """So many bytes from an address on, as they were put."""
        found = ctypes.create_string_buffer(size)
        _done(_lib.ivy_get(self._at, address, found, size))
        return found.raw

    def get_into(self, address, buffer):
        """The same into a bytearray, an array or one of numpy."""
        room, size = _bytes_of(buffer)
        _done(_lib.ivy_get(self._at, address, room, size))

    def prefetch(self, address, size):
        """A hint: so many bytes from an address on will be read soon. Nothing is waited for."""
        _done(_lib.ivy_prefetch(self._at, address, size))

    def put(self, address, data):
        """Puts the bytes of anything that has some."""
        data = bytes(memoryview(data).cast("B"))
        _done(_lib.ivy_put(self._at, address, data, len(data)))

    def add_double(self, address, addend):
        """Adds to a number of 8 bytes with a point in one step: what it was."""
        return self._sure(_lib.ivy_add_double(self._at, address, addend))

    def get_array(self, address, shape, dtype=float):
        """An array of numpy, as it was put."""
        import numpy

        found = numpy.empty(shape, dtype)
        self.get_into(address, found)
        return found

    def put_array(self, address, array):
        """Puts the numbers of an array of numpy, row by row."""
        import numpy

        self.put(address, numpy.ascontiguousarray(array))

    def barrier(self, count, nodes=None):
        """A barrier of so many nodes, or of all."""
        return Barrier(self, count, nodes or self.nodes)

    @contextmanager
    def lock(self, address, seconds=None):
        """Holds the lock in a word, which is 0 where it is free. Where the time is over before it raises TimeoutError."""
        word = _Word(address)
        if not _lib.ivy_lock_acquire_for(self._at, word, _microseconds(seconds)):
            _done(_lib.ivy_error(self._at))
            raise TimeoutError
        with self._leaving(_lib.ivy_lock_release, word):
            yield

    @contextmanager
    def ticket_lock(self, next_ticket, turn):
        """Holds the lock whose next ticket is in a word and whose turn is a count: the ticket."""
        tickets = _Tickets(next_ticket, turn)
        ticket = self._sure(_lib.ivy_ticket_lock_acquire(self._at, tickets))
        with self._leaving(_lib.ivy_ticket_lock_release, tickets):
            yield ticket

    @contextmanager
    def reading(self, address):
        """Is inside a lock for readers, with other readers."""
        word = _Word(address)
        _done(_lib.ivy_readers_lock_read(self._at, word))
        with self._leaving(_lib.ivy_readers_lock_leave_read, word):
            yield

    @contextmanager
    def writing(self, address):
        """Is inside a lock for readers, alone."""
        word = _Word(address)
        _done(_lib.ivy_readers_lock_write(self._at, word))
        with self._leaving(_lib.ivy_readers_lock_leave_write, word):
            yield

    @contextmanager
    def _leaving(self, leave, lock):
        try:
            yield
        finally:
            _done(leave(self._at, lock))
