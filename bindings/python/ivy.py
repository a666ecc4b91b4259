"""One node of a coherent shared memory, over libivy.so by ctypes. ivy.h says what whoever drives a node owes.

The library is IVY_LIB, or bindings/out/libivy.so, or that of the install. Not proved; what it calls is.
"""
import ctypes
import os

VERSION = 1
FIXED, DYNAMIC, STEADY = 0, 1, 2
LOAD, STORE, SWAP, COMPARE_AND_SWAP, FETCH_AND_ADD, COUNT, ADVANCE, AWAIT, ALLOC, FREE = range(10)
NEXT, REPEAT, AHEAD, NOT_MINE = range(4)
DONE, MEMORY, PENDING, NO_FRAME = 0, 257, 300, 302


class Handle(ctypes.Structure):
    _fields_ = [("at", ctypes.c_void_p)]


def _library():
    here = os.path.dirname(os.path.abspath(__file__))
    beside = [os.path.join(here, *words, "libivy.so") for words in (("..", "out"), ("..", "..", "..", "lib"))]
    lib = ctypes.CDLL(os.environ.get("IVY_LIB") or next(filter(os.path.exists, beside), beside[0]))
    node, u8, u32, u64 = ctypes.POINTER(Handle), ctypes.c_uint8, ctypes.c_uint32, ctypes.c_uint64
    size, text = ctypes.c_size_t, ctypes.c_char_p
    to32, to64, to_size = ctypes.POINTER(u32), ctypes.POINTER(u64), ctypes.POINTER(size)
    types = {
        "version": [], "open_by": [node] + [u32] * 5, "close": [node],
        "begin": [node, u32, u32, u64, u64, u64, to64], "reply": [node, to64],
        "deliver": [node, text, size, to32], "next_frame": [node, text, size, to_size, to32],
        "load_block": [node, u64, text, size, to_size], "store_block": [node, u64, text, size, to_size],
        "pulse": [node, u8], "turns": [node, to64], "kept_set": [node, to32], "owed_set": [node, to32],
    }
    for name, arguments in types.items():
        function = getattr(lib, "ivy_" + name)
        function.argtypes = arguments
        function.restype = None if name == "close" else u32
    return lib


_lib = _library()
if _lib.ivy_version() != VERSION:
    raise ImportError("libivy has version %d, and this module is for %d" % (_lib.ivy_version(), VERSION))


class Refused(Exception):
    """A status of ivy.h that is neither DONE nor PENDING."""

    def __init__(self, status):
        super().__init__("status %d" % status)
        self.status = status


def _done(status):
    if status != DONE:
        raise Refused(status)


class Node:
    """A node, freed by close or with the object."""

    def __init__(self, nodes, pages, page_size, manager, me):
        self._handle = Handle()
        _done(_lib.ivy_open_by(self._handle, nodes, pages, page_size, manager, me))
        self._buffer = ctypes.create_string_buffer(page_size + 41)

    def close(self):
        _lib.ivy_close(self._handle)

    __del__ = close

    def _progress(self, status, value):
        if status == PENDING:
            return None
        _done(status)
        return value.value

    def begin(self, kind, place=0, operand=0, expected=0, width=8):
        """The value where the call is over, None where it is in progress."""
        value = ctypes.c_uint64()
        return self._progress(_lib.ivy_begin(self._handle, kind, width, place, operand, expected, value), value)

    def reply(self):
        """The value of the call in progress, once, or None."""
        value = ctypes.c_uint64()
        return self._progress(_lib.ivy_reply(self._handle, value), value)

    def read_into(self, address, into):
        """Reads words of 8 bytes in a row from an address on, each with its highest byte first, into a bytearray or the like:
        as many as it has room for, as lie in the page, and as can be read here at once. It says how many words. Where that is
        none nothing was done, and begin loads the first word, or says what is wrong with it."""
        words = ctypes.c_size_t()
        room = (ctypes.c_char * len(into)).from_buffer(into)
        _done(_lib.ivy_load_block(self._handle, address, room, len(into), words))
        return words.value

    def write_from(self, address, row):
        """Writes words of 8 bytes in a row, as read_into reads them."""
        words = ctypes.c_size_t()
        _done(_lib.ivy_store_block(self._handle, address, bytes(row), len(row), words))
        return words.value

    def turns(self):
        """How many turns the node has had since it was opened."""
        turns = ctypes.c_uint64()
        _done(_lib.ivy_turns(self._handle, turns))
        return turns.value

    def deliver(self, string):
        """A string comes, any bytes at all: its verdict."""
        verdict = ctypes.c_uint32()
        _done(_lib.ivy_deliver(self._handle, string, len(string), verdict))
        return verdict.value

    def frames(self):
        """The strings that wait, each with the node that it is for."""
        length, dest = ctypes.c_size_t(), ctypes.c_uint32()
        room = len(self._buffer)
        while _lib.ivy_next_frame(self._handle, self._buffer, room, length, dest) == DONE:
            yield dest.value, self._buffer.raw[:length.value]

    def pulse(self, peer):
        _done(_lib.ivy_pulse(self._handle, peer))

    def kept_set(self):
        """The peers that have not acknowledged some message, as bits."""
        peers = ctypes.c_uint32()
        _done(_lib.ivy_kept_set(self._handle, peers))
        return peers.value

    def owed_set(self):
        """The peers to which an acknowledgement is owed, as bits."""
        peers = ctypes.c_uint32()
        _done(_lib.ivy_owed_set(self._handle, peers))
        return peers.value
