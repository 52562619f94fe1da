"""Memory lent to compiled code, and what shows of it afterwards."""

import ctypes
import mmap
from itertools import cycle

GUARD = bytes((0x5B + 29 * k) % 256 for k in range(64))
MOST_LENT = 64 * 1024  # a multiple of every usual page size
NO_ACCESS = 0
WAYS_TO_LEND = 16  # then the shifts come again


def shift_in(turn):
    """In turn at the end of the memory (None) and at each remainder of an address by 8."""
    return turn // 2 % 8 if turn % 2 else None


class Lent:
    """Memory lent to a call. Guard bytes stand before it; after it stand guard bytes or, if it is
    lent at the end, a page that faults when read or written."""

    def __init__(self, most=MOST_LENT):
        self.most = most
        self.memory = mmap.mmap(-1, most + mmap.PAGESIZE)
        self.address = ctypes.addressof(ctypes.c_char.from_buffer(self.memory))
        protect = ctypes.CDLL(None, use_errno=True).mprotect
        protect.argtypes = (ctypes.c_void_p, ctypes.c_size_t, ctypes.c_int)
        if protect(self.address + most, mmap.PAGESIZE, NO_ACCESS) != 0:
            raise OSError(ctypes.get_errno(), "mprotect")
        self.view = memoryview(self.memory)
        self.start = self.end = 0

    def lend(self, data, shift):
        """Gives the address. A shift moves the start, since bytes may be lent at any address;
        without one the memory is lent at the end. None is lent as a null pointer."""
        length = len(data or b"")
        self.start = self.most - length if shift is None else len(GUARD) + shift
        self.end = self.start + length
        self.view[self.start - len(GUARD):self.start] = GUARD
        self.view[self.start:self.end] = data or b""
        if self.end < self.most:
            self.view[self.end:self.end + len(GUARD)] = GUARD
        return None if data is None else self.address + self.start

    def now(self):
        return bytes(self.view[self.start:self.end])

    def guards_whole(self):
        before = self.view[self.start - len(GUARD):self.start]
        after = self.view[self.end:self.end + len(GUARD)]
        return before == GUARD and (self.end == self.most or after == GUARD)


def written_around(lent):
    """In words: those of {name: Lent} around which a call wrote."""
    return [f"bytes around the {name} were written" for name, memory in lent.items()
            if not memory.guards_whole()]


NUMBER = (ctypes.c_uint32,)
LIST = (ctypes.c_void_p, ctypes.c_size_t)  # pointer and length


def c_call(loaded, name, *counts):
    """The C function of a loaded library that takes so many numbers, then so many lists, and so on
    in turn."""
    function = getattr(loaded, name)
    function.argtypes = [part for kind, count in zip(cycle((NUMBER, LIST)), counts)
                         for part in kind * count]
    function.restype = ctypes.c_uint32
    return function


def differing(theirs, ours, width):
    """The places of `width` bytes that differ, each with the number that either side has there."""
    for at in range(0, max(len(theirs), len(ours)), width):
        left, right = theirs[at:at + width], ours[at:at + width]
        if left != right:
            yield at // width, int.from_bytes(left, "little"), int.from_bytes(right, "little")
