"""The library loaded into this process, where it is made for this processor."""
import ctypes
from ctypes import POINTER, byref, c_size_t, c_uint8, c_uint16, c_uint32

from library.shapes import SLOTS, Answer, Descriptor, Entry, Interpreted, NoLibrary, State


class Loaded:
    def __init__(self, path):
        try:
            library = ctypes.CDLL(path)
            self._open, self._interpret = library.halviruso_open, library.halviruso_interpret
        except (OSError, AttributeError) as error:
            raise NoLibrary(str(error)) from error
        self._open.restype, self._interpret.restype = Answer, Interpreted
        self._open.argtypes = [POINTER(Entry), c_size_t, POINTER(c_uint32), c_uint32, c_uint32, Descriptor]
        slices = [POINTER(c_uint8), c_size_t, POINTER(c_uint16), c_size_t, POINTER(c_uint8), c_size_t]
        self._interpret.argtypes = [*slices, Descriptor, State]

    def opened(self, descriptor):
        """The answer to an open, and the state in which the job begins. Zeros are sixteen closed entries with last key 0, and no open job beside them."""
        table, open_jobs = (Entry * SLOTS)(), c_uint32()
        answer = self._open(table, SLOTS, byref(open_jobs), 0, 1, descriptor)
        return answer, table[0].state

    def interpret(self, part, widths, area, descriptor, state):
        """The answer and the state after it; records are added to the area, a bytearray."""
        lent = (c_uint8 * max(len(part), 1)).from_buffer_copy(part or b'\0')
        table = (c_uint16 * len(widths))(*widths)
        kept = (c_uint8 * len(area)).from_buffer(area)  # the area itself, not a copy
        got = self._interpret(lent, len(part), table, len(widths), kept, len(area), descriptor, state)
        return got.answer, got.state
