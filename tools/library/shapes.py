"""The library's structures, as include/halviruso.h lays them out."""
from ctypes import Structure, c_uint32

from ptoca.words import Wrong

SLOTS, AREA = 16, 4096
ORIGIN = 32768  # a kept position is its number plus this one
ABSENT = 65535  # the variable space of a state that has none


class NoLibrary(Wrong):
    """The library can't be asked."""


def numbers(*names):
    return [(name, c_uint32) for name in names]


class Descriptor(Structure):
    _fields_ = numbers('size_i', 'size_b', 'initial_i', 'initial_b', 'margin', 'increment', 'adjustment', 'direction', 'font', 'colour', 'rule', 'hidden')


class State(Structure):
    _fields_ = numbers('i', 'b', 'margin', 'increment', 'adjustment', 'direction', 'font', 'colour', 'space', 'suppression', 'chain', 'used')

    def values(self):
        """Its numbers by name, positions as people see them."""
        values = {name: getattr(self, name) for name, _ in self._fields_}
        return {**values, 'i': self.i - ORIGIN, 'b': self.b - ORIGIN}

    def drained(self):
        """The same beside an area whose records were all taken."""
        other = State.from_buffer_copy(self)
        other.used = 0
        return other


class Entry(Structure):
    _fields_ = [*numbers('key', 'mark'), ('descriptor', Descriptor), ('state', State), *numbers('next', 'taken')]


class Answer(Structure):
    _fields_ = numbers('code', 'first', 'second')


class Interpreted(Structure):
    _fields_ = [('answer', Answer), ('state', State)]
