"""A host, by the requests of host.c, that is wrong about parts of more than one element: it counts one too many."""
import struct
import sys
from ctypes import sizeof

import paths
from library.loaded import Loaded
from library.shapes import AREA, Descriptor, Interpreted, State


def take(size):
    return sys.stdin.buffer.read(size)


def main():
    library = Loaded(paths.STANDIN)
    while kind := take(1):
        descriptor, area = Descriptor.from_buffer_copy(take(sizeof(Descriptor))), bytearray()
        if kind == b'o':
            answer, state = library.opened(descriptor)
        else:
            state = State.from_buffer_copy(take(sizeof(State)))
            widths, area = struct.unpack('<1024H', take(2048)), bytearray(take(AREA))
            part = take(struct.unpack('<I', take(4))[0])
            answer, state = library.interpret(part, widths, area, descriptor, state)
            answer.first += answer.first > 1
        sys.stdout.buffer.write(bytes(Interpreted(answer, state)) + area)
        sys.stdout.flush()


main()
