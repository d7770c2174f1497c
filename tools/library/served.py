"""The library in a process of its own (host.c), on any processor that can run it, by an emulator too."""
import os
import select
import struct
import subprocess
from contextlib import suppress
from ctypes import sizeof

from library.shapes import AREA, Interpreted, NoLibrary

PATIENCE = 20  # seconds for one answer, which takes far less than one


class Served:
    def __init__(self, command):
        self._name = command[-1]
        try:
            self._host = subprocess.Popen(command, stdin=subprocess.PIPE, stdout=subprocess.PIPE, stderr=subprocess.PIPE)
        except OSError as error:
            raise NoLibrary(f"{error.filename or repr('')}: {error.strerror}") from error

    def close(self):
        with suppress(OSError):  # what a host that has ended did not take
            self._host.stdin.close()
        self._host.stdout.close()
        self._host.stderr.close()
        self._host.wait()

    def _failure(self, reason=None):
        """Why there is no answer: the reason, else how the host has ended, and the first line that it left."""
        if reason is None:
            with suppress(subprocess.TimeoutExpired):
                self._host.wait(PATIENCE)
        self._host.kill()
        status = self._host.wait()
        os.set_blocking(self._host.stderr.fileno(), False)  # a child of the host may hold it open
        left = (self._host.stderr.read() or b'').decode('utf-8', 'replace').strip().split('\n')[0]
        self.close()
        ended = 'the host of the library has ended, ' + (f'by signal {-status}' if status < 0 else f'with status {status}')
        return NoLibrary(f'{self._name}: {reason or ended}' + (f': {left}' if left else ''))

    def _received(self, size):
        answer, source = b'', self._host.stdout.fileno()
        while len(answer) < size:
            if not select.select([source], [], [], PATIENCE)[0]:
                raise self._failure(f'no answer within {PATIENCE} seconds')
            more = os.read(source, size - len(answer))
            if not more:
                raise self._failure()
            answer += more
        return answer

    def _asked(self, size, *pieces):
        try:
            self._host.stdin.writelines(pieces)
            self._host.stdin.flush()
        except OSError as error:
            raise self._failure() from error
        return self._received(size)

    def opened(self, descriptor):
        """The answer to an open, and the state in which the job begins."""
        got = Interpreted.from_buffer_copy(self._asked(sizeof(Interpreted), b'o', bytes(descriptor)))
        return got.answer, got.state

    def interpret(self, part, widths, area, descriptor, state):
        """The answer and the state after it; records are added to the area, a bytearray."""
        lent = struct.pack(f'<{len(widths)}H', *widths) + bytes(area)
        answer = self._asked(sizeof(Interpreted) + AREA, b'i', bytes(descriptor), bytes(state), lent, struct.pack('<I', len(part)), part)
        got = Interpreted.from_buffer_copy(answer)
        area[:] = answer[sizeof(Interpreted):]
        return got.answer, got.state
