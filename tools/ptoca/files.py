"""Files, standard input and standard output. Whatever is wrong with one of them is said with its name."""
import os
import sys
import tempfile
from contextlib import contextmanager, suppress

from ptoca.words import Wrong, named

LARGEST = 1 << 28  # bytes that are read of one file: a device may have no end


@contextmanager
def telling(name):
    """The system's reason, with the name of what it is about."""
    try:
        yield
    except OSError as error:
        raise Wrong(f'{name}: {error.strerror or error}') from error


def read(path):
    """All bytes of a file; without a path, of standard input."""
    name = named(path)
    if path is None and sys.stdin is None:
        raise Wrong(f'{name}: closed')
    with telling(name), open(0 if path is None else path, 'rb', closefd=path is not None) as file:
        data = file.read(LARGEST + 1)
    if len(data) > LARGEST:
        raise Wrong(f'{name}: more than {LARGEST:,} bytes, which is more than is read')
    return data


def lines(path):
    """The lines of a text in ASCII; without a path, of standard input."""
    rows = read(path).splitlines()
    for at, row in enumerate(rows, 1):
        if not row.isascii():
            raise Wrong(f'{named(path)}: line {at}: a byte that is not ASCII')
    return [row.decode('ascii') for row in rows]


def say(text):
    """Text on standard output, in its own encoding."""
    write(text.encode(sys.stdout.encoding if sys.stdout else 'utf-8', 'backslashreplace'), None)


def write(data, path):
    """Bytes into a file; without a path, on standard output."""
    if path is None:
        if sys.stdout is None:
            raise Wrong('standard output: closed')
        with telling('standard output'):
            pass_on(data, 1)
        return
    with telling(named(path)):
        if os.path.exists(path) and not os.path.isfile(path):
            pass_on(data, os.open(path, os.O_WRONLY))
        else:
            replace(data, os.path.realpath(path))


def pass_on(data, number):
    """Bytes into a device or a pipe, as they come. A reader that went away has seen enough."""
    with suppress(BrokenPipeError), open(number, 'wb', closefd=number != 1) as file:
        file.write(data)


def replace(data, path):
    """All of it or nothing: written beside its place and renamed at the end. What may not be written is not replaced either."""
    if os.path.exists(path):
        with open(path, 'r+b') as earlier:
            mode = os.fstat(earlier.fileno()).st_mode & 0o777
    else:
        mask = os.umask(0)
        os.umask(mask)
        mode = 0o666 & ~mask
    made, beside = tempfile.mkstemp(dir=os.path.dirname(path))
    try:
        with open(made, 'wb') as file:
            file.write(data)
            os.fchmod(made, mode)
        os.replace(beside, path)
    except BaseException:
        os.unlink(beside)
        raise
