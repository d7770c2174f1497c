"""The words of a command line that say which library is asked, and on which sheet."""
import os

from ptoca.sheet import INCREMENT, descriptor as sheet_at, given_increment
from ptoca.widths import read as read_widths

from library.loaded import Loaded
from library.served import Served
from library.shapes import Descriptor, NoLibrary

ROOT = os.path.dirname(os.path.dirname(os.path.dirname(os.path.abspath(__file__))))
HOST = os.path.join(ROOT, 'build', 'library-host')


def add_options(parser):
    parser.add_argument('--after', action='append', default=[], metavar='PART', help='a part of the same job before it; may be given again')
    parser.add_argument('--increment', default=str(INCREMENT), metavar='N', help="the sheet's baseline increment; 180 without it")
    parser.add_argument('--widths', help='1,024 numbers; every width 144 without it')
    parser.add_argument('--library', default=HOST, help='a shared library, or a host of it; build/library-host without it')
    parser.add_argument('--run', default='', metavar='COMMAND', help='runs the host where it is made for another processor')


def library_of(given):
    """A shared library is loaded, any other file is run."""
    path = os.path.join(os.curdir, given.library)  # a bare name would be looked for in the system's places
    return Loaded(path) if path.endswith('.so') else Served([*given.run.split(), path])


def sheet_of(given):
    """The width table and the descriptor."""
    return read_widths(given.widths), Descriptor(**sheet_at(given_increment(given.increment)))


def first_state(library, given, descriptor):
    """Where a job begins."""
    answer, state = library.opened(descriptor)
    if answer.code != 0:
        raise NoLibrary(f'{given.library}: the library answers an open with {answer.code}')
    return state
