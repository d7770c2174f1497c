"""Where things stand, and a bundled part's own way to be read. Importing this makes the tools' modules importable."""
import os
import sys

HERE = os.path.dirname(os.path.abspath(__file__))
ROOT = os.path.dirname(os.path.dirname(HERE))
TOOLS = os.path.join(ROOT, 'tools')
LIBRARY = os.path.join(ROOT, 'build', 'library-host')
RUN = os.environ.get('RUN', '')  # the emulator, where there is one
STANDIN = os.path.join(HERE, 'standin', 'target', 'release', 'libstandin.so')
sys.path.insert(0, TOOLS)


def real(name):
    return os.path.join(ROOT, 'tests', 'real', name)


def text(*names):
    """A stored text beside the tests."""
    with open(os.path.join(HERE, *names), encoding='utf-8') as file:
        return file.read()


def listing(name):
    """A stored listing: of a bundled part that of the listing programs' own tests, else one beside these tests."""
    program = os.path.join('..', 'listing', '180', 'real', f'{name}-p01o01x01.out')
    return text(program) if os.path.exists(os.path.join(HERE, program)) else text('listings', name)
