"""How a tool is run: whatever can't be done is one line on standard error, and exit status 2."""
import argparse
import contextlib
import os
import sys

from ptoca.files import say
from ptoca.words import Wrong, one_line


class Parser(argparse.ArgumentParser):
    """Wrong words on the command line are told as any other fault is."""

    def error(self, message):
        raise Wrong(message)

    def print_help(self, file=None):
        say(self.format_help())


def complain(line):
    """Written at once: what is left in a buffer would be tried again at the end, and change the exit status."""
    if sys.stderr is not None:  # where it was closed, its number may be another file's by now
        with contextlib.suppress(OSError):
            os.write(2, line.encode('utf-8', 'backslashreplace') + b'\n')


def run(name, tool):
    """Runs a tool, and ends with the exit status that it gives."""
    try:
        sys.exit(tool())
    except Wrong as error:
        complain(f'{name}: {one_line(str(error))}')
        sys.exit(2)
    except KeyboardInterrupt:
        sys.exit(130)
