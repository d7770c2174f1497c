"""The width table: 1,024 numbers, font f's code point c at 256 f + c."""
from ptoca.files import lines
from ptoca.words import Wrong, number, plural

NUMBERS = 1024
EACH = 144  # document 01's sheets: every character a tenth of an inch
GREATEST = 65535


def every(width=EACH):
    return [width] * NUMBERS


def read(path):
    """The table in a text file; without a file, every width 144."""
    if path is None:
        return every()
    table = []
    for at, row in enumerate(lines(path), 1):
        try:
            table += [number(word, 0, GREATEST) for word in row.split()]
        except Wrong as error:
            raise Wrong(f'{path}: line {at}: {error}') from error
    if len(table) != NUMBERS:
        raise Wrong(f'{path}: {plural(len(table), "number")} where {NUMBERS:,} belong')
    return table
