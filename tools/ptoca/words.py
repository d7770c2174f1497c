"""Words for people: a name, a count, a number that was read."""
import re

LONGEST = 24  # letters of a wrong word that are repeated


class Wrong(Exception):
    """Why something can't be done, in words; with the file's name in front, where a file is at fault."""


def one_line(text):
    """The text without line ends and other controls, which a file's name may have."""
    return ''.join(char if char.isprintable() else ascii(char)[1:-1] for char in text)


def named(path):
    """A file's name as it was given; without a path it is standard input."""
    return 'standard input' if path is None else path or "''"


def plural(count, one):
    return f'{count:,} {one}' + ('' if count == 1 else 's')


def quoted(word):
    """A wrong word, cut where it is too long to be repeated."""
    return repr(word if len(word) <= LONGEST else word[:LONGEST - 2] + '..')


def number(word, least, greatest):
    """A decimal number within a range."""
    if not re.fullmatch('-?[0-9]{1,10}', word) or not least <= int(word) <= greatest:
        raise Wrong(f'{quoted(word)} is no number from {least:,} to {greatest:,}')
    return int(word)
