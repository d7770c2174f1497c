"""Reads what is to be drawn: a listing (PART .. END or REFUSED), or a job shown by replay or by examples/drain.c (JOB .. END)."""
from dataclasses import dataclass, field

from ptoca.sheet import FIELDS, descriptor as sheet_at
from ptoca.words import Wrong, number, plural, quoted

STATE = ('i', 'b', 'margin', 'increment', 'adjustment', 'direction', 'font', 'colour', 'space', 'suppression', 'chain', 'next', 'used',
         'taken')
LONGEST = 8192  # bytes of a part; of a longer one the listing program reads one more
# what each line holds: a record's numbers have 16 bits, an entry's 32, whatever stands in them
SHORT, SIGNED, LONG, POSITION = (0, 65535), (-32768, 32767), (0, 2**32 - 1), (-32768, 2**32 - 1 - 32768)
TEXT = (SIGNED, SIGNED, SHORT, SHORT, SIGNED, SHORT)
RULE = (SIGNED, SIGNED, SHORT, SHORT, SHORT, SHORT)
PART = ((0, LONGEST + 1),)
REFUSED = (LONG, LONG)
END = (SIGNED, SIGNED, LONG, LONG)
JOB = (LONG,) * (2 + len(FIELDS)) + (POSITION, POSITION) + (LONG,) * (len(STATE) - 2)


@dataclass(frozen=True)
class Text:
    i: int
    b: int
    font: int
    colour: int
    adjustment: int
    space: int
    characters: bytes


@dataclass(frozen=True)
class Rule:
    i: int
    b: int
    mark: int  # 0: DIR, along I; 1: DBR, along B
    colour: int
    length: int
    width: int


@dataclass
class Shown:
    """One sheet: its descriptor, what stands on it, and the numbers that came with it."""
    descriptor: dict = field(default_factory=lambda: sheet_at(None))  # a listing doesn't tell its increment
    items: list = field(default_factory=list)
    part: int = None     # bytes of the part, of a listing
    end: dict = None     # final i and b; elements and added, of a listing; the state and next, of a job
    refused: tuple = None  # code, offset
    key: int = None      # of a job
    open: int = None


def numbers(words, shape):
    if len(words) != len(shape):
        raise Wrong(f'{plural(len(words), "number")} where {len(shape)} belong')
    return [number(word, *span) for word, span in zip(words, shape)]


def characters(word):
    """Pairs of hex digits, or a minus for none."""
    try:
        return bytes.fromhex('' if word == '-' else word)
    except ValueError:
        raise Wrong(f'{quoted(word)} is not in pairs of hex digits') from None


def job(words):
    """The JOB line has the entry's numbers, in the order of replay's `set`."""
    if len(words) == len(JOB) - 1:
        words = [*words, '0']  # before there were takes, nothing was taken
    values = numbers(words, JOB)
    descriptor = dict(zip(FIELDS, values[2:]))
    end = dict(zip(STATE, values[2 + len(FIELDS):]))
    return Shown(descriptor=descriptor, end=end, key=values[0], open=values[1])


def item(kind, words):
    if kind == 'T':
        return Text(*numbers(words[:-1], TEXT), characters(words[-1]))
    return Rule(*numbers(words, RULE))


def take(shown, kind, words):
    """One line of a sheet; True where it is the sheet's last. A job isn't refused, and what is refused has no record."""
    if kind in ('T', 'R'):
        shown.items.append(item(kind, words))
        return False
    if kind == 'REFUSED' and shown.end is None and not shown.items:
        shown.refused = tuple(numbers(words, REFUSED))
        return True
    if kind != 'END':
        raise Wrong(f'{quoted(kind)} has no place here')
    if shown.end is None:
        shown.end = dict(zip(('i', 'b', 'elements', 'added'), numbers(words, END)))
    else:
        numbers(words, ())
    return True


def begun(kind, words):
    """The sheet that a line begins; None for a line between sheets, as replay's other answers."""
    if kind == 'PART':
        return Shown(part=numbers(words, PART)[0])
    return job(words) if kind == 'JOB' else None


def sheets(lines):
    """Every sheet in a text, by its lines."""
    found, current, first = [], None, 0
    for at, row in enumerate(lines, 1):
        kind, *words = row.split(' ')
        try:
            if current is None:
                current, first = begun(kind, words), at
            elif take(current, kind, words):
                found.append(current)
                current = None
        except Wrong as error:
            raise Wrong(f'line {at}: {error}') from error
    if current is not None:
        raise Wrong(f'line {first}: the sheet that begins here has no end')
    return found
