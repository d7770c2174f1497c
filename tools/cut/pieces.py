"""A part in pieces, each as many elements as an empty area and a part's length take. Which those are, the library says."""
from dataclasses import dataclass

from library.shapes import AREA
from library.walk import disagreements, protest, steps
from ptoca.refusals import LONG, NO_ROOM, refusal
from ptoca.words import Wrong

LONGEST = 8192  # bytes of a part


class Uncut(Wrong):
    """Why a part can't be cut."""


class Disagrees(Exception):
    """The library's answers do not fit together; its words are the lines to print."""


@dataclass(frozen=True)
class Piece:
    at: int         # its first byte in the part
    raw: bytes
    answer: object  # to the piece as a whole
    end: object     # the state that it leaves

    def place(self):
        return f'bytes {self.at:,} to {self.at + len(self.raw) - 1:,}' if self.raw else 'no bytes'


def fault(step):
    """Why the part can't be cut: it would be refused in any pieces, or one element is too much for a piece of its own."""
    code, element = step.answer.code, step.element
    said = refusal(code, element.at + step.answer.first, element)
    return f'{said}; {element.place()} are one element, which can not be cut' if code in (LONG, NO_ROOM) else said


def fitting(walked, at):
    """The steps of one piece; the walk goes on to the first element that is too much."""
    found = []
    for step in walked:
        full = step.answer.code == NO_ROOM or step.element.end() - at > LONGEST
        if full and found:
            break
        if step.answer.code != 0:
            raise Uncut(fault(step))
        found.append(step)
    return found


def piece_at(library, part, at, sheet, start):
    """The longest piece from there on. As a whole it must get the answer that its elements get one by one."""
    (widths, descriptor), area, whole_area = sheet, bytearray(AREA), bytearray(AREA)
    found = fitting(steps(library, part, widths, area, descriptor, start, at), at)
    raw = part[at:found[-1].element.end() if found else at]
    whole, end = library.interpret(raw, widths, whole_area, descriptor, start)
    used = found[-1].after.used if found else 0
    if differences := disagreements(found, start, (area[:used], whole_area[:used]), whole, end):
        raise Disagrees(*protest(differences))
    return Piece(at, raw, whole, end)


def pieces(library, part, sheet, state):
    """All pieces of a part; an empty part is one piece."""
    made, at = [], 0
    while not made or at < len(part):
        made.append(piece_at(library, part, at, sheet, state.drained()))
        at, state = at + len(made[-1].raw), made[-1].end
    return made
