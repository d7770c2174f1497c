"""A part cut into its elements. Where an element ends is all that is told here; whether it is one, the library says."""
from dataclasses import dataclass

ESCAPE, INTRODUCER = 0x2B, b'\x2B\xD3'
CHAIN = 0x01  # the bit of TYPE


@dataclass(frozen=True)
class Element:
    """An element's bytes as far as its own LENGTH says, or the part's end."""
    at: int
    raw: bytes
    intro: int  # bytes before LENGTH: 2 with the prefix, 0 in a chain; None for a free run

    def end(self):
        return self.at + len(self.raw)

    def place(self):
        """Its bytes by their offsets, in words."""
        return f'byte {self.at}' if len(self.raw) == 1 else f'bytes {self.at} to {self.end() - 1}'

    def type(self):
        """The byte at TYPE's place; None for a free run, and where no whole introducer stands."""
        if self.intro is None or len(self.raw) < self.intro + 2 or self.raw[:self.intro] != INTRODUCER[:self.intro]:
            return None
        return self.raw[self.intro + 1]

    def parameters(self):
        return self.raw[self.intro + 2:]


def element_at(part, at, chain):
    """The element that begins there; X'2B' without X'D3' takes the byte that stands in its place, a LENGTH under 2 takes TYPE."""
    if not chain and part[at] != ESCAPE:
        past = part.find(ESCAPE, at)
        return Element(at, part[at:past] if past >= 0 else part[at:], None)
    intro = 0 if chain else len(INTRODUCER)
    if part[at:at + intro] != INTRODUCER[:intro]:
        return Element(at, part[at:at + intro], intro)
    length = part[at + intro] if at + intro < len(part) else 0
    return Element(at, part[at:at + intro + max(length, 2)], intro)


def element_with(part, offset):
    """The element of a fresh job's part that has the byte at this offset; None where the part has no such byte."""
    at = chain = 0
    while at < len(part):
        element = element_at(part, at, chain)
        if offset < element.end():
            return element
        at, chain = element.end(), (element.type() or 0) & CHAIN
    return None
