"""Where each character of a text record stands: the record's numbers and the width table say it."""
from dataclasses import dataclass

from page.listing import Text

ABSENT = 65535
SPACE = 0x40


@dataclass(frozen=True)
class Glyph:
    i: int
    b: int
    width: int
    byte: int


def width_of(record, byte, widths):
    """X'40' takes the variable space where there is one."""
    if byte == SPACE and record.space != ABSENT:
        return record.space
    return widths[256 * (record.font % 4) + byte]


def glyphs(record, widths):
    """Each character advances I by its width and the adjustment, which is signed in a record."""
    i = record.i
    for byte in record.characters:
        width = width_of(record, byte, widths)
        yield Glyph(i, record.b, width, byte)
        i += width + record.adjustment


def bar(rule):
    """A rule's extents along I and along B."""
    return (rule.width, rule.length) if rule.mark == 1 else (rule.length, rule.width)


def reach(items, widths):
    """The least and greatest I and B that text (on its baseline) and rules take; None for an empty sheet."""
    corners = []
    for item in items:
        if isinstance(item, Text):
            corners += [(g.i, g.b) for g in glyphs(item, widths)] + [(g.i + g.width, g.b) for g in glyphs(item, widths)]
        else:
            along, down = bar(item)
            corners += [(item.i, item.b), (item.i + along, item.b + down)]
    if not corners:
        return None
    return min(i for i, _ in corners), min(b for _, b in corners), max(i for i, _ in corners), max(b for _, b in corners)
