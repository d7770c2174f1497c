"""The strip of a refused part: the reason in words, and the part's bytes around the element at fault."""
from ptoca.cutting import element_with
from ptoca.letters import letter
from ptoca.refusals import PLACED, WITHIN, reason
from ptoca.sequences import parameter_at
from ptoca.words import plural

from page import svg
from page.fitting import block

ROW = 16              # bytes to a line
BEFORE, AFTER = 1, 2  # lines around the byte that the refusal names
MOST = 4              # lines before and after it at most, to show the element whole
LEFT, INSET, LINE = 1200, 300, 600
INTRODUCER = ("X'2B'", "the place of X'D3'", 'LENGTH', 'TYPE')  # byte by byte; in a chain it has the last two


def element_of(shown, part):
    """The element at fault; None where no byte is named, or none that is there."""
    code, offset = shown.refused
    return element_with(part, offset) if part is not None and code >= PLACED else None


def window(part, offset, element):
    """The lines to show, by their first offsets: a few around the offset, more where the element needs them."""
    middle = offset // ROW
    first, last = middle - BEFORE, middle + AFTER
    if element is not None:
        first = max(min(first, element.at // ROW), middle - MOST)
        last = min(max(last, (element.end() - 1) // ROW), middle + MOST)
    return [ROW * row for row in range(max(first, 0), last + 1) if ROW * row < len(part)]


def cell(x, y, byte, marked, code_page):
    """A byte and its letter; the marked one on red."""
    back = [svg.rectangle(x - 190, y - 230, 380, 310, 'mark', rx=50)] if marked else []
    hint = letter(byte, code_page) or '·'
    return [*back, svg.words(x, y, 'marked' if marked else 'byte', f'{byte:02X}'),
            svg.words(x, y + 225, 'fault' if marked else 'hint', hint)]


def band(start, y, step, element):
    """What a line has of the element, on one ground."""
    first, past = max(element.at, start) - start, min(element.end(), start + ROW) - start
    return [svg.rectangle(LEFT + step * first, y - 265, step * (past - first), 540, 'element', rx=50)] if first < past else []


def row(part, start, y, step, shown, element, code_page):
    """One line of bytes, `y` being its baseline."""
    parts = band(start, y, step, element) if element is not None else []
    parts.append(svg.words(LEFT - 240, y, 'offset', start))
    for k, byte in enumerate(part[start:start + ROW]):
        marked = element is not None and start + k == shown.refused[1]
        parts += cell(LEFT + step * k + step / 2, y, byte, marked, code_page)
    return parts


def named(shown, element):
    """What the byte that the refusal names is to its element."""
    code, offset = shown.refused
    if code in WITHIN and element.intro is not None:
        at = offset - element.at + 2 - element.intro
        if at < len(INTRODUCER):
            return INTRODUCER[at]
        if parameter := parameter_at(element, offset):
            return f'the first byte of {parameter}'
    elif offset == element.at:
        return 'its first byte'
    return 'the byte that the refusal names'


def heading(shown, element):
    """The refusal, and what is marked on the bytes; or that the part has no such byte."""
    code, offset = shown.refused
    where = f' at byte {offset}' if code >= PLACED else ''
    said = [('refusal', f'Refused with {code}{where}: {reason(code)}')]
    if element is not None:
        said.append(('fine', f'Shaded: the element, {element.place()}. Red: {named(shown, element)}.'))
    elif code >= PLACED and offset >= shown.part:
        said.append(('fine', f'There is no such byte: the part has {plural(shown.part, "byte")}.'))
    return said


def strip(shown, part, top, width, code_page):
    """All of it, from `top` down, as wide as the sheet; and where it ends."""
    if shown.refused is None:
        return [], top
    element, parts, y = element_of(shown, part), [], top + 120
    for name, text in heading(shown, element):
        lines, y = block(INSET, y, name, text, width - 2 * INSET)
        parts += lines
    for start in window(part, shown.refused[1], element) if part is not None else []:
        parts += row(part, start, y + 330, (width - LEFT - 240) / ROW, shown, element, code_page)
        y += LINE
    y += 100
    return [svg.rectangle(0, top, width, y - top, 'strip'), svg.rectangle(0, top, 90, y - top, 'spine'), *parts], y
