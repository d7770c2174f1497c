"""The sheet: its edge and rulers, the text and the rules on it, and where the part ended."""
from ptoca.letters import letter
from ptoca.sheet import INCH

from page import svg
from page.inks import ink
from page.listing import Rule, Text
from page.placing import bar, glyphs, reach

CORNER = 260


def edge(width, height):
    return [svg.rectangle(70, 70, width, height, 'shadow'), svg.rectangle(0, 0, width, height, 'sheet')]


def torn_edge(width, height):
    """The head of a sheet on which nothing stands, torn off below."""
    teeth = max(width // 180, 1)
    below = ' '.join(f'L {width - width * k // teeth} {height - k % 2 * 110}' for k in range(teeth + 1))
    return [svg.tag('path', {'d': f'M 0 0 L {width} 0 {below} Z', 'class': 'sheet'})]


def rulers(width, height):
    """A tick for each half inch outside the edge, a number for each inch."""
    parts = []
    for at in range(0, width + 1, INCH // 2):
        parts.append(svg.line(at, -60, at, -180 if at % INCH == 0 else -120, 'tick'))
    for at in range(0, height + 1, INCH // 2):
        parts.append(svg.line(-60, at, -180 if at % INCH == 0 else -120, at, 'tick'))
    for inch in range(1, width // INCH + 1):
        parts.append(svg.words(inch * INCH, -230, 'inch', inch))
    for inch in range(1, height // INCH + 1):
        parts.append(svg.words(-290, inch * INCH + 45, 'inch', inch))
    return parts


def corner(i, b, right, down):
    return svg.tag('path', {'d': f'M {i} {b + down} L {i} {b} L {i + right} {b}', 'class': 'corner'})


def margin(shown, width, height):
    """The job's inline margin, where it lies on the sheet."""
    at = (shown.end or {}).get('margin', 0)
    return [svg.line(at, 0, at, height, 'margin')] if 0 < at < width else []


def corners(shown, widths):
    """Four of them around all that was placed."""
    box = reach(shown.items, widths)
    if box is None:
        return []
    left, top, right, bottom = box[0] - 120, box[1] - 280, box[2] + 120, box[3] + 160
    along, down = min(CORNER, (right - left) // 3), min(CORNER, (bottom - top) // 3)  # around little they are small
    return [corner(left, top, along, down), corner(right, top, -along, down), corner(left, bottom, along, -down), corner(right, bottom, -along, -down)]


def said(item):
    """What a pointer held over the item reads."""
    if isinstance(item, Text):
        count = len(item.characters)
        return (f'text at I {item.i}, B {item.b}: {count} character{"" if count == 1 else "s"}, font {item.font}, '
                f'colour {item.colour:04X}, adjustment {item.adjustment}, variable space {"absent" if item.space == 65535 else item.space}')
    name = 'DBR' if item.mark == 1 else 'DIR'
    return f'{name} at I {item.i}, B {item.b}: length {item.length}, width {item.width}, colour {item.colour:04X}'


def boxed(glyph, size):
    """A byte that has no form: a box as wide as the character, with the byte in it."""
    inner = max(glyph.width * 0.84, 24.0)
    x, top = glyph.i + glyph.width * 0.08, glyph.b - size * 0.66
    code = svg.words(x + inner / 2, glyph.b - size * 0.24, 'code', f'{glyph.byte:02X}')
    return svg.tag('g', {'class': 'glyph'}, svg.rectangle(x, top, inner, size * 0.72, 'box'), code)


def text(item, widths, faces, code_page):
    """A record's characters, each at its own place, and the boxes of those that have no form."""
    spans, boxes = [], []
    for glyph in glyphs(item, widths):
        char = letter(glyph.byte, code_page)
        if char is None:
            boxes.append(boxed(glyph, faces[item.font][1]))
        else:
            spans.append(svg.tag('tspan', {'x': glyph.i}, svg.escaped(char)))
    title = svg.tag('title', {}, svg.escaped(said(item)))
    line = svg.tag('text', {'y': item.b, 'class': f'f{item.font}', 'fill': ink(item.colour)}, title, *spans)
    return '\n'.join([line, *boxes])


def rule(item):
    """A bar; one with no ink, which earlier editions recorded too, is shown dashed."""
    along, down = bar(item)
    title = svg.tag('title', {}, svg.escaped(said(item)))
    if along == 0 or down == 0:
        return svg.tag('path', {'d': f'M {item.i} {item.b} l {along or 8} {down or 8}', 'class': 'bare rule'}, title)
    return svg.rectangle(item.i, item.b, along, down, 'rule', title, fill=ink(item.colour))


def items(shown, widths, faces, code_page):
    return [rule(item) if isinstance(item, Rule) else text(item, widths, faces, code_page) for item in shown.items]


def end(shown, width, height):
    """A small mark below the place where the next element would begin."""
    if shown.end is None:
        return []
    i, b = shown.end['i'], shown.end['b']
    if not (0 <= i <= width and 0 <= b <= height):
        return []
    title = svg.tag('title', {}, f'ends at I {i}, B {b}')
    return [svg.tag('path', {'d': f'M {i} {b + 24} l 52 88 h -104 Z', 'class': 'end'}, title)]


def marks(shown, size, widths, code_page):
    """Those of the picture's own marks that the sheet has, by name; boxes and bare rules are drawn with the items."""
    drawn = {'margin': margin(shown, *size), 'corner': corners(shown, widths), 'end': end(shown, *size)}
    for item in shown.items:
        if isinstance(item, Rule):
            drawn['bare'] = drawn.get('bare') or 0 in bar(item)
        else:
            drawn['box'] = drawn.get('box') or any(letter(byte, code_page) is None for byte in item.characters)
    return {name: parts for name, parts in drawn.items() if parts}
