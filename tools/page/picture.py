"""The whole picture: strip, sheet, caption."""
from page import sheet, svg
from page.caption import caption, rows
from page.emptiness import why_empty
from page.faces import face
from page.fitting import SIZE, fitted, leading
from page.listing import Text
from page.ranges import drawn_size
from page.strip import strip
from page.style import style

PAD = 720             # around the sheet, with room for the rulers
SPACE = 360           # above the strip and below it
BELOW = 230           # between sheet and caption, and below that
HEAD = 3600           # how much is drawn of a sheet that a refused part would stand on
NARROW = 7200         # the caption's width, where the sheet has less
NOTED = (5000, 2500)  # a sheet no smaller than this has room for a sentence


def note(text, width, height, end):
    """Why the sheet is empty, in its middle; where the end mark stands there, halfway to the edge that is further off."""
    lines, middle = fitted(text, 'empty', width * 3 / 4), height // 2
    if end is not None and abs(end['b'] - middle) < 3 * SIZE['empty']:
        middle += height // 4 if end['b'] < middle else -height // 4
    top = middle - leading('empty') * (len(lines) - 1) // 2
    return [svg.words(width // 2, top + leading('empty') * k, 'empty', line) for k, line in enumerate(lines)]


def above_sheet(shown, part, width, code_page):
    """The strip, and where the picture begins."""
    _, tall = strip(shown, part, 0, width, code_page)
    if tall == 0:
        return [], -PAD
    top = -PAD - SPACE - tall
    parts, _ = strip(shown, part, top, width, code_page)
    return parts, top - SPACE


def picture(shown, widths, code_page, name=None, part=None):
    """The SVG of one sheet; `part` has the bytes that the strip shows."""
    width, height = size = drawn_size(shown)
    if shown.refused is not None:
        height = min(height, HEAD)
    fonts = {item.font for item in shown.items if isinstance(item, Text)}
    faces = {font: face(widths, font % 4, code_page) for font in fonts}
    above, top = above_sheet(shown, part, width, code_page)
    marks = sheet.marks(shown, size, widths, code_page)
    reason = why_empty(shown)
    noted = reason is not None and width >= NOTED[0] and height >= NOTED[1]
    said = rows(shown, name, part, code_page, None if noted else reason)
    below, bottom = caption(said, marks, code_page, height + BELOW, max(width, NARROW))
    full = (-PAD, top, max(width, NARROW) + 2 * PAD, bottom + BELOW - top)
    return svg.document(*full, style(faces), [
        svg.rectangle(*full, 'desk'),
        svg.group('refused', above),
        *(sheet.torn_edge if shown.refused else sheet.edge)(width, height),
        svg.group('rulers', sheet.rulers(width, height)),
        svg.group('guides', [*marks.get('margin', []), *marks.get('corner', [])]),
        svg.group('items', sheet.items(shown, widths, faces, code_page)),
        svg.group('ending', marks.get('end', [])),
        svg.group('note', note(reason, width, height, shown.end) if noted else []),
        svg.group('caption', below),
    ])
