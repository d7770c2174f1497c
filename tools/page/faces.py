"""A typeface for each of the four fonts. The hub knows widths only, so the face is the usual one that has such widths."""
from ptoca.letters import letter

MONO = "'DejaVu Sans Mono', Menlo, 'Liberation Mono', 'Courier New', monospace"
SANS = "Helvetica, Arial, 'Liberation Sans', 'Nimbus Sans', 'DejaVu Sans Condensed', sans-serif"
SERIF = "'Times New Roman', Times, 'Liberation Serif', 'Nimbus Roman', 'DejaVu Serif Condensed', serif"


def by_letter(widths, font, code_page):
    row = widths[256 * font:256 * font + 256]
    return {letter(byte, code_page): width for byte, width in enumerate(row)}


def face(widths, font, code_page):
    """Family and size: letters all alike are a typewriter's, a wide i is a serif's; a digit's width gives the size."""
    row = by_letter(widths, font, code_page)
    digit, narrow, wide = (row.get(char, 0) for char in '0im')
    if digit == 0:
        return MONO, 240
    if narrow == wide:
        return MONO, round(digit / 0.602)
    if 100 * narrow > 31 * wide:
        return SERIF, round(digit / 0.5)
    return SANS, round(digit / 0.556)
