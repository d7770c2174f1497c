"""Colours on paper: PTOCA's table of STC color values."""

DEFAULT = '#161616'  # the presentation device's default, a printer's black
NAMED = {
    1: '#0000ff', 2: '#ff0000', 3: '#ff00ff', 4: '#00ff00', 5: '#00ffff', 6: '#ffff00', 7: '#ffffff', 8: '#000000', 9: '#0000aa',
    10: '#ff8000', 11: '#aa00aa', 12: '#009200', 13: '#0092aa', 14: '#c4a020', 15: '#838383', 16: '#903000',
}
MEDIUM = '#ffffff'  # X'FF08': the colour of the medium


def ink(colour):
    """X'0000', X'FF00' and X'FF07' are all the device's default; X'FF01' to X'FF06' are X'0001' to X'0006'."""
    if colour == 0xFF08:
        return MEDIUM
    if 0xFF01 <= colour <= 0xFF06:
        colour -= 0xFF00
    return NAMED.get(colour, DEFAULT)
