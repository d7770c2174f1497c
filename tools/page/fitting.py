"""Text that must fit: a picture has no say in which letters it is shown with, so Helvetica's widths are taken, and some more."""
from page import svg

SIZE = {'name': 250, 'facts': 200, 'warning': 200, 'fine': 160, 'empty': 260, 'refusal': 250}  # the height of a class's letters
BOLD = ('name', 'refusal')
LEADING = 1.4


def breadth(char):
    """Of a letter, in parts of its height."""
    if char in "fijlrtI .,:;'|!()-":
        return 0.33
    if char > '\u2e7f':  # China's, Japan's and Korea's
        return 1.0
    if char in 'mwMW':
        return 0.85
    return 0.68 if char.isupper() else 0.56


def measure(text, name):
    """How wide a text is at most."""
    return SIZE[name] * (1.25 if name in BOLD else 1.15) * sum(map(breadth, text))


def leading(name):
    return round(SIZE[name] * LEADING)


def fitted(text, name, width):
    """The text in lines that are no wider than this; a word too long for one is cut."""
    lines = ['']
    for word in text.split(' '):
        joined = f'{lines[-1]} {word}' if lines[-1] else word
        if measure(joined, name) <= width:
            lines[-1] = joined
            continue
        lines += [''] if lines[-1] else []
        for char in word:
            lines += [''] if lines[-1] and measure(lines[-1] + char, name) > width else []
            lines[-1] += char
    return lines


def block(x, y, name, text, width):
    """The lines as text elements, the first one's letters from `y` down; and where the next block begins."""
    parts = []
    for line in fitted(text, name, width):
        parts.append(svg.words(x, y + SIZE[name], name, line))
        y += leading(name)
    return parts, y
