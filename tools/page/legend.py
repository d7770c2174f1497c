"""The legend: what the picture's own marks mean, each beside a small one of its kind. It has only those that the picture has."""
from page import svg
from page.fitting import SIZE, leading, measure

SIGN, GAP = 220, 320  # the room of a mark, and behind its words
MEANINGS = {
    'end': 'where it ends and the next element would begin',
    'corner': 'around all that was placed',
    'margin': 'the inline margin',
    'box': 'a byte that is no letter in code page {}',
    'bare': 'a rule with no ink, recorded by an earlier edition',
}


def sign(name, x, y):
    """A mark in the line whose baseline is at `y`."""
    if name == 'margin':
        return svg.line(x + 60, y - 150, x + 60, y + 30, 'margin')
    if name == 'box':
        return svg.rectangle(x, y - 120, 110, 130, 'box')
    shapes = {'end': f'M {x + 60} {y - 100} l 52 88 h -104 Z', 'corner': f'M {x} {y} v -120 h 120', 'bare': f'M {x} {y - 50} h 150'}
    return svg.tag('path', {'d': shapes[name], 'class': name})


def legend(names, code_page, y, width):
    """One line, or more where they don't fit; and where the next begins."""
    parts, x = [], 0
    for name, meaning in MEANINGS.items():
        if name not in names:
            continue
        words = meaning.format(code_page)
        room = SIGN + round(measure(words, 'fine'))
        if x > 0 and x + room > width:
            x, y = 0, y + leading('fine')
        baseline = y + SIZE['fine']
        parts += [sign(name, x, baseline), svg.words(x + SIGN, baseline, 'fine', words)]
        x += room + GAP
    return parts, y + leading('fine') if parts else y
