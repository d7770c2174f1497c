"""The few forms of SVG that a sheet needs. Every text and attribute passes through `escaped`."""
import re

ESCAPES = {'&': '&amp;', '<': '&lt;', '>': '&gt;', '"': '&quot;'}
NO_CHARACTER = re.compile('[^\t\n\r\x20-\ud7ff\ue000-\ufffd\U00010000-\U0010ffff]')  # none of XML: a file's name may have one


def escaped(text):
    return ''.join(ESCAPES.get(char, char) for char in NO_CHARACTER.sub('\ufffd', str(text)))


def number(value):
    """A coordinate with at most two decimals, so that equal places are spelled alike."""
    return f'{value:.2f}'.rstrip('0').rstrip('.') if isinstance(value, float) else str(value)


def tag(name, attributes, *children):
    """An element; an attribute's underscore stands for a hyphen, a child is markup already."""
    spelled = ''.join(f' {key.replace("_", "-").strip("-")}="{escaped(number(value))}"' for key, value in attributes.items())
    if not children:
        return f'<{name}{spelled}/>'
    return f'<{name}{spelled}>{"".join(children)}</{name}>'


def group(name, parts):
    """Parts that belong together, a line each; nothing where there are none."""
    return '\n'.join([f'<g class="{name}">', *parts, '</g>']) if parts else ''


def words(x, y, name, text, **more):
    return tag('text', {'x': x, 'y': y, 'class': name, **more}, escaped(text))


def rectangle(x, y, width, height, name, *children, **more):
    return tag('rect', {'x': x, 'y': y, 'width': width, 'height': height, 'class': name, **more}, *children)


def line(x1, y1, x2, y2, name):
    return tag('line', {'x1': x1, 'y1': y1, 'x2': x2, 'y2': y2, 'class': name})


def document(left, top, width, height, style, parts):
    """The whole picture; a unit of the viewBox is 1/1440 inch, and the picture prints in its own size."""
    head = (f'<svg xmlns="http://www.w3.org/2000/svg" viewBox="{left} {top} {width} {height}" '
            f'width="{number(width / 1440)}in" height="{number(height / 1440)}in" xml:space="preserve">')
    body = [part for part in parts if part]
    return '\n'.join(['<?xml version="1.0" encoding="UTF-8"?>', head, f'<style>\n{style}\n</style>', *body, '</svg>', ''])
