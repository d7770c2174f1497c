"""Pictures as trees: drawn of a stored listing or of a text, and looked through."""
import xml.etree.ElementTree as ElementTree

import paths
from page.listing import sheets
from page.picture import picture
from ptoca.widths import every

SVG = '{http://www.w3.org/2000/svg}'


def of(text):
    """The sheets of a text."""
    return sheets(text.splitlines())


def sheet(name, number=1):
    return of(paths.listing(name))[number - 1]


def tree_of(shown, code_page='500', part=None, name='name'):
    return ElementTree.fromstring(picture(shown, every(), code_page, name, part).encode('utf-8'))


def drawn(name, code_page='500', part=None):
    """A stored listing's picture."""
    return tree_of(sheet(name), code_page, part)


def of_text(text, part=None):
    """The picture of the first sheet in a text."""
    return tree_of(of(text)[0], part=part)


def group(tree, name):
    """A part of the picture; an empty one where it isn't there."""
    found = [node for node in tree.iter(SVG + 'g') if node.get('class') == name]
    return found[0] if found else ElementTree.Element('none')


def having(tree, kind, name):
    return [node for node in tree.iter(SVG + kind) if name in node.get('class', '').split()]


def texts(tree, name):
    """What stands there in letters of a class."""
    return [node.text for node in having(tree, 'text', name)]


def spans(tree):
    """Every letter with its place."""
    return [(int(span.get('x')), int(line.get('y')), span.text) for line in tree.iter(SVG + 'text') for span in line.findall(SVG + 'tspan')]
