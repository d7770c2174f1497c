"""The ranges of an entry's numbers, by document 01. A job whose numbers are out of range is drawn as far as that goes, and the caption says so."""
from page.placing import ABSENT

EXTENT = 32767  # the greatest size of a sheet, along I and along B
SPANS = {
    'size_i': (1, EXTENT), 'size_b': (1, EXTENT), 'initial_i': (0, EXTENT), 'initial_b': (0, EXTENT), 'margin': (0, EXTENT),
    'increment': (0, EXTENT), 'adjustment': (0, 4095), 'direction': (0, 1), 'font': (0, 3), 'rule': (0, 192), 'hidden': (0, 127),
    'i': (-32768, 32767), 'b': (-32768, 32767), 'space': (0, 4095), 'suppression': (0, 127), 'chain': (0, 1),
    'open mark': (0, 1), 'next': (1, 65536), 'used': (0, 4096), 'taken': (0, 2**32 - 1),
}
COLOURS = (0x0000, 0xFF00, 0xFF07)
WORDS = {
    'size_i': 'size along I', 'size_b': 'size along B', 'initial_i': 'initial I', 'initial_b': 'initial B', 'rule': 'rule width',
    'hidden': 'hidden suppression', 'i': 'I', 'b': 'B', 'space': 'variable space', 'next': 'next part', 'used': 'record bytes',
}


def fits(name, value):
    if name == 'colour':
        return value in COLOURS
    least, greatest = SPANS[name]
    return least <= value <= greatest or name == 'space' and value == ABSENT


def given_size(shown):
    return shown.descriptor['size_i'], shown.descriptor['size_b']


def drawn_size(shown):
    """The sheet's size as it is drawn: no less than 1 and no more than the greatest that there is."""
    return tuple(min(max(extent, 1), EXTENT) for extent in given_size(shown))


def spelled(name, value):
    return f"colour X'{value:04X}'" if name == 'colour' else f'{WORDS.get(name, name)} {value:,}'


def misfits(numbers):
    return ', '.join(spelled(name, value) for name, value in numbers.items() if not fits(name, value))


def warnings(shown):
    """What is out of range, of the descriptor and of the job; nothing for a listing, whose sheet is document 01's."""
    if shown.key is None:
        return []
    said = []
    if descriptor := misfits(shown.descriptor):
        size = drawn_size(shown)
        other = '' if size == given_size(shown) else f'; the sheet is drawn {size[0]:,} by {size[1]:,}'
        said.append(f'Out of range in the descriptor: {descriptor}{other}')
    if state := misfits({'open mark': shown.open, **shown.end}):
        said.append(f'Out of range in the job: {state}')
    return said
