"""The caption below the sheet: what it is of, its numbers, what is out of range, and the legend."""
from ptoca.sheet import INCH
from ptoca.words import plural

from page.fitting import block
from page.legend import legend
from page.listing import LONGEST
from page.ranges import drawn_size, fits, warnings


def size_of(shown, part):
    """Bytes of the part. The listing of a long one doesn't say how many there are; the part itself does."""
    if part is not None:
        return plural(len(part), 'byte')
    return plural(shown.part, 'byte') if shown.part <= LONGEST else f'more than {LONGEST:,} bytes'


def parts_placed(shown):
    """Whether the job is open, and how many parts of it are placed."""
    number = shown.end['next']
    parts = f'{plural(number - 1, "part")} placed' if fits('next', number) else f'next part {number:,}'
    return f'{"open" if shown.open else "closed"}, {parts}'


def record_bytes(end):
    """What stands in the job's area, and what the printer took out of it."""
    if end['taken'] == 0:
        return plural(end['used'], 'record byte')
    return f'{plural(end["taken"], "record byte")} taken by the printer, {end["used"]:,} in the area'


def facts(shown, part):
    """Bytes, elements, record bytes and the final position, as far as they are known."""
    if shown.refused is not None:
        return f'{size_of(shown, part)}, nothing placed'
    end = shown.end
    place = f'ends at I {end["i"]:,}, B {end["b"]:,}'
    if shown.part is not None:
        return ', '.join([size_of(shown, part), plural(end['elements'], 'element'), plural(end['added'], 'record byte'), place])
    return ', '.join([parts_placed(shown), record_bytes(end), place])


def increment(shown):
    """The baseline increment: a job's own, or the one that a listing is said to be made at."""
    told = shown.descriptor['increment']
    return 'baseline increment not told' if told is None else f'baseline increment {told:,}'


def rows(shown, name, part, code_page, reason):
    """All but the legend, with the class of each. The reason is why the sheet is empty, where there is no room on it."""
    inches = ' by '.join(f'{extent / INCH:.3f}'.rstrip('0').rstrip('.') for extent in drawn_size(shown))
    title = name or (f'Job {shown.key}' if shown.key is not None else 'One part')
    yield 'name', title
    yield 'facts', facts(shown, part)
    if reason is not None:
        yield 'facts', reason
    for warning in warnings(shown):
        yield 'warning', warning
    yield 'fine', f'{inches} inches, {increment(shown)}; ruler in inches, letters by code page {code_page}'


def caption(said, marks, code_page, y, width):
    """Every row, and the legend of these marks, from `y` down; and where the caption ends."""
    parts = []
    for name, text in said:
        lines, y = block(0, y, name, text, width)
        parts += lines
    lines, y = legend(marks, code_page, y, width)
    return parts + lines, y
