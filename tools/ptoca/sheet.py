"""Document 01's descriptor, by its twelve numbers, at some increment: the sheet that the listing programs use."""
from ptoca.words import Wrong, number

FIELDS = ('size_i', 'size_b', 'initial_i', 'initial_b', 'margin', 'increment', 'adjustment', 'direction', 'font', 'colour', 'rule', 'hidden')
INCREMENT = 180  # eight lines to the inch
GREATEST = 32767  # of the increments
INCH = 1440  # distances are 1/1440 inch


def descriptor(increment):
    return dict(zip(FIELDS, (12240, 15840, 0, 0, 0, increment, 0, 0, 0, 0xFF07, 14, 0)))


def given_increment(word):
    """The increment of a command line."""
    try:
        return number(word, 0, GREATEST)
    except Wrong as error:
        raise Wrong(f'--increment: {error}') from error
