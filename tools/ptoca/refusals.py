"""The codes that one part can be refused with, in words."""
from ptoca.sequences import parameter_at

LONG, NO_ROOM = 19, 29  # what cutting helps against
PLACED = 20             # codes from here on name a byte of the part
WITHIN = range(21, 26)  # these name a byte within the element at fault, the others its first one
REASONS = {
    10: 'a lent length is wrong',
    12: 'the starting state is out of range',
    15: 'the descriptor is out of range',
    19: 'the part is above 8,192 bytes',
    20: 'the element is cut by the end of the part',
    21: "X'2B' is not followed by X'D3'",
    22: "LENGTH is under 2 or not one that the type takes",
    23: 'the type is unknown',
    24: 'a value is out of range',
    25: "the font is none of 00 to 03 and FF",
    26: 'suppressions do not pair: BSU while one is open, or ESU of one that is not',
    27: 'a character or a rule lies outside the sheet',
    28: 'I or B goes beyond -32,768 to 32,767',
    29: 'there is no room left in the 4,096 bytes of records',
}


def reason(code):
    return REASONS.get(code, 'a code that no part can get')


def refusal(code, offset, element=None):
    """The code, its place if it has one, and its reason; with the element at fault, the parameter that begins at that place."""
    place = f' at {offset}' if code >= PLACED else ''
    parameter = element and parameter_at(element, offset)
    return f'refused with {code}{place}: {reason(code)}' + (f' ({parameter})' if parameter else '')
