"""A part, element by element: each one's bytes go to the library from the state that the one before it left."""
from dataclasses import dataclass

from ptoca.cutting import Element, element_at


@dataclass(frozen=True)
class Step:
    """What the library answered for one element."""
    element: Element
    before: object
    after: object
    answer: object
    records: bytes


def steps(library, part, widths, area, descriptor, state, at=0):
    """The elements from `at` on, each with what the library answers; a refusal is the last step."""
    while at < len(part):
        element = element_at(part, at, state.chain)
        answer, after = library.interpret(element.raw, widths, area, descriptor, state)
        yield Step(element, state, after, answer, bytes(area[state.used:after.used]))
        if answer.code != 0:
            return
        at, state = element.end(), after


def misfits(step, whole):
    """Where the refusal of an element and that of the part as a whole differ, code or offset; and a byte that is none of the element's."""
    element = step.element
    here, there = (step.answer.code, element.at + step.answer.first), (whole.code, whole.first)
    if here != there:
        return [f'element by element {here[0]} at {here[1]}, as a whole {there[0]} at {there[1]}']
    return [] if here[1] < element.end() else [f'{here[0]} at {here[1]}, outside the element, {element.place()}']


def disagreements(walked, start, areas, whole, end):
    """Where the elements one by one and the part as a whole differ: count, record bytes, end state, or the refusal."""
    if walked and walked[-1].answer.code != 0:
        return misfits(walked[-1], whole)
    last = walked[-1].after if walked else start
    told = {
        'code': (0, whole.code),
        'elements': (sum(step.answer.first for step in walked), whole.first),
        'steps': (len(walked), whole.first),
        'record bytes': (sum(step.answer.second for step in walked), whole.second),
        'end': (last.values(), end.values()),
        'area': tuple(area.hex() for area in areas),
    }
    return [f'{name}: element by element {here}, as a whole {there}' for name, (here, there) in told.items() if here != there]


def protest(differences):
    """What a tool says, and ends with status 1, where there are any."""
    told = 'THE LIBRARY DISAGREES WITH ITSELF: its answers to the part as a whole and element by element do not fit together'
    return [told, *(f'  {difference}' for difference in differences)]
