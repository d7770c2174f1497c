"""The elements in words, one a line; and the bytes around a refusal, the one that it names and its element underlined."""
from ptoca.letters import letter, line
from ptoca.refusals import reason
from ptoca.sequences import RULE, sequence_of, split
from ptoca.words import plural

from library.shapes import ABSENT

SHOWN = 40   # characters of a text that are printed
ROW = 16     # bytes to a line of the dump
NAMES = {
    'i': 'I', 'b': 'B', 'margin': 'margin', 'increment': 'increment', 'adjustment': 'adjustment', 'direction': 'direction',
    'font': 'font', 'colour': 'colour', 'space': 'variable space', 'suppression': 'suppression',
}


def quoted(text, code_page):
    if len(text) <= SHOWN:
        return line(text, code_page)
    return f'{line(text[:SHOWN], code_page)}.. of {len(text)}'


def values(element, code_page):
    """The parameters in words, as they stand in the part."""
    sequence = sequence_of(element)
    if element.intro is None:
        return quoted(element.raw, code_page)
    if sequence is None:
        return ''
    raw = element.parameters()
    said = [parameter.said(own) for parameter, _, own in split(sequence, raw)]
    if sequence.text is not None:
        said.append(quoted(raw[sequence.text:], code_page))
    return ', '.join(said)


def spelled(name, value):
    if name == 'space' and value == ABSENT:
        return 'absent'
    return f"X'{value:04X}'" if name == 'colour' else str(value)


def changes(before, after):
    """What the element made of the state's numbers."""
    one, other = before.values(), after.values()
    return [f'{said} {spelled(name, one[name])} -> {spelled(name, other[name])}' for name, said in NAMES.items() if one[name] != other[name]]


def apart(raw):
    """Records one by one, by their own lengths."""
    while raw:
        size = max(int.from_bytes(raw[:2], 'little'), 1)  # a wrong library may say 0
        yield raw[:size]
        raw = raw[size:]


def record(raw):
    """A record in words: little-endian numbers, I and B signed."""
    numbers = [int.from_bytes(raw[k:k + 2], 'little', signed=k in (4, 6)) for k in range(0, 16, 2)]
    _, kind, i, b, first, _, third, fourth = numbers
    if kind == 1:
        return f'text record of {plural(len(raw), "byte")} at {i}, {b}: {plural(len(raw) - 16, "character")}'
    return f'rule record at {i}, {b}: {"DBR" if first else "DIR"} of {third} by {fourth}'


def presents(element):
    """Text and rules: only these leave records, if they are shown at all."""
    sequence = sequence_of(element)
    return sequence is None or sequence.text is not None or sequence.parameters is RULE


def effect(step):
    """What the element did: its record, or that it has none, and what it moved or set."""
    if step.answer.code != 0:
        return f'REFUSED with {step.answer.code}: {reason(step.answer.code)}'
    records = [record(raw) for raw in apart(step.records)]
    did = records or (['no record'] if presents(step.element) else [])
    return '; '.join(did + changes(step.before, step.after)) or 'nothing changes'


def row(step, code_page):
    element = step.element
    sequence = sequence_of(element)
    if element.intro is None:
        head = f'   {"text":<5}{"free run":<39}'
    elif sequence is None:
        head = f'   {"?":<5}{"no whole introducer":<39}'
    else:
        head = f'{element.type():02X} {sequence.mnemonic:<5}{sequence.name:<39}'
    return f'{element.at:>5}  {head} {values(element, code_page):<31}  {effect(step)}'


def underline(start, mark, element):
    """Below a line of bytes: carets at the mark, hyphens at the other bytes of its element; no line where it has none of them there."""
    own = range(element.at, element.end())
    signs = ' '.join('^^' if at == mark else '--' if at in own else '  ' for at in range(start, start + ROW)).rstrip()
    return [' ' * 11 + signs] if signs else []


def dump(part, mark, element, code_page):
    """The lines of bytes around a mark, which is underlined with its element; two dots where that goes on below them."""
    lines, middle = [], mark // ROW * ROW
    past = min(middle + 2 * ROW, len(part))
    for start in range(max(middle - ROW, 0), past, ROW):
        data = part[start:start + ROW]
        pairs = ' '.join(f'{byte:02X}' for byte in data)
        letters = ''.join(letter(byte, code_page) or '.' for byte in data)
        lines += [f'{start:>9}  {pairs:<47}  {letters}', *underline(start, mark, element)]
    if element.end() > past:
        lines[-1] += ' ..'
    return lines


def ending(answer, end):
    values_ = end.values()
    return (f'accepted: {plural(answer.first, "element")}, {plural(answer.second, "record byte")}; '
            f'ends at I {values_["i"]}, B {values_["b"]}' + (', chain open' if end.chain else ''))
