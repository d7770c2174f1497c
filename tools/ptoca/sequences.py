"""The nineteen control sequences by their PTOCA names, and their parameters: what each is called, and how its bytes are said."""
from dataclasses import dataclass
from typing import Callable

from ptoca.words import plural


@dataclass(frozen=True)
class Parameter:
    name: str
    size: int            # bytes; 0: all that are left
    said: Callable       # its bytes in words


@dataclass(frozen=True)
class Sequence:
    mnemonic: str
    name: str
    parameters: tuple = ()
    text: int = None     # where its text begins among the parameters


def unsigned(raw):
    return int.from_bytes(raw, 'big')


def ones(raw):
    return all(byte == 0xFF for byte in raw)


def plain(label):
    return lambda raw: f'{label} {unsigned(raw)}'


def signed(label):
    return lambda raw: f'{label} {int.from_bytes(raw, "big", signed=True):+d}'


def defaulted(label, absent='default'):
    """A number, or all ones for the descriptor's value."""
    return lambda raw: f'{label} {absent if ones(raw) else unsigned(raw)}'


def optional(label):
    """A number, or all ones for none."""
    return defaulted(label, 'absent')


def hexadecimal(label):
    return lambda raw: f'{label} ' + ('default' if ones(raw) else f"X'{raw.hex().upper()}'")


def direction(label):
    words = {0x00: 'added', 0x01: 'taken off', 0xFF: f'{label} default'}
    return lambda raw: words.get(raw[0], f'{label} {raw[0]:02X}')


def fractional(label):
    """Two bytes and a fraction."""
    def said(raw):
        fraction = f' {raw[2]}/256' if raw[2] else ''
        return f'{label} default' if ones(raw) else f'{label} {unsigned(raw[:2])}{fraction}'
    return said


def counted(label):
    return lambda raw: f'{plural(len(raw), "byte")} {label}'


def word(name, said):
    return Parameter(name, 2, said(name))


def byte(name, said):
    return Parameter(name, 1, said(name))


DISPLACEMENT, INCREMENT = Parameter('displacement', 2, plain('to')), Parameter('increment', 2, signed('by'))
RULE = (word('length', plain), Parameter('width', 3, fractional('width')))
SEQUENCES = {
    0xC6: Sequence('AMI', 'Absolute Move Inline', (DISPLACEMENT,)),
    0xD2: Sequence('AMB', 'Absolute Move Baseline', (DISPLACEMENT,)),
    0xC8: Sequence('RMI', 'Relative Move Inline', (INCREMENT,)),
    0xD4: Sequence('RMB', 'Relative Move Baseline', (INCREMENT,)),
    0xD8: Sequence('BLN', 'Begin Line'),
    0xC0: Sequence('SIM', 'Set Inline Margin', (word('margin', defaulted),)),
    0xD0: Sequence('SBI', 'Set Baseline Increment', (word('increment', defaulted),)),
    0xC2: Sequence('SIA', 'Set Intercharacter Adjustment', (word('amount', defaulted), byte('direction', direction))),
    0xC4: Sequence('SVI', 'Set Variable Space Character Increment', (word('space', optional),)),
    0xF0: Sequence('SCFL', 'Set Coded Font Local', (byte('font', defaulted),)),
    0x74: Sequence('STC', 'Set Text Color', (word('colour', hexadecimal), Parameter('precision', 1, counted('ignored')))),
    0xF6: Sequence('STO', 'Set Text Orientation', (word('I-axis', hexadecimal), word('B-axis', hexadecimal))),
    0xF2: Sequence('BSU', 'Begin Suppression', (byte('id', plain),)),
    0xF4: Sequence('ESU', 'End Suppression', (byte('id', plain),)),
    0xE4: Sequence('DIR', 'Draw I-axis Rule', RULE),
    0xE6: Sequence('DBR', 'Draw B-axis Rule', RULE),
    0xDA: Sequence('TRN', 'Transparent Data', text=0),
    0xEE: Sequence('RPS', 'Repeat String', (word('count', plain),), text=2),
    0xF8: Sequence('NOP', 'No Operation', (Parameter('data', 0, counted('ignored')),)),
}
UNKNOWN = Sequence('?', 'a type that the hub does not take')


def sequence_of(element):
    """The control sequence that an element is; None for a free run, and where no whole introducer stands."""
    kind = element.type()
    return None if kind is None else SEQUENCES.get(kind & 0xFE, UNKNOWN)


def split(sequence, raw):
    """The parameters that are there, each with its place among the bytes and its own ones."""
    at, found = 0, []
    for parameter in sequence.parameters:
        size = parameter.size or len(raw) - at
        if len(raw) - at < max(size, 1):
            break
        found.append((parameter, at, raw[at:at + size]))
        at += size
    return found


def parameter_at(element, offset):
    """The parameter that begins at this offset of the part, as `SIA direction`; None where none does."""
    sequence = sequence_of(element)
    if sequence is None:
        return None
    names = {at: parameter.name for parameter, at, _ in split(sequence, element.parameters())}
    name = names.get(offset - element.at - element.intro - 2)
    return None if name is None else f'{sequence.mnemonic} {name}'
