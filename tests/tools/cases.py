"""The parts that tools/elements is run on: a bundled file, or bytes; with the words that go before it."""
import paths

STATEMENT = ('--widths', paths.real('statement-p01.widths'))
EARLIER = ('--after', paths.real('marks48-p01o01x01.pad.part'))

# the whole output is stored for these
REAL = {
    'payroll': ('payroll-p01o01x01.part', ()),
    'marks48-second': ('marks48-p01o01x02.pad.part', EARLIER),
    'marks48-second-alone': ('marks48-p01o01x02.pad.part', ()),
}
# the last lines are told here for these
LAST = {
    'c-table-p01o01x01.part': ((), 'accepted: 522 elements, 3,090 record bytes; ends at I 9648, B 5870'),
    'c-letter-p01o01x01.part': ((), 'accepted: 114 elements, 2,040 record bytes; ends at I 7272, B 10425'),
    'c-boxes-p01o01x01.part': ((), 'accepted: 401 elements, 3,027 record bytes; ends at I 3024, B 4915'),
    'marks48-p01o01x01.pad.part': ((), 'accepted: 1,715 elements, 3,685 record bytes; ends at I 3116, B 4889, chain open'),
    'statement-p01o01x01.part': (
        STATEMENT,
        '     3728  C7 0D 11 18 DB C4 C1 E4 C5 D9 C1 E4 C6 E3 D9 C1  G...ûDAUERAUFTRA',
        '                    ^^ -- -- -- -- -- -- -- -- -- -- -- --',
        '     3744  C7 40 E2 D7 C1 D9 D2 D6 D5 E3 D6 04 D3 18 09 04  G SPARKONTO.L...',
        '           -- -- -- -- -- -- -- -- -- -- --',
    ),
}
BYTES = {
    'empty': '',
    'example': '2BD304C702D004D201E0C1C2',
    'moves': '2BD304C9FFFF04D5FFFF02D904C7000104D20002',
    'settings': '2BD304C102D004D100F005C300140104C5010003F1020475FF0006F700002D0004F80000',
    'defaults': '2BD305C3FFFFFF04C1FFFF04D1FFFF04C5FFFF03F1FF0575FFFF0006F7FFFFFFFF07E40001FFFFFF',
    'suppressed': '2BD303F205C12BD303F405C2',
    'no-ink': '2BD304E5000A04E5000007E6000A000000',
    'repeated': '2BD306EE0005C1C22BD302DA2BD304EE0000',
    'unprintable': 'C115E07F3F',
    'cut': '2B',
    'prefix': 'C12BC1',
    'prefix-twice': '2B2BD302D8',
    'prefix-next-line': 'C1' * 15 + '2BC1C2',
    'length': '2BD303C602',
    'length-under-2': 'C12BD301D8C2',
    'length-past-the-end': '2BD3FFC60001',
    'length-chained': '2BD302D901D8',
    'length-chained-other': '2BD302D905C60001C1',
    'type': '2BD30272',
    'type-chained': '2BD302D90372C1',
    'value': '2BD304C68000',
    'value-second': '2BD305C2000102',
    'value-second-chained': 'C1C22BD304C7000105C200010204D20001',
    'value-next-line': 'C1' * 13 + '2BD306F600002D01C2C3',
    'value-width': '2BD307E40001FFFF00',
    'value-fraction': '2BD307E60001000E01',
    'value-both': '2BD307E48001FFFF00',
    'value-count': 'C12BD305EE8000C2',
    'value-no-text': '2BD304EE0001',
    'font': '2BD303F004',
    'font-chained': '2BD302D903F1FE03F001',
    'pairing': '2BD303F30103F202',
    'outside': '2BD304C62F41C1',
    'position': '2BD304C9800004C88000',
    'too-long': 'C1' * 8193,
}
