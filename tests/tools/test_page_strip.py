"""tools/page on a refused part: the reason in words, the element at fault and the byte that is named."""
import unittest

import paths
from cases import BYTES
from page.fitting import measure
from page.strip import LEFT, MOST, ROW
from pictures import drawn, group, having, of_text, texts
from ptoca.cutting import element_with
from ptoca.refusals import REASONS, reason

STEP = (12240 - LEFT - 240) / ROW
SEQUENCE = bytes.fromhex('2BD3FFDA') + 253 * b'\xC1'


def refused(part, code, offset):
    return of_text(f'PART {min(len(part), 8193)}\nREFUSED {code} {offset}\n', part=part)


def shaded(tree):
    """The bytes on the element's ground, a pair for each line: the first, and how many."""
    places = [(float(node.get('x')), float(node.get('width'))) for node in having(tree, 'rect', 'element')]
    return [(round((x - LEFT) / STEP), round(width / STEP)) for x, width in places]


def lies_behind(tree, kind):
    """The offsets of all bytes that a rectangle of this kind lies behind."""
    lines = {float(node.get('y')): int(node.text) for node in having(tree, 'text', 'offset')}
    found = []
    for node in having(tree, 'rect', kind):
        x, y, width, height = (float(node.get(key)) for key in ('x', 'y', 'width', 'height'))
        start = next(offset for baseline, offset in lines.items() if y < baseline < y + height)
        found += [start + k for k in range(ROW) if x < LEFT + STEP * k + STEP / 2 < x + width]
    return found


def said(tree):
    """What the strip says below the reason."""
    return ' '.join(texts(group(tree, 'refused'), 'fine'))


class Marks(unittest.TestCase):
    PART = bytes.fromhex('2BD304C62F41C1')

    def test_the_byte_that_the_refusal_names_is_on_red(self):
        tree = drawn('outside', part=self.PART)
        self.assertEqual(texts(tree, 'marked'), ['C1'])
        self.assertEqual(texts(tree, 'byte'), ['2B', 'D3', '04', 'C6', '2F', '41'])

    def test_the_whole_element_is_shaded(self):
        self.assertEqual(shaded(drawn('outside', part=self.PART)), [(6, 1)])
        self.assertEqual(shaded(refused(self.PART, 24, 0)), [(0, 6)])

    def test_the_byte_may_stand_inside_the_element(self):
        tree = refused(self.PART, 24, 4)
        self.assertEqual((texts(tree, 'marked'), shaded(tree)), (['2F'], [(0, 6)]))

    def test_an_element_of_a_chain(self):
        tree = refused(bytes.fromhex('2BD303F30103F202'), 26, 5)
        self.assertEqual((texts(tree, 'marked'), shaded(tree)), (['03'], [(5, 3)]))

    def test_a_real_part(self):
        with open(paths.real('statement-p01o01x01.part'), 'rb') as file:
            tree = drawn('statement', part=file.read())
        self.assertEqual(texts(tree, 'offset'), ['3712', '3728', '3744', '3760'])
        self.assertEqual((texts(tree, 'marked'), shaded(tree)), (['18'], [(3, 13), (0, 11)]))

    def test_a_byte_that_is_not_there_is_not_marked_and_it_is_said(self):
        for offset in (7, 4294967295):
            tree = refused(self.PART, 27, offset)
            self.assertEqual((texts(tree, 'marked'), shaded(tree), said(tree)), ([], [], 'There is no such byte: the part has 7 bytes.'))
        self.assertEqual(said(of_text('PART 1\nREFUSED 21 1\n')), 'There is no such byte: the part has 1 byte.')

    def test_a_part_too_long_has_no_place(self):
        tree = refused(bytes(8193), 19, 0)
        self.assertEqual((texts(tree, 'marked'), shaded(tree), said(tree)), ([], [], ''))
        self.assertEqual(texts(tree, 'refusal'), ['Refused with 19: the part is above 8,192 bytes'])


class Within(unittest.TestCase):
    """A refusal may name any byte of its element."""
    NAMED = {  # code, offset, the element's bytes, and what is red
        'cut': (20, 0, 'byte 0', 'its first byte'),
        'prefix': (21, 2, 'bytes 1 to 2', "the place of X'D3'"),
        'prefix-twice': (21, 1, 'bytes 0 to 1', "the place of X'D3'"),
        'prefix-next-line': (21, 16, 'bytes 15 to 16', "the place of X'D3'"),
        'length': (22, 2, 'bytes 0 to 4', 'LENGTH'),
        'length-under-2': (22, 3, 'bytes 1 to 4', 'LENGTH'),
        'length-past-the-end': (22, 2, 'bytes 0 to 5', 'LENGTH'),
        'length-chained': (22, 4, 'bytes 4 to 5', 'LENGTH'),
        'type': (23, 3, 'bytes 0 to 3', 'TYPE'),
        'type-chained': (23, 5, 'bytes 4 to 6', 'TYPE'),
        'value': (24, 4, 'bytes 0 to 5', 'the first byte of AMI displacement'),
        'value-second': (24, 6, 'bytes 0 to 6', 'the first byte of SIA direction'),
        'value-second-chained': (24, 12, 'bytes 8 to 12', 'the first byte of SIA direction'),
        'value-next-line': (24, 19, 'bytes 13 to 20', 'the first byte of STO B-axis'),
        'font-chained': (25, 6, 'bytes 4 to 6', 'the first byte of SCFL font'),
        'pairing': (26, 5, 'bytes 5 to 7', 'its first byte'),
        'outside': (27, 6, 'byte 6', 'its first byte'),
        'position': (28, 6, 'bytes 6 to 9', 'its first byte'),
    }

    def test_what_is_marked_is_said(self):
        for name, (code, offset, element, red) in self.NAMED.items():
            tree = refused(bytes.fromhex(BYTES[name]), code, offset)
            self.assertEqual(said(tree), f'Shaded: the element, {element}. Red: {red}.')

    def test_what_no_rule_names_is_only_the_byte_that_is_named(self):
        part = bytes.fromhex('C1C2' + BYTES['value-count'])
        for code, offset in ((24, 1), (24, 8), (24, 9), (27, 1), (26, 5)):
            self.assertTrue(said(refused(part, code, offset)).endswith('Red: the byte that the refusal names.'))

    def test_every_byte_can_be_named(self):
        part = bytes.fromhex(BYTES['value-next-line'] + BYTES['settings'] + BYTES['suppressed'] + BYTES['repeated'])
        for offset in range(len(part)):
            element, tree = element_with(part, offset), refused(part, 24, offset)
            self.assertEqual((lies_behind(tree, 'mark'), lies_behind(tree, 'element')), ([offset], [*range(element.at, element.end())]))


class Window(unittest.TestCase):
    def offsets(self, part, offset):
        return [int(text) for text in texts(refused(part, 27, offset), 'offset')]

    def test_a_few_lines_around(self):
        part = 100 * b'\xC1' + SEQUENCE[:2] + b'\2\xD8' + 100 * b'\xC1'
        self.assertEqual(self.offsets(part, 100), [80, 96, 112, 128])

    def test_more_where_the_element_begins_or_ends_nearby(self):
        part = 96 * b'\xC2' + bytes.fromhex('2BD340F8') + 62 * b'\xC1' + 200 * b'\xC2'
        self.assertEqual(self.offsets(part, 96)[-1], 160)
        self.assertEqual(self.offsets(part, 150)[0], 96)

    def test_no_more_than_that_of_a_long_one(self):
        part = SEQUENCE + SEQUENCE
        first = 200 // ROW - MOST
        self.assertEqual(self.offsets(part, 200), [ROW * row for row in range(first, first + 2 * MOST + 1)])
        self.assertEqual(shaded(refused(part, 27, 200)), [(0, ROW)] * (2 * MOST) + [(0, 1)])

    def test_a_run_of_thousands(self):
        self.assertEqual(len(self.offsets(8000 * b'\xC1', 0)), MOST + 1)


class Words(unittest.TestCase):
    def test_the_reason(self):
        self.assertEqual(texts(drawn('outside'), 'refusal'), ['Refused with 27 at byte 6: a character or a rule lies outside the sheet'])

    def test_without_the_part_the_reason_alone(self):
        tree = drawn('outside')
        self.assertEqual((len(texts(tree, 'refusal')), texts(tree, 'byte'), shaded(tree), said(tree)), (1, [], [], ''))

    def test_every_reason_fits(self):
        for code in [*REASONS, 4294967295]:
            lines = texts(refused(bytes(8192), code, 8191), 'refusal')
            self.assertTrue(' '.join(lines).endswith(reason(code)))
            self.assertLess(max(measure(line, 'refusal') for line in lines), 12240 - 600)


if __name__ == '__main__':
    unittest.main()
