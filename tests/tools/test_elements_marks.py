"""tools/elements on a refusal: the line of signs below each line of bytes."""
import unittest

import paths  # makes the tools' modules importable
from elements.report import ROW, dump
from ptoca.cutting import element_with

LEFT = 11  # where the bytes of a line begin
PART = bytes.fromhex('C1' * 13 + '2BD306F600002D01' + 'C2' * 20 + '2BD305C30001FF' + '04C78000' + '23DA' + 'C3' * 33 + '2BD302D8')


def signs(lines):
    """The offsets of the bytes that stand over each sign, and of all that are shown."""
    found, start = {'shown': [], '^^': [], '--': [], '..': []}, None
    for line in lines:
        if line[:9].strip():
            start = int(line[:9])
            found['shown'] += range(start, start + len(line[LEFT:LEFT + 3 * ROW].split()))
            continue
        for at in range(LEFT, len(line), 3):
            if line[at:at + 2].strip():
                found[line[at:at + 2]].append(start + (at - LEFT) // 3)
    return found


def dumped(part, mark):
    return signs(dump(part, mark, element_with(part, mark), '500'))


class Signs(unittest.TestCase):
    def test_carets_at_the_byte_and_hyphens_at_the_rest_of_its_element(self):
        for mark in range(len(PART)):
            element, found = element_with(PART, mark), dumped(PART, mark)
            self.assertEqual(found['^^'], [mark])
            self.assertEqual(found['--'], [at for at in range(element.at, element.end()) if at != mark and at in found['shown']])

    def test_the_lines_before_and_behind_it_are_shown(self):
        self.assertEqual(dumped(PART, 0)['shown'], [*range(32)])
        self.assertEqual(dumped(PART, 40)['shown'], [*range(16, 64)])
        self.assertEqual(dumped(PART, len(PART) - 1)['shown'], [*range((len(PART) - 1) // ROW * ROW - ROW, len(PART))])

    def test_an_element_that_begins_on_the_line_before(self):
        self.assertEqual(dumped(PART, 19), {'shown': [*range(48)], '^^': [19], '--': [13, 14, 15, 16, 17, 18, 20], '..': []})

    def test_dots_where_the_element_goes_on_below_what_is_shown(self):
        self.assertEqual(dumped(8 * b'\xC1', 0)['..'], [])
        self.assertEqual(dumped(32 * b'\xC1', 0)['..'], [])
        self.assertEqual(dumped(33 * b'\xC1', 0)['..'], [32])
        self.assertEqual(dumped(33 * b'\xC1', 16)['..'], [])

    def test_a_line_without_the_element_has_none(self):
        lines = dump(PART, 0, element_with(PART, 0), '500')
        self.assertEqual([line[:9].strip() for line in lines], ['0', '', '16'])


if __name__ == '__main__':
    unittest.main()
