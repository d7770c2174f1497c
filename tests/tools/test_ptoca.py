"""Letters of the two code pages, files of widths, where elements begin and end, and the control sequences."""
import os
import tempfile
import unittest

import paths
from ptoca import letters, refusals, widths
from ptoca.cutting import element_at, element_with
from ptoca.sequences import SEQUENCES
from ptoca.words import Wrong


class Letters(unittest.TestCase):
    def test_code_page_500(self):
        self.assertEqual(''.join(letters.letter(byte, '500') for byte in b'\xC8\x81\x87\x85\x95\x40\x50'), 'Hagen &')

    def test_code_page_1252(self):
        self.assertEqual(letters.letter(0xC8, '1252'), 'È')
        self.assertEqual(letters.letter(0x40, '1252'), '@')

    def test_control_codes_have_no_form(self):
        self.assertIsNone(letters.letter(0x15, '500'))
        self.assertIsNone(letters.letter(0xFF, '500'))

    def test_undefined_bytes_have_no_form(self):
        self.assertIsNone(letters.letter(0x81, '1252'))

    def test_the_soft_hyphen_has_no_form(self):
        self.assertIsNone(letters.letter(0xCA, '500'))

    def test_a_line_escapes_what_has_no_form(self):
        self.assertEqual(letters.line(b'\xC1\x15\xE0\x7F', '500'), '"A\\x15\\\\\\""')


class Widths(unittest.TestCase):
    def test_without_a_file_every_width_is_144(self):
        self.assertEqual(widths.read(None), [144] * 1024)

    def test_a_bundled_file(self):
        table = widths.read(paths.real('statement-p01.widths'))
        self.assertEqual(len(table), 1024)
        self.assertGreater(max(table), 0)

    def test_another_count_is_refused(self):
        with tempfile.TemporaryDirectory() as folder:
            name = os.path.join(folder, 'short')
            with open(name, 'w', encoding='ascii') as file:
                file.write('144 ' * 1023)
            self.assertRaises(Wrong, widths.read, name)


class Cutting(unittest.TestCase):
    def cut(self, hexadecimal):
        """The elements in hex, found by each of the part's bytes."""
        part = bytes.fromhex(hexadecimal)
        found = [element_with(part, offset) for offset in range(len(part))]
        self.assertTrue(all(element.at <= offset < element.end() for offset, element in enumerate(found)))
        self.assertIsNone(element_with(part, len(part)))
        return [element.raw.hex().upper() for element in dict.fromkeys(found)]

    def test_free_runs_and_sequences(self):
        self.assertEqual(self.cut('C1C22BD304C60001C3'), ['C1C2', '2BD304C60001', 'C3'])
        self.assertEqual(self.cut(''), [])

    def test_a_chain_goes_on_without_the_prefix(self):
        self.assertEqual(self.cut('2BD304C702D004D32B2B02D8C1'), ['2BD304C702D0', '04D32B2B', '02D8', 'C1'])

    def test_a_chained_length_may_be_2b(self):
        self.assertEqual(self.cut('2BD302D92BD9' + 'C1' * 41 + '03F100'), ['2BD302D9', '2BD9' + 'C1' * 41, '03F100'])
        self.assertEqual(element_at(bytes.fromhex('2B0003'), 0, 1).raw.hex(), '2b0003')

    def test_the_prefix_without_its_class(self):
        self.assertEqual(self.cut('C12BC1C2C3'), ['C1', '2BC1', 'C2C3'])
        self.assertEqual(self.cut('2B2BD302D8'), ['2B2B', 'D302D8'])

    def test_a_length_under_2(self):
        self.assertEqual(self.cut('2BD300C6C1'), ['2BD300C6', 'C1'])
        self.assertEqual(self.cut('2BD302D901D8C1'), ['2BD302D9', '01D8', 'C1'])
        self.assertEqual(self.cut('2BD301'), ['2BD301'])

    def test_what_the_end_cuts(self):
        for part in ('2B', '2BD3', '2BD304', '2BD304C6', '2BD304C600'):
            self.assertEqual(self.cut(part), [part])
        self.assertEqual(self.cut('2BD302D904'), ['2BD302D9', '04'])


class Sequences(unittest.TestCase):
    def test_nineteen_sequences(self):
        self.assertEqual((len(SEQUENCES), all(kind % 2 == 0 for kind in SEQUENCES)), (19, True))


class Refusals(unittest.TestCase):
    def test_every_code_of_a_part_has_words(self):
        for code in [10, 12, 15, *range(19, 30)]:
            self.assertIn(code, refusals.REASONS)


if __name__ == '__main__':
    unittest.main()
