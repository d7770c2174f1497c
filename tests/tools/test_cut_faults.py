"""tools/cut on what it can't cut, read, ask or write: one line that names it, status 2, and nothing is written."""
import os
import unittest

import paths
from cases import BYTES
from faults import Faults

RULE = bytes.fromhex('2BD304E40001')


class Cut(Faults):
    TOOL = 'cut'
    WORDS = ('--output', 'out', '--library', paths.STANDIN)

    def setUp(self):
        super().setUp()
        self.file('ok', bytes.fromhex(BYTES['example']))

    def assert_fault(self, said, *words, **how):
        before = sorted(os.listdir(self.folder))
        super().assert_fault(said, *words, **how)
        self.assertEqual(sorted(os.listdir(self.folder)), before)


class Parts(Cut):
    """Code and byte are those of the part, wherever it would have been cut; by each library."""

    def assert_refused(self, said, data):
        self.file('part', data)
        self.assert_fault(f'part: refused with {said}', 'part')

    def test_the_parameter_at_fault_is_named(self):
        self.assert_refused('24 at 12: a value is out of range (SIA direction)', bytes.fromhex('C1C22BD304C7006405C2000A02'))

    def test_a_fault_in_a_later_piece(self):
        self.assert_refused("21 at 6001: X'2B' is not followed by X'D3'", RULE * 1000 + bytes.fromhex('2BC1'))
        self.assert_refused('20 at 60000: the element is cut by the end of the part', RULE * 10000 + bytes.fromhex('2BD304'))

    def test_outside_the_sheet(self):
        self.assert_refused('27 at 6: a character or a rule lies outside the sheet', bytes.fromhex(BYTES['outside']))

    def test_one_element_too_large_for_an_area(self):
        self.file('widths', b'0 ' * 1024)
        self.file('part', RULE + b'\xC1' * 4081)
        said = 'part: refused with 29 at 6: there is no room left in the 4,096 bytes of records; bytes 6 to 4086 are one element, which can not be cut'
        self.assert_fault(said, 'part', '--widths', 'widths')
        self.file('part', RULE + b'\xC1' * 4080)
        self.assertEqual(self.run_tool('part', '--widths', 'widths').returncode, 0)

    def test_one_element_too_long_for_a_part(self):
        self.file('widths', b'0 ' * 1024)
        self.file('part', RULE + b'\xC1' * 8193)
        said = 'part: refused with 19: the part is above 8,192 bytes; bytes 6 to 8198 are one element, which can not be cut'
        self.assert_fault(said, 'part', '--widths', 'widths')

    def test_a_part_before_it(self):
        self.file('cut', b'\xC1\x2B')
        self.assert_fault('cut: refused with 20 at 1: the element is cut by the end of the part', 'ok', '--after', 'cut')
        self.assert_fault('cut: refused with 20 at 1: the element is cut by the end of the part', 'ok', 'cut', 'ok')


class PartsByTheLibrary(Parts):
    WORDS = ('--output', 'out', '--library', paths.LIBRARY, '--run', paths.RUN)


class Files(Cut):
    def test_a_part_that_is_not_there_or_a_folder(self):
        self.assert_fault('none: No such file or directory', 'ok', 'none')
        self.assert_fault('folder: Is a directory', 'folder')

    def test_widths(self):
        self.file('wrong', b'144 144\n144 x\n')
        self.assert_fault("wrong: line 2: 'x' is no number from 0 to 65,535", 'ok', '--widths', 'wrong')

    def test_an_increment_out_of_range(self):
        self.assert_fault("--increment: '32768' is no number from 0 to 32,767", 'ok', '--increment', '32768')

class Libraries(Cut):
    WORDS = ('--output', 'out')

    def test_one_that_is_not_there(self):
        self.assert_fault('./none.so: cannot open shared object file: No such file or directory', 'ok', '--library', 'none.so')
        self.assert_fault('./none: No such file or directory', 'ok', '--library', 'none')

    def test_a_host_that_ends_at_once(self):
        self.assert_fault('/bin/false: the host of the library has ended, with status 1', 'ok', '--library', '/bin/false')


class Outputs(Cut):
    WORDS = ('--library', paths.STANDIN)

    def test_a_folder_that_is_not_empty(self):
        with open(self.path('folder/00003.part'), 'wb'):
            pass
        self.assert_fault('folder: Directory not empty', 'ok', '--output', 'folder')
        self.assertEqual(os.listdir(self.path('folder')), ['00003.part'])

    def test_an_empty_folder_is_filled_and_is_as_readable_as_others(self):
        self.assertEqual(self.run_tool('ok', '--output', 'folder').returncode, 0)
        self.assertEqual(os.listdir(self.path('folder')), ['00001.part'])
        mask = os.umask(0)
        os.umask(mask)
        self.assertEqual(os.stat(self.path('folder')).st_mode & 0o777, 0o777 & ~mask)

    def test_a_file_in_its_place(self):
        self.assert_fault('ok: Not a directory', 'ok', '--output', 'ok')

    def test_a_place_that_is_not_there(self):
        self.assert_fault('none/out: No such file or directory', 'ok', '--output', 'none/out')
        self.assert_fault("'': No such file or directory", 'ok', '--output', '')

    def test_no_output(self):
        self.assert_fault('the following arguments are required: --output', 'ok')

    def test_a_disk_that_is_full(self):
        self.file('large', bytes.fromhex('2BD302F8') * 500)
        self.assert_fault('out: File too large', 'large', '--output', 'out', limited=True)


if __name__ == '__main__':
    unittest.main()
