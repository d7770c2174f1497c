"""tools/elements on what it can't read, ask or print: one line that names it, and status 2."""
import os
import unittest
from unittest import mock

import paths
from cases import BYTES
from library import served
from library.shapes import NoLibrary
from faults import Faults

LONG = (8193, 65536, 65537, 1000000)  # bytes of parts that are too long
# hosts that read the first request: one answers it and ends, one answers nonsense
EARLY = '#!/bin/sh\nhead -c 49 > /dev/null\nhead -c 60 /dev/zero\nexec <&- >&-\necho "a word\nanother" >&2\nsleep 0.3\nexit 3\n'
WRONG = "#!/bin/sh\nhead -c 49 > /dev/null\nhead -c 60 /dev/zero | tr '\\0' '\\377'\n"


class Elements(Faults):
    TOOL = 'elements'
    WORDS = ('--library', paths.STANDIN)

    def setUp(self):
        super().setUp()
        self.file('ok', bytes.fromhex(BYTES['example']))


class Files(Elements):
    def test_a_part_that_is_not_there_or_a_folder(self):
        self.assert_fault('none: No such file or directory', 'none')
        self.assert_fault('folder: Is a directory', 'folder')

    def test_a_part_before_it_that_is_not_there_or_a_folder(self):
        self.assert_fault('none: No such file or directory', 'ok', '--after', 'none')
        self.assert_fault('folder: Is a directory', 'ok', '--after', 'folder')

    def test_a_part_before_it_that_is_refused(self):
        self.file('cut', b'\xC1\x2B')
        self.assert_fault('cut: refused with 20 at 1: the element is cut by the end of the part', 'ok', '--after', 'ok', '--after', 'cut')
        self.file('long', bytes(8193))
        self.assert_fault('long: refused with 19: the part is above 8,192 bytes', 'ok', '--after', 'long')

    def test_widths(self):
        self.file('wrong', b'144 144\n144 x\n')
        self.assert_fault("wrong: line 2: 'x' is no number from 0 to 65,535", 'ok', '--widths', 'wrong')
        self.assert_fault('folder: Is a directory', 'ok', '--widths', 'folder')

    def test_standard_output_full_or_closed(self):
        self.assert_fault('standard output: No space left on device', 'ok', redirected='> /dev/full')
        self.assert_fault('standard output: closed', 'ok', redirected='>&-')

    def test_a_reader_that_went_away_ends_it_quietly(self):
        made = self.without_a_reader('ok')
        self.assertEqual((made.returncode, made.stderr), (0, b''))

    def test_wrong_words(self):
        self.assert_fault("argument --codepage: invalid choice: '5' (choose from '1252', '500')", 'ok', '--codepage', '5')

    def test_an_increment_out_of_range(self):
        for word in ('32768', '-1', 'x'):
            self.assert_fault(f'--increment: {word!r} is no number from 0 to 32,767', 'ok', f'--increment={word}')

    def test_a_name_that_is_no_text(self):
        name = os.fsdecode(b'\xFF\n')
        self.file(name, b'')
        self.assertEqual(self.run_tool(name).stdout.splitlines()[0], b'\\udcff\\n: 0 bytes, baseline increment 180')
        self.assert_fault('\\udcff\\n/: Not a directory', name + '/')


class Libraries(Elements):
    WORDS = ()

    def test_one_that_is_not_there(self):
        self.assert_fault('./none.so: cannot open shared object file: No such file or directory', 'ok', '--library', 'none.so')
        self.assert_fault('./none: No such file or directory', 'ok', '--library', 'none')

    def test_one_that_cannot_be_run(self):
        self.assert_fault('./ok: Permission denied', 'ok', '--library', 'ok')
        self.assert_fault('./folder: Permission denied', 'ok', '--library', 'folder')

    def test_a_command_that_is_not_there(self):
        self.assert_fault('./none: No such file or directory', 'ok', '--run', './none', '--library', 'ok')

    def test_a_host_that_ends_at_once(self):
        self.assert_fault('/bin/false: the host of the library has ended, with status 1', 'ok', '--library', '/bin/false')

    def test_a_host_that_ends_early(self):
        self.file('early', EARLY.encode(), mode=0o755)
        self.assert_fault('./early: the host of the library has ended, with status 3: a word', 'ok', '--library', 'early')

    def test_a_host_that_is_none(self):
        self.file('wrong', WRONG.encode(), mode=0o755)
        self.assert_fault('wrong: the library answers an open with 4294967295', 'ok', '--library', 'wrong')

    def test_a_host_that_does_not_answer(self):
        with mock.patch('library.served.PATIENCE', 0.1):
            host = served.Served(['sleep', '100'])
            self.assertRaisesRegex(NoLibrary, '^100: no answer within 0.1 seconds$', host.opened, b'')


class LongParts(Elements):
    """The library itself is asked, however long the part is; and the count is the real one."""

    def assert_too_long(self, *words):
        for size in LONG:
            self.file('long', bytes(size))
            made = self.run_tool('long', *words)
            self.assertEqual((made.returncode, made.stderr), (0, b''))
            self.assertEqual(made.stdout.decode(), f'long: {size:,} bytes, baseline increment 180\nrefused with 19: the part is above 8,192 bytes\n')

    def test_parts_that_are_too_long(self):
        self.assert_too_long()


class LongPartsOfTheLibrary(LongParts):
    WORDS = ('--library', paths.LIBRARY, '--run', paths.RUN)


if __name__ == '__main__':
    unittest.main()
