"""tools/page on what it can't draw, read or write: one line that names it, and status 2."""
import errno
import os
import stat
import unittest
from unittest import mock

from faults import SMALL, Faults
from ptoca import files
from ptoca.words import Wrong

LISTING = b'PART 12\nT 720 480 0 65287 0 65535 C1C2\nEND 1008 480 3 18\n'
PART = bytes.fromhex('2BD304C702D004D201E0C1C2')


class Page(Faults):
    TOOL = 'page'

    def setUp(self):
        super().setUp()
        self.file('ok', LISTING)
        self.file('ok.part', PART)


    def assert_straight(self):
        """A pipe of this folder's own gets the picture and stays a pipe: without that no device is tried, which root could replace."""
        os.mkfifo(self.path('pipe'))
        reading = os.open(self.path('pipe'), os.O_RDONLY | os.O_NONBLOCK)
        try:
            made = self.run_tool('ok', '--output', 'pipe')
            self.assertEqual((made.returncode, made.stdout, made.stderr), (0, b'', b''))
            self.assertTrue(stat.S_ISFIFO(os.stat(self.path('pipe')).st_mode))
            self.assertEqual(os.read(reading, 65536), self.run_tool('ok').stdout)
        finally:
            os.close(reading)


class Outputs(Page):
    def test_a_missing_folder(self):
        self.assert_fault('none/a.svg: No such file or directory', 'ok', '--output', 'none/a.svg')

    def test_a_folder(self):
        self.assert_fault('folder: Is a directory', 'ok', '--output', 'folder')

    def test_a_full_device(self):
        self.assert_straight()
        self.assert_fault('/dev/full: No space left on device', 'ok', '--output', '/dev/full')

    def test_standard_output_full_or_closed(self):
        self.assert_fault('standard output: No space left on device', 'ok', redirected='> /dev/full')
        self.assert_fault('standard output: closed', 'ok', redirected='>&-')

    def test_help_on_a_full_output(self):
        self.assert_fault('standard output: No space left on device', '--help', redirected='> /dev/full')

    def test_a_reader_that_went_away_ends_it_quietly(self):
        made = self.without_a_reader('ok')
        self.assertEqual((made.returncode, made.stderr), (0, b''))

    def test_what_fails_leaves_the_earlier_picture_and_nothing_beside(self):
        self.file('a.svg', b'earlier')
        before = sorted(os.listdir(self.folder))
        self.assert_fault('a.svg: File too large', 'ok', '--output', 'a.svg', limited=True)
        self.assertEqual(sorted(os.listdir(self.folder)), before)
        with open(self.path('a.svg'), 'rb') as file:
            self.assertEqual(file.read(), b'earlier')

    def test_a_file_that_may_not_be_written_is_not_replaced(self):
        self.file('a.svg', b'earlier', mode=0o444)
        path = os.path.realpath(self.path('a.svg'))

        def denying(file, *words, **more):  # since to root all is permitted
            if file == path:
                raise PermissionError(errno.EACCES, 'Permission denied')
            return open(file, *words, **more)

        with mock.patch('ptoca.files.open', denying, create=True):
            self.assertRaisesRegex(Wrong, 'a.svg: Permission denied$', files.write, b'new', path)
        with open(self.path('a.svg'), 'rb') as file:
            self.assertEqual(file.read(), b'earlier')


class Written(Page):
    def assert_written(self, name):
        """The picture stands there, as standard output would get it, and nothing else does."""
        before = set(os.listdir(self.folder))
        made = self.run_tool('ok', '--output', name)
        self.assertEqual((made.returncode, made.stdout, made.stderr), (0, b'', b''))
        self.assertEqual(set(os.listdir(self.folder)), before | {name})
        with open(self.path(name), 'rb') as file:
            self.assertEqual(file.read(), self.run_tool('ok').stdout)

    def mode(self, name):
        return stat.S_IMODE(os.stat(self.path(name)).st_mode)

    def test_a_new_file_is_as_any_other(self):
        self.assert_written('a.svg')
        with open(self.path('other'), 'wb'):
            pass
        self.assertEqual(self.mode('a.svg'), self.mode('other'))

    def test_an_earlier_file_keeps_its_mode(self):
        self.file('a.svg', b'earlier', mode=0o640)
        self.assert_written('a.svg')
        self.assertEqual(self.mode('a.svg'), 0o640)

    def test_a_link_stays_one(self):
        self.file('real.svg', b'earlier')
        os.symlink('real.svg', self.path('a.svg'))
        self.assert_written('a.svg')
        self.assertTrue(os.path.islink(self.path('a.svg')))

    def test_a_device_is_written_straight(self):
        self.assert_straight()
        made = self.run_tool('ok', '--output', '/dev/stdout')
        self.assertEqual((made.returncode, made.stdout), (0, self.run_tool('ok').stdout))
        self.assertGreater(len(made.stdout), SMALL)


class Listings(Page):
    def assert_line(self, said, text):
        """The same of a file and of standard input."""
        self.file('wrong', text)
        self.assert_fault(f'wrong: {said}', 'wrong')
        self.assert_fault(f'standard input: {said}', given=text)

    def test_one_that_is_not_there_or_a_folder(self):
        self.assert_fault('none: No such file or directory', 'none')
        self.assert_fault('folder: Is a directory', 'folder')
        self.assert_fault("'': No such file or directory", '')

    def test_standard_input_closed(self):
        self.assert_fault('standard input: closed', redirected='<&-')

    def test_bytes_that_are_not_ascii(self):
        self.assert_line('line 2: a byte that is not ASCII', b'PART 1\nT 0 0 0 0 0 0 \xC1\nEND 0 0 1 17\n')

    def test_a_wrong_word(self):
        self.assert_line("line 3: 'x' is no number from -32,768 to 32,767", b'0 0 0\nPART 1\nT x 0 0 0 0 0 C1\nEND 0 0 1 17\n')
        self.assert_line("line 2: '1_0' is no number from 0 to 65,535", b'PART 1\nR 0 0 0 0 1_0 0\nEND 0 0 1 16\n')
        self.assert_line("line 2: 'C' is not in pairs of hex digits", b'PART 1\nT 0 0 0 0 0 0 C\nEND 0 0 1 16\n')

    def test_an_enormous_number(self):
        for digits in (9 * b'9', 30 * b'9', 10000 * b'9'):
            shown = repr(digits.decode() if len(digits) < 24 else 22 * '9' + '..')
            self.assert_line(f'line 2: {shown} is no number from -32,768 to 32,767', b'PART 1\nEND ' + digits + b' 0 0 0\n')

    def test_a_wrong_count(self):
        self.assert_line('line 1: 0 numbers where 1 belong', b'PART\nEND 0 0 0 0\n')
        self.assert_line('line 1: 1 number where 28 belong', b'JOB 1\nEND\n')
        self.assert_line('line 2: 0 numbers where 6 belong', b'PART 1\nT\nEND 0 0 0 0\n')

    def test_a_line_out_of_its_place(self):
        job = b'JOB 1 1' + 25 * b' 1' + b'\n'
        self.assert_line("line 2: 'REFUSED' has no place here", job + b'REFUSED 27 0\n')
        self.assert_line("line 3: 'REFUSED' has no place here", b'PART 1\nR 0 0 0 0 1 1\nREFUSED 27 0\n')
        self.assert_line("line 2: 'PART' has no place here", b'PART 1\nPART 1\n')
        self.assert_line('line 2: 1 number where 0 belong', job + b'END 1\n')

    def test_a_sheet_without_an_end(self):
        self.assert_line('line 2: the sheet that begins here has no end', b'0 0 0\nPART 1\n')

    def test_sheets_that_are_not_there(self):
        self.assert_line('0 sheets in this text, and number 1 was asked for', b'0 0 0\n')
        self.assert_fault('ok: 1 sheet in this text, and number 2 was asked for', 'ok', '--sheet', '2')
        self.assert_fault('ok: 1 sheet in this text, and number 0 was asked for', 'ok', '--sheet', '0')


class Options(Page):
    def test_wrong_words(self):
        self.assert_fault("argument --sheet: invalid int value: 'x'", '--sheet', 'x')
        self.assert_fault("argument --codepage: invalid choice: '37' (choose from '1252', '500')", '--codepage', '37')
        self.assert_fault('unrecognized arguments: a\\nb', 'ok', 'a\nb')

    def test_an_increment_out_of_range(self):
        for word in ('32768', '-1', 'x', '', '1' * 30):
            shown = repr(word if len(word) < 25 else word[:22] + '..')
            self.assert_fault(f'--increment: {shown} is no number from 0 to 32,767', 'ok', f'--increment={word}')

    def test_an_increment_for_a_job(self):
        self.file('job', b'JOB 0 0 1 1 0 0 0 0 0 0 0 0 0 0 0 0 0 0 0 0 0 0 65535 0 0 1 0\nEND\n')
        self.assertEqual(self.run_tool('job').returncode, 0)
        self.assert_fault('--increment: a job tells its own', 'job', '--increment', '180')

    def test_a_part_that_is_not_there_or_a_folder(self):
        self.assert_fault('none: No such file or directory', 'ok', '--part', 'none')
        self.assert_fault('folder: Is a directory', 'ok', '--part', 'folder')

    def test_another_part_than_the_listings(self):
        self.assert_fault('ok: 57 bytes, and the listing is of a part of 12', 'ok', '--part', 'ok')

    def test_a_device_without_an_end(self):
        self.assert_fault('/dev/zero: more than 268,435,456 bytes, which is more than is read', 'ok', '--part', '/dev/zero')

    def test_a_name_that_is_no_text(self):
        name = os.fsdecode(b'\xFF\1.part')
        self.file(name, PART)
        made = self.run_tool('ok', '--part', name)
        self.assertEqual((made.returncode, made.stderr), (0, b''))
        self.assertIn('>\ufffd\ufffd.part<', made.stdout.decode('utf-8'))


class Widths(Page):
    def assert_widths(self, said, data):
        self.file('wrong', data)
        self.assert_fault(f'wrong: {said}', 'ok', '--widths', 'wrong')

    def test_a_folder(self):
        self.assert_fault('folder: Is a directory', 'ok', '--widths', 'folder')

    def test_bytes_that_are_not_ascii(self):
        self.assert_widths('line 2: a byte that is not ASCII', b'144\n\x90\0\n')

    def test_a_wrong_word(self):
        self.assert_widths("line 2: 'abc' is no number from 0 to 65,535", b'144 144\n144 abc\n')
        self.assert_widths("line 1: '65536' is no number from 0 to 65,535", b'65536\n')
        self.assert_widths("line 1: '-1' is no number from 0 to 65,535", b'-1')

    def test_a_wrong_count(self):
        self.assert_widths('1,025 numbers where 1,024 belong', 1025 * b'144\n')
        self.assert_widths('1 number where 1,024 belong', b'144')


if __name__ == '__main__':
    unittest.main()
