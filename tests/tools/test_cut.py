"""tools/cut: the pieces fit, none could be longer, joined they are the part, and their records are the part's."""
import os
import subprocess
import sys
import tempfile
import unittest

import paths
from cut.pieces import LONGEST, Disagrees, pieces
from library.loaded import Loaded
from library.served import Served
from library.shapes import AREA, Descriptor
from ptoca.cutting import element_at
from ptoca.sheet import INCREMENT, descriptor as sheet_at
from ptoca.widths import every, read as read_widths

NEXT_LINE, EMPTY = bytes.fromhex('2BD302D8'), bytes.fromhex('2BD302F8')
RULE = bytes.fromhex('2BD304E40001')           # a record of 16 bytes
CHAINED = bytes.fromhex('2BD304E50001' + '04E50001' * 999 + '02F8')
NOTHING = bytes.fromhex('2BD3FFF8' + '00' * 253)  # 257 bytes without a record
HIDDEN = bytes.fromhex('2BD303F205') + b'\xC1' * 5000 + bytes.fromhex('2BD303F405')


def real(name):
    with open(paths.real(name), 'rb') as file:
        return file.read()


STATEMENT = real('statement-p01o01x01.part')
DOCUMENTS = b''.join(map(real, ('payroll-p01o01x01.part', 'c-letter-p01o01x01.part', 'c-table-p01o01x01.part', 'c-boxes-p01o01x01.part')))


class Cutting(unittest.TestCase):
    """By the proved library, in a process of its own."""

    @classmethod
    def setUpClass(cls):
        cls.library = Served([*paths.RUN.split(), paths.LIBRARY])

    @classmethod
    def tearDownClass(cls):
        cls.library.close()

    def setUp(self):
        self.descriptor = Descriptor(**sheet_at(INCREMENT))
        self.start = self.library.opened(self.descriptor)[1]

    def answered(self, raw, widths, state):
        """The library's answer to a piece beside an empty area, the state after it and its records."""
        area = bytearray(AREA)
        answer, after = self.library.interpret(raw, widths, area, self.descriptor, state.drained())
        return answer, after, bytes(area[:after.used])

    def one_by_one(self, part, widths):
        """The records of each element alone, joined; and the state at the end."""
        state, at, found = self.start, 0, b''
        while at < len(part):
            element = element_at(part, at, state.chain)
            answer, state, records = self.answered(element.raw, widths, state)
            self.assertEqual(answer.code, 0)
            at, found = element.end(), found + records
        return found, state

    def assert_cut(self, part, widths=None):
        """All that is promised of the pieces, by what the library answers for each; and how many there are."""
        widths = widths or every()
        made = pieces(self.library, part, (widths, self.descriptor), self.start)
        self.assertEqual(b''.join(piece.raw for piece in made), part)
        state, found, at = self.start, b'', 0
        for piece in made:
            self.assertEqual(piece.at, at)
            self.assert_longest(part, piece, widths, state)
            answer, state, records = self.answered(piece.raw, widths, state)
            self.assertEqual((answer.code, bytes(state)), (0, bytes(piece.end)))
            found, at = found + records, at + len(piece.raw)
        records, end = self.one_by_one(part, widths)
        self.assertEqual((found, bytes(state.drained())), (records, bytes(end.drained())))
        return len(made)

    def assert_longest(self, part, piece, widths, state):
        """With one element more the library refuses it: 29, or 19."""
        past = piece.at + len(piece.raw)
        if past < len(part):
            longer = part[piece.at:element_at(part, past, piece.end.chain).end()]
            self.assertIn(self.answered(longer, widths, state)[0].code, (19, 29))

    def test_the_statement(self):
        self.assertEqual(self.assert_cut(STATEMENT, read_widths(paths.real('statement-p01.widths'))), 2)

    def test_a_part_above_8192_bytes(self):
        self.assertGreater(len(DOCUMENTS + STATEMENT), LONGEST)
        self.assertEqual(self.assert_cut(DOCUMENTS + STATEMENT), 5)

    def test_what_fits_is_one_piece(self):
        for part in (b'', b'\xC1', NEXT_LINE, RULE * 256, NOTHING * 31, real('c-table-p01o01x01.part'), real('marks48-p01o01x01.pad.part')):
            self.assertEqual(self.assert_cut(part), 1)

    def test_one_byte_more_is_two(self):
        self.assertEqual(self.assert_cut(RULE * 257), 2)
        self.assertEqual(self.assert_cut(EMPTY * 2048), 1)
        self.assertEqual(self.assert_cut(EMPTY * 2049), 2)
        self.assertEqual(self.assert_cut(NOTHING * 32), 2)

    def test_a_chain_is_cut_and_goes_on(self):
        made = pieces(self.library, CHAINED, (every(), self.descriptor), self.start)
        self.assertEqual([piece.end.chain for piece in made], [1, 1, 1, 0])
        self.assertEqual([piece.answer.second for piece in made], [4096, 4096, 4096, 1000 * 16 - 3 * 4096])
        self.assertEqual(self.assert_cut(CHAINED), 4)

    def test_free_runs_stay_whole(self):
        line = b'\xC1' * 80 + bytes.fromhex('2BD302D8')
        self.assertEqual(self.assert_cut(line * 85), 3)  # an area has room for 42 of them

    def test_a_suppression_goes_on(self):
        self.descriptor.hidden = 5
        self.start = self.library.opened(self.descriptor)[1]
        wide = [0] * 1024
        self.assertEqual(self.assert_cut(HIDDEN, wide), 1)
        self.assertEqual(self.assert_cut(NOTHING * 20 + HIDDEN, wide), 2)

    def test_a_library_that_disagrees_with_itself(self):
        lying = Lying(self.library, self.library.opened)
        with self.assertRaises(Disagrees) as told:
            pieces(lying, CHAINED, (every(), self.descriptor), self.start)
        self.assertRegex('\n'.join(told.exception.args), 'THE LIBRARY DISAGREES WITH ITSELF: .*\n  record bytes: element by element 4096, as a whole 4097')


class CuttingByTheStandin(Cutting):
    """The second implementation, loaded, cuts at the same places."""

    @classmethod
    def setUpClass(cls):
        cls.library = Loaded(paths.STANDIN)

    @classmethod
    def tearDownClass(cls):
        pass


class Lying:
    """A library that counts a byte too many of the records of more than one element."""

    def __init__(self, library, opened):
        self.library, self.opened = library, opened

    def interpret(self, *lent):
        answer, after = self.library.interpret(*lent)
        answer.second += answer.first > 1
        return answer, after


class Command(unittest.TestCase):
    """What is written and said; the same by both."""

    def run_cut(self, *words, library=paths.LIBRARY, run=paths.RUN):
        command = [sys.executable, '-B', os.path.join(paths.TOOLS, 'cut'), '--library', library, '--run', run, *words]
        return subprocess.run(command, capture_output=True, text=True, encoding='utf-8', check=False)

    def written(self, folder):
        found = {}
        for name in sorted(os.listdir(folder)):
            with open(os.path.join(folder, name), 'rb') as file:
                found[name] = file.read()
        return found

    def test_the_statement(self):
        for library in (paths.LIBRARY, paths.STANDIN):
            with tempfile.TemporaryDirectory() as holder:
                folder = os.path.join(holder, 'pieces')
                made = self.run_cut(paths.real('statement-p01o01x01.part'), '--widths', paths.real('statement-p01.widths'), '--output', folder, library=library)
                self.assertEqual((made.returncode, made.stderr), (0, ''))
                self.assertEqual(made.stdout, paths.text('expected', 'cut-statement.txt'))
                self.assertEqual(self.written(folder), {'00001.part': STATEMENT[:3731], '00002.part': STATEMENT[3731:]})

    def test_parts_of_one_job_are_numbered_through(self):
        """The chain that the first part leaves open goes on in the second."""
        first, second = paths.real('marks48-p01o01x01.pad.part'), paths.real('marks48-p01o01x02.pad.part')
        with tempfile.TemporaryDirectory() as holder:
            both, alone = os.path.join(holder, 'both'), os.path.join(holder, 'alone')
            os.mkdir(alone)
            made = self.run_cut(first, second, '--output', both)
            self.assertEqual(made.stdout.splitlines()[-1], '2 pieces: 1,894 elements, 4,076 record bytes')
            self.assertEqual(list(self.written(both)), ['00001.part', '00002.part'])
            made = self.run_cut(second, '--after', first, '--output', alone)
            self.assertEqual(made.stdout.splitlines()[-1], '1 piece: 179 elements, 391 record bytes')
            self.assertEqual(self.written(alone)['00001.part'], self.written(both)['00002.part'])

    def test_the_increment_is_taken(self):
        with tempfile.TemporaryDirectory() as holder:
            part = os.path.join(holder, 'lines')
            with open(part, 'wb') as file:
                file.write(NEXT_LINE * 70 + b'\xC1')
            made = self.run_cut(part, '--increment', '240', '--output', os.path.join(holder, 'out'))
            self.assertEqual((made.returncode, made.stdout), (2, ''))
            self.assertEqual(made.stderr, f'cut: {part}: refused with 27 at 280: a character or a rule lies outside the sheet\n')
            made = self.run_cut(part, '--output', os.path.join(holder, 'out'))
            self.assertEqual((made.returncode, made.stdout.splitlines()[-1]), (0, '1 piece: 71 elements, 17 record bytes'))

    def test_a_disagreement_writes_nothing_and_ends_with_1(self):
        with tempfile.TemporaryDirectory() as holder:
            folder = os.path.join(holder, 'pieces')
            liar = os.path.join(paths.HERE, 'liar.py')
            made = self.run_cut(paths.real('payroll-p01o01x01.part'), '--output', folder, library=liar, run=f'{sys.executable} -B')
            self.assertEqual((made.returncode, made.stderr, os.listdir(holder)), (1, '', []))
            self.assertRegex(made.stdout, '^THE LIBRARY DISAGREES WITH ITSELF: .*\n(  .*\n)+nothing is written\n$')

    def test_tools_elements_shows_a_later_piece(self):
        with tempfile.TemporaryDirectory() as holder:
            folder, widths = os.path.join(holder, 'pieces'), ('--widths', paths.real('statement-p01.widths'))
            self.run_cut(paths.real('statement-p01o01x01.part'), *widths, '--output', folder)
            first, second = (os.path.join(folder, name) for name in ('00001.part', '00002.part'))
            command = [sys.executable, '-B', os.path.join(paths.TOOLS, 'elements'), '--library', paths.LIBRARY, '--run', paths.RUN]
            made = subprocess.run([*command, second, '--after', first, *widths], capture_output=True, text=True, encoding='utf-8', check=False)
            self.assertRegex(made.stdout.splitlines()[-1], '^accepted: 595 elements, 3,506 record bytes; ')


if __name__ == '__main__':
    unittest.main()
