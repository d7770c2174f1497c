"""tools/elements: what it prints for bundled parts, and that it notices a library that disagrees with itself.

With the argument `store` it writes the expected outputs again; look at the difference before it is kept."""
import os
import subprocess
import sys
import tempfile
import unittest

import paths
from cases import BYTES, LAST, REAL
from library.loaded import Loaded
from library.served import Served
from library.shapes import AREA, Answer, Descriptor, Entry, Interpreted, NoLibrary, State
from library.walk import disagreements, steps
from paths import LIBRARY, RUN, STANDIN
from ptoca.sheet import INCREMENT, descriptor as sheet_at
from ptoca.widths import every


def run_elements(part, *words, library=LIBRARY, run=RUN):
    command = [sys.executable, '-B', os.path.join(paths.TOOLS, 'elements'), part, '--library', library, '--run', run, *words]
    return subprocess.run(command, capture_output=True, text=True, encoding='utf-8', check=False)


def printed(name, library=LIBRARY):
    """What the tool prints for a case."""
    if name in REAL:
        part, words = REAL[name]
        return run_elements(paths.real(part), *words, library=library)
    with tempfile.TemporaryDirectory() as folder:
        part = os.path.join(folder, f'{name}.part')
        with open(part, 'wb') as file:
            file.write(bytes.fromhex(BYTES[name]))
        return run_elements(part, library=library)


class Expected(unittest.TestCase):
    """A test for each case: the text is the stored one, and nothing is wrong."""


class Standin(unittest.TestCase):
    """The same of the second implementation, loaded as a shared library."""


def against_stored(name, library):
    def test(self):
        made = printed(name, library)
        self.assertEqual((made.returncode, made.stderr), (0, ''))
        self.assertEqual(made.stdout, paths.text('expected', f'{name}.txt'))
    return test


for case in [*REAL, *BYTES]:
    setattr(Expected, 'test_' + case.replace('-', '_'), against_stored(case, LIBRARY))
    setattr(Standin, 'test_' + case.replace('-', '_'), against_stored(case, STANDIN))


def last_lines(name, words, expected):
    def test(self):
        made = run_elements(paths.real(name), *words)
        self.assertEqual((made.returncode, made.stderr), (0, ''))
        self.assertEqual(made.stdout.splitlines()[-len(expected):], expected)
    return test


class Increments(unittest.TestCase):
    """Two lines and a character, at the increment that is asked for."""

    def test_180_without_one_and_others(self):
        for words, increment in ((), 180), (('--increment', '240'), 240), (('--increment', '0'), 0), (('--increment', '7000'), 7000):
            with tempfile.TemporaryDirectory() as folder:
                part = os.path.join(folder, 'lines.part')
                with open(part, 'wb') as file:
                    file.write(bytes.fromhex('2BD302D902D8C1'))
                rows = run_elements(part, *words).stdout.splitlines()
            self.assertEqual(rows[0], f'lines.part: 7 bytes, baseline increment {increment:,}')
            self.assertEqual(rows[-1], f'accepted: 3 elements, 17 record bytes; ends at I 144, B {2 * increment}')


for file_name, (options, *ending) in LAST.items():
    setattr(Expected, 'test_end_of_' + file_name.split('-p')[0].replace('-', '_'), last_lines(file_name, options, ending))


class Lying:
    """A library that is right about elements and changes one thing about whole parts."""

    def __init__(self, library, whole, change):
        self.library, self.whole, self.change = library, whole, change

    def opened(self, descriptor):
        return self.library.opened(descriptor)

    def interpret(self, part, widths, area, descriptor, state):
        answer, after = self.library.interpret(part, widths, area, descriptor, state)
        if part == self.whole:
            self.change(answer, after, area)
        return answer, after


class Disagreeing(unittest.TestCase):
    @classmethod
    def setUpClass(cls):
        cls.library = Served([*RUN.split(), LIBRARY])

    @classmethod
    def tearDownClass(cls):
        cls.library.close()

    def told(self, hexadecimal, change):
        part, descriptor, area, whole_area = bytes.fromhex(hexadecimal), Descriptor(**sheet_at(INCREMENT)), bytearray(AREA), bytearray(AREA)
        library = Lying(self.library, part, change)
        _, start = library.opened(descriptor)
        whole, end = library.interpret(part, every(), whole_area, descriptor, start)
        return disagreements(list(steps(library, part, every(), area, descriptor, start)), start, (area, whole_area), whole, end)

    def test_the_truth_is_no_disagreement(self):
        self.assertEqual(self.told(BYTES['example'], lambda answer, after, area: None), [])
        self.assertEqual(self.told(BYTES['outside'], lambda answer, after, area: None), [])
        self.assertEqual(self.told(BYTES['value-second-chained'], lambda answer, after, area: None), [])

    def test_a_count(self):
        self.assertTrue(self.told(BYTES['example'], lambda answer, after, area: setattr(answer, 'first', 4)))

    def test_record_bytes(self):
        self.assertTrue(self.told(BYTES['example'], lambda answer, after, area: setattr(answer, 'second', 17)))

    def test_an_end(self):
        self.assertTrue(self.told(BYTES['example'], lambda answer, after, area: setattr(after, 'b', 0)))

    def test_an_area(self):
        self.assertTrue(self.told(BYTES['example'], lambda answer, after, area: area.__setitem__(3, 1)))

    def test_a_refusals_code(self):
        self.assertTrue(self.told(BYTES['outside'], lambda answer, after, area: setattr(answer, 'code', 28)))

    def test_a_refusals_offset(self):
        self.assertTrue(self.told(BYTES['outside'], lambda answer, after, area: setattr(answer, 'first', 5)))

    def test_a_refusals_offset_inside_its_element(self):
        for first in (8, 11, 13):
            said = self.told(BYTES['value-second-chained'], lambda answer, after, area: setattr(answer, 'first', first))
            self.assertEqual(said, [f'element by element 24 at 12, as a whole 24 at {first}'])

    def test_an_offset_outside_the_element(self):
        """Of one element alone the answer is changed both times, so that the two agree."""
        for first in (6, 4294967295):
            said = self.told(BYTES['value'], lambda answer, after, area: setattr(answer, 'first', first))
            self.assertEqual(said, [f'24 at {first}, outside the element, bytes 0 to 5'])
        self.assertEqual(self.told(BYTES['value'], lambda answer, after, area: setattr(answer, 'first', 5)), [])

    def test_the_tool_says_so_and_ends_with_1(self):
        made = run_elements(paths.real('payroll-p01o01x01.part'), library=os.path.join(paths.HERE, 'liar.py'), run=f'{sys.executable} -B')
        self.assertEqual((made.returncode, made.stderr), (1, ''))
        self.assertRegex(made.stdout, 'THE LIBRARY DISAGREES WITH ITSELF: .*\n  elements: element by element [0-9]+, as a whole [0-9]+\n')

    def test_a_refusal_of_what_passes_in_pieces(self):
        self.assertTrue(self.told(BYTES['example'], lambda answer, after, area: setattr(answer, 'code', 24)))


class Pieces(unittest.TestCase):
    def test_layouts_are_those_of_the_header(self):
        from ctypes import sizeof
        self.assertEqual([sizeof(kind) for kind in (Descriptor, State, Entry, Answer, Interpreted)], [48, 48, 112, 12, 60])

    def test_a_missing_library_is_an_error(self):
        self.assertRaises(NoLibrary, Loaded, os.path.join(paths.HERE, 'none.so'))
        self.assertRaises(NoLibrary, Served, [os.path.join(paths.HERE, 'none')])
        self.assertEqual(run_elements(paths.real('payroll-p01o01x01.part'), library='none.so').returncode, 2)


def store():
    for name in [*REAL, *BYTES]:
        made = printed(name)
        if made.returncode != 0:
            sys.exit(f'{name}: nothing to store: {made.stderr}')
        with open(os.path.join(paths.HERE, 'expected', f'{name}.txt'), 'w', encoding='utf-8') as file:
            file.write(made.stdout)


if __name__ == '__main__':
    if sys.argv[1:] == ['store']:
        store()
    else:
        unittest.main()
