"""What tools/page says about a sheet: caption, legend, why it is empty, what is out of range; and that it fits."""
import unittest

import paths  # makes the tools' modules importable
from page.fitting import fitted, measure
from page.ranges import EXTENT, drawn_size
from pictures import SVG, drawn, group, having, of, of_text, texts, tree_of

GREATEST = 2**32 - 1
PART = bytes.fromhex('2BD304C62F41C1')
ENTRY = {  # the numbers of a job just opened, in the order of its line
    'key': 5, 'open': 1, 'size_i': 12240, 'size_b': 15840, 'initial_i': 0, 'initial_b': 0, 'margin': 0, 'increment': 240, 'adjustment': 0,
    'direction': 0, 'font': 0, 'colour': 65287, 'rule': 14, 'hidden': 0, 'i': 0, 'b': 0, 'state_margin': 0, 'state_increment': 240,
    'state_adjustment': 0, 'state_direction': 0, 'state_font': 0, 'state_colour': 65287, 'space': 65535, 'suppression': 0, 'chain': 0,
    'next': 1, 'used': 0,
}
A_TEXT, A_BOX, A_BARE_RULE = 'T 720 480 0 65287 0 65535 C1C2\n', 'T 720 480 0 65287 0 65535 00\n', 'R 720 480 0 65287 0 14\n'


def job(records='', **numbers):
    """The picture of a job with these numbers."""
    line = ' '.join(str(number) for number in {**ENTRY, **numbers}.values())
    shown = of(f'JOB {line}\n{records}END\n')[0]
    if max(drawn_size(shown)) > EXTENT:
        raise AssertionError('the drawing of a sheet without a bound would fill the memory')
    return tree_of(shown)


def part(count, elements, records=''):
    return of_text(f'PART {count}\n{records}END 0 0 {elements} 0\n')


class Captions(unittest.TestCase):
    def test_the_numbers_of_a_part(self):
        self.assertEqual(texts(drawn('example'), 'facts'), ['12 bytes, 3 elements, 18 record bytes, ends at I 1,008, B 480'])

    def test_the_numbers_of_a_job(self):
        self.assertEqual(texts(drawn('job'), 'facts'), ['open, 2 parts placed, 51 record bytes, ends at I 1,924, B 720'])

    def test_what_the_printer_took_is_told(self):
        self.assertEqual(texts(job(next=3, used=34, taken=0), 'facts'), ['open, 2 parts placed, 34 record bytes, ends at I 0, B 0'])
        said = 'open, 2 parts placed, 7,580 record bytes taken by the printer, 34 in the area, ends at I 0, B 0'
        self.assertEqual(' '.join(texts(job(A_TEXT, next=3, used=34, taken=7580), 'facts')), said)

    def fine(self, tree):
        """The first row in fine print."""
        return texts(group(tree, 'caption'), 'fine')[0]

    def test_the_increment_of_a_job_is_its_descriptors(self):
        self.assertEqual(self.fine(job(increment=180, state_increment=50)), '8.5 by 11 inches, baseline increment 180; ruler in inches, letters by code page 500')
        self.assertIn(' baseline increment 4,294,967,295;', self.fine(job(increment=GREATEST)))

    def test_a_listing_is_said_to_be_made_at_one(self):
        shown = of('PART 0\nEND 0 0 0 0\n')[0]
        shown.descriptor['increment'] = 240
        self.assertEqual(self.fine(tree_of(shown)), '8.5 by 11 inches, baseline increment 240; ruler in inches, letters by code page 500')

    def test_else_it_is_not_told(self):
        self.assertEqual(self.fine(part(0, 0)), '8.5 by 11 inches, baseline increment not told; ruler in inches, letters by code page 500')

    def test_a_long_part_has_its_real_size(self):
        refused = 'PART 8193\nREFUSED 19 0\n'
        self.assertEqual(texts(of_text(refused, part=bytes(20000)), 'facts'), ['20,000 bytes, nothing placed'])
        self.assertEqual(texts(of_text(refused), 'facts'), ['more than 8,192 bytes, nothing placed'])
        self.assertEqual(texts(of_text('PART 8192\nREFUSED 27 0\n'), 'facts'), ['8,192 bytes, nothing placed'])


class Empty(unittest.TestCase):
    def assert_note(self, said, tree):
        self.assertEqual(' '.join(texts(group(tree, 'note'), 'empty')), said)

    def test_what_is_not_empty_says_nothing(self):
        for tree in (drawn('example'), drawn('job'), part(1, 1, A_BARE_RULE)):
            self.assert_note('', tree)

    def test_parts(self):
        self.assert_note('A refused part places nothing.', drawn('outside', part=PART))
        self.assert_note('The part is empty: it has no element.', part(0, 0))
        tail = ' Moves and settings leave none, nor do text and rules that are suppressed, text of no characters and rules with no ink.'
        self.assert_note('The one element leaves no record.' + tail, part(6, 1))
        self.assert_note('None of the 1,200 elements leaves a record.' + tail, part(7000, 1200))

    def test_jobs(self):
        self.assert_note('No part of the job is placed yet.', job())
        self.assert_note('The job was closed before a part was placed.', job(open=0))
        self.assert_note('No part of the job has left a record.', job(next=3))
        self.assert_note('No whole record stands at the start of the 7 record bytes.', job(next=3, used=7))
        self.assert_note('No job has been opened here yet.', job(open=0, key=0))
        self.assert_note('The printer has taken all that the job placed, 51 record bytes.', job(next=3, taken=51))
        self.assert_note('', job(A_TEXT, next=3, taken=51))

    def test_a_small_sheet_has_it_in_the_caption(self):
        tree = job(size_i=300, size_b=300)
        self.assert_note('', tree)
        self.assertIn('No part of the job is placed yet.', texts(group(tree, 'caption'), 'facts'))

    def test_the_end_mark_is_not_written_over(self):
        for height in (2500, 15840):
            for b in range(0, height, 60):
                place = float(having(group(job(size_b=height, b=b), 'note'), 'text', 'empty')[0].get('y'))
                self.assertGreater(abs(place - b), 400)
                self.assertTrue(400 < place < height - 400)


class Legend(unittest.TestCase):
    END, CORNERS = 'where it ends and the next element would begin', 'around all that was placed'

    def legend(self, tree):
        """All in fine print but the first row of it, which has the inches."""
        return texts(group(tree, 'caption'), 'fine')[1:]

    def signs(self, tree):
        kinds = ('path', 'line', 'rect')
        return [node.get('class') for node in group(tree, 'caption') if node.tag in [SVG + kind for kind in kinds]]

    def test_only_what_the_picture_has(self):
        self.assertEqual(self.legend(drawn('example')), [self.END, self.CORNERS])
        self.assertEqual(self.legend(drawn('outside')), [])
        self.assertEqual(self.legend(part(0, 0)), [self.END])
        self.assertEqual(self.legend(job(i=-1)), [])
        self.assertEqual(self.legend(job(i=-1, state_margin=720)), ['the inline margin'])
        self.assertEqual(self.legend(job(i=-1, state_margin=12240)), [])
        self.assertEqual(self.legend(part(1, 1, A_BOX)), [self.END, self.CORNERS, 'a byte that is no letter in code page 500'])
        self.assertEqual(self.legend(part(1, 1, A_BARE_RULE)), [self.END, self.CORNERS, 'a rule with no ink, recorded by an earlier edition'])

    def test_each_has_a_sign_of_its_kind(self):
        self.assertEqual(self.signs(job(A_BOX + A_BARE_RULE, state_margin=720)), ['end', 'corner', 'margin', 'box', 'bare'])
        self.assertEqual(self.signs(drawn('outside')), [])


class OutOfRange(unittest.TestCase):
    def warned(self, **numbers):
        return ' '.join(texts(job(**numbers), 'warning'))

    def test_nothing_is_said_of_what_is_in_range(self):
        self.assertEqual(self.warned(), '')
        self.assertEqual(self.warned(size_i=32767, size_b=1, i=-32768, next=65536, used=4096, space=4095, colour=0, taken=GREATEST), '')

    def test_a_size_is_drawn_as_far_as_there_are_sizes(self):
        tree = job(size_i=GREATEST, size_b=GREATEST)
        edge = having(tree, 'rect', 'sheet')[0]
        self.assertEqual((edge.get('width'), edge.get('height')), ('32767', '32767'))
        self.assertEqual(' '.join(texts(tree, 'warning')), 'Out of range in the descriptor: size along I 4,294,967,295, '
                         'size along B 4,294,967,295; the sheet is drawn 32,767 by 32,767')

    def test_a_size_of_0(self):
        self.assertEqual(self.warned(size_b=0), 'Out of range in the descriptor: size along B 0; the sheet is drawn 12,240 by 1')

    def test_next_0_is_no_count_of_parts(self):
        self.assertEqual(texts(job(next=0), 'facts')[0], 'open, next part 0, 0 record bytes, ends at I 0, B 0')
        self.assertEqual(self.warned(next=0), 'Out of range in the job: next part 0')

    def test_every_number_may_be_anything(self):
        for name in ENTRY:
            for number in (0, 1, 65535, 65536, GREATEST - 32768):
                tree = job(A_TEXT, **{name: number})
                self.assertLess(len(list(tree.iter())), 500)
                self.assertNotIn('-1 parts', ' '.join(texts(tree, 'facts')))

    def test_each_is_named(self):
        for name in ENTRY:
            if name != 'key':
                said = self.warned(**{name: GREATEST - 32768})
                where = 'descriptor' if list(ENTRY)[2:14].count(name) else 'job'
                self.assertRegex(said, f"^Out of range in the {where}: [a-zA-Z ]+ (4,294,934,527|X'FFFF7FFF')")

    def test_all_of_them_at_once(self):
        tree = job(A_TEXT, **{name: GREATEST - 32768 for name in ENTRY})
        self.assertLess(len(list(tree.iter())), 500)


class Fitting(unittest.TestCase):
    def assert_fits(self, tree):
        """Nothing that is said goes past the picture's edges, and no line stands on another."""
        left, top, width, height = map(int, tree.get('viewBox').split())
        taken = []
        for name in ('caption', 'refused'):
            for line in [*group(tree, name).iter(SVG + 'text')]:
                kind, x, y = line.get('class'), float(line.get('x')), float(line.get('y'))
                if kind in ('name', 'facts', 'warning', 'fine', 'refusal'):
                    self.assertLessEqual(x + measure(line.text, kind), left + width)
                    self.assertTrue(top < y < top + height)
                    taken.append((y, x, x + measure(line.text, kind)))
        taken.sort()
        for (y, _, right), (below, other, _) in zip(taken, taken[1:]):
            self.assertTrue(below - y >= 200 or below == y and other >= right, (y, below))

    def test_sheets_of_every_size(self):
        for size in (1, 300, 4999, 5000, 12240, 32767):
            self.assert_fits(job(size_i=size, size_b=size))
            self.assert_fits(job(A_BOX + A_BARE_RULE, size_i=size, size_b=size, state_margin=1))
        self.assert_fits(job(A_TEXT, **{name: GREATEST - 32768 for name in ENTRY}))
        self.assert_fits(job(A_TEXT, **{name: GREATEST - 32768 for name in ENTRY if name != 'size_i'}, size_i=1))

    def test_refused_parts(self):
        for code in range(10, 31):
            for offset in (0, 4, 6, GREATEST):
                self.assert_fits(of_text(f'PART 7\nREFUSED {code} {offset}\n', part=PART))

    def test_lines_are_no_wider_than_asked_and_lose_nothing(self):
        for text in ('one', 'one two three four five', 'm' * 300, 'a ' + 'W' * 100 + ' b', '印刷' * 40):
            for width in (400, 2000, 9000):
                lines = fitted(text, 'name', width)
                self.assertLessEqual(max(measure(line, 'name') for line in lines), width)
                self.assertEqual(''.join(lines).replace(' ', ''), text.replace(' ', ''))


if __name__ == '__main__':
    unittest.main()
